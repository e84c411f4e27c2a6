"""What of Groovy's exceptions is outside the product's language, written in it: `catch` of classes, and what is thrown."""
from groovy_reader import nodes as g

from .spelling import literal, simple
from .words import BELOW, RUNTIME, THROWN


class Exceptions:
    """Rules of a Rewriter on `try` and on `new`."""

    def on_Try(self, node):
        """Its catches, where the language does not have them as they are."""
        if node.resources:
            self.found.refuse(node, "a `try` with resources")
        wanted = [[simple(it.name) for it in catch.types] for catch in node.catches]
        if all(types in ([], ["Exception"], ["Throwable"]) for types in wanted):
            for catch in node.catches:
                self.plain_catch(catch)
            return
        for catch, types in zip(node.catches, wanted):
            for name in types:
                if name not in BELOW and name not in ("Exception", "Throwable"):
                    self.found.refuse(catch, f"a catch of {name}, which nothing here throws")
                    return
        self.one_catch(node, wanted)

    def plain_catch(self, node):
        """A catch of a class that the language has, without dots and modifiers."""
        if node.types:
            begin = self.source.index("(", node.begin) + 1
            self.replace_if_other(begin, node.name.begin, simple(node.types[0].name) + " ")
        else:
            self.replace_if_other(self.source.index("(", node.begin) + 1, node.name.begin, "")

    def replace_if_other(self, begin, end, text):
        if self.source[begin:end].split() != text.split():
            self.edits.replace(begin, end, text)

    def one_catch(self, node, wanted):
        """Several catches, or one of another class, become one of all with a test of the class."""
        name, is_all = node.catches[0].name.name, False
        for at, (catch, types) in enumerate(zip(node.catches, wanted)):
            test = self.class_test(name, types)
            is_all = is_all or test is None
            head = f"catch (Throwable {name}) {{ " if at == 0 else ""
            word = "" if at == 0 else " else "
            tested = f"if ({test}) " if test else "if (true) " if at == 0 else ""
            again = "" if catch.name.name == name else f" def {catch.name.name} = {name};"
            self.edits.replace(catch.begin, catch.body.begin + 1, f"{head}{word}{tested}{{{again}")
        self.edits.behind(node.catches[-1].body.end, " }" if is_all else f" else {{ throw {name} }} }}")
        told = ", ".join(" | ".join(types) or "Exception" for types in wanted)
        self.found.changed(node.catches[0], f"catches of {told} become one with a test of the class")

    def class_test(self, name, types):
        """A test whether a throwable is of one of the classes; None where every one is."""
        if "Throwable" in types:
            return None
        self.need("isThrown")
        if types in ([], ["Exception"]):
            return f"!isThrown({name}, ['java.lang.NoSuchMethodError', 'java.lang.Error'])"
        classes = sorted({THROWN[below] for it in types for below in BELOW.get(it, [])})
        return f"isThrown({name}, [{', '.join(map(literal, classes))}])"

    def on_New(self, node):
        """A throwable of the language, one that can stand for another, or an empty list or map."""
        name, parent = simple(node.type.name), self.parent(node)
        if node.has_body or node.is_array or len(node.arguments) > 1:
            self.found.refuse(node, f"`new {name}` with such arguments")
        elif name in ("Exception", "RuntimeException", "Error"):
            self.replace_if_other(node.type.begin, node.type.end, name)
        elif name == "AbortException" and isinstance(parent, g.Throw) and node.arguments:
            self.edits.replace(parent.begin, node.arguments[0].begin, "error(")
            self.found.changed(node, "`throw new AbortException(m)` becomes `error(m)`, which throws one")
        elif name in RUNTIME and not self.is_caught(name):
            self.edits.replace(node.type.begin, node.type.end, "RuntimeException")
            self.found.changed(node, f"{name} becomes RuntimeException: nothing catches it by its class; the log has the other name")
        elif name in ("ArrayList", "LinkedList") and not node.arguments:
            self.edits.replace(node.begin, node.end, "[]")
        elif name in ("HashMap", "LinkedHashMap", "TreeMap") and not node.arguments and name != "TreeMap":
            self.edits.replace(node.begin, node.end, "[:]")
        else:
            self.found.refuse(node, f"`new {name}`: there are no classes; a shell step can do it")
