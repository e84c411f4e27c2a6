"""A prepared script: the rewritten Jenkinsfile with what it needs in front of its first statement and behind its last line."""
import os

from groovy_reader import nodes as g, read
from lint_rules.exact import first_fault
from lint_rules.linting import findings_of

from . import library, parameters, places
from .edits import Lines
from .findings import CHANGED, Finding, Findings, NOTE, REFUSED
from .names import Names, is_call_of, is_of, word_of
from .rewrite import Module, Rewriter, caught_classes, functions_of
from .spelling import literal
from .words import OF_BUILDS


class Options:
    """What the words of the command say."""

    def __init__(self, given=None, environment=None, dropped=(), vars_folder=None, scm=None, folder=None):
        self.parameters, self.environment = dict(given or {}), dict(environment or {})
        self.dropped, self.vars, self.scm, self.folder = list(dropped), vars_folder, scm, folder


class Context:
    """What the files of one build share: what is known of them before they are rewritten, and what the rules ask for then."""

    def __init__(self, options, main, modules, found):
        scripts = [main, *(it.script for it in modules.values())]
        self.modules, self.scm = modules, options.scm
        # Of each step that is left out the calls.
        self.dropped = {name: [] for name in options.dropped}
        names = Names(scripts)
        # The variables without `def`, which each function sees; the classes that a `catch` names; whether the result is read.
        self.assigned = names.assigned | names.fields
        self.caught_classes = caught_classes(scripts)
        self.reads_result = any(map(is_read, scripts))
        self.library = set(library.items()) - {name for script in scripts for name in names_of_functions(script)}
        self.parameters = parameters.values(parameters.declared(main, found), options.parameters)
        self.environment = {**{name: plain(value) for name, value in self.parameters.items()}, **options.environment}
        self.take_setters(scripts)
        # Where all of the script stands in one `withEnv`; else the variables are set as if by `env`.
        self.is_wrapped = bool(self.environment) and is_one_piece(main)
        if not self.is_wrapped:
            self.set_names |= set(self.environment)
        # The functions of the library and the variables of Jenkins that are needed, the `load`s that became functions, what was noted,
        # and how many names were made.
        self.needed, self.uses, self.loads, self.noted, self.fresh = set(), set(), set(), set(), 0

    def take_setters(self, scripts):
        """The names of the environment that `env`, `withEnv` and credentials set, and whether a `withEnv` may set others too."""
        calls = [it for script in scripts for it in script.walk() if isinstance(it, g.Call) and isinstance(it.what, g.Name)]
        overrides = [it for it in calls if it.what.name == "withEnv"]
        credentials = [it for it in calls if it.what.name == "withCredentials"]
        self.has_credentials = bool(credentials)
        self.set_names = {name for script in scripts for name in set_by_env(script)}
        self.credential_names = {name for it in credentials for name in named_in(it)}
        self.with_names = self.credential_names | {name for it in overrides for name in named_in(it)}
        self.has_open_overrides = not all(map(is_closed, overrides))


def names_of_functions(script):
    return [it.name.name for it in functions_of(script)]


def plain(value):
    return str(value).lower() if isinstance(value, bool) else str(value)


def set_by_env(script):
    """The names that a script sets by `env.NAME = ..` or `env['NAME'] = ..`."""
    for target in (node.target for node in script.walk() if isinstance(node, g.Assignment)):
        if is_of(target, "env") and word_of(target.name) is not None:
            yield target.name.name
        elif isinstance(target, g.Index) and word_of(target.on) == "env" and isinstance(target.items[0].value, g.Text):
            yield target.items[0].value.value


def named_in(call):
    """The variables that `withEnv` or `withCredentials` sets, as far as they are written out."""
    for node in (inner for it in call.arguments if not isinstance(it.value, g.Closure) for inner in it.walk()):
        if isinstance(node, g.Argument) and (word_of(node.key) or "").lower().endswith("variable") and isinstance(node.value, g.Text):
            yield node.value.value
        front = front_of(node)
        name = front.split("=")[0].split("+")[0]
        if "=" in front and name.isidentifier():
            yield name


def front_of(node):
    """The front of a text, as far as it is written out."""
    if isinstance(node, g.Text):
        return node.value
    first = node.parts[0] if isinstance(node, g.GString) and node.parts else None
    return first.value if isinstance(first, g.TextPart) else ""


def is_closed(call):
    """Whether all names that a `withEnv` sets are written out."""
    given = call.arguments[0].value if call.arguments else None
    return isinstance(given, g.ListLiteral) and len(list(named_in(call))) >= len(given.items)


def is_read(script):
    """Whether a script reads the result of its build."""
    targets = {id(it.target) for it in script.walk() if isinstance(it, g.Assignment)}
    return any(is_of(it, "currentBuild") and id(it) not in targets and word_of(it.name) in ("result", "currentResult") for it in script.walk())


def is_run(node):
    """Whether a statement of the top level runs, as functions and imports do not."""
    inner = without_annotations(node)
    is_library = isinstance(node, g.Annotated) and any(it.name == "Library" for it in node.annotations)
    return not (is_library or inner is None or isinstance(inner, (g.Function, g.Import, g.Package, g.ClassDefinition)))


def without_annotations(node):
    return node.statement if isinstance(node, g.Annotated) else node


def is_one_piece(script):
    """Whether something runs, and no function stands between two statements that run."""
    running = [at for at, it in enumerate(script.statements) if is_run(it)]
    between = script.statements[running[0] : running[-1]] if running else []
    return bool(running) and not any(isinstance(without_annotations(it), g.Function) for it in between)


# --- the files


def read_file(path):
    with open(path, encoding="utf-8", newline="") as file:
        return file.read()


def read_tree(path):
    return read(read_file(path).replace("\r\n", "\n"))


def modules_of(options, main, file, found):
    """The files of functions that the script may call."""
    made = {}
    if options.vars:
        for name in sorted(os.listdir(options.vars)):
            if name.endswith(".groovy"):
                path = f"{options.vars}/{name}"
                made[name[:-7]] = Module(name[:-7], path, read_tree(path))
    for node in main.walk():
        if isinstance(node, g.Declaration) and len(node.names) == 1 and is_load(node.names[0].value):
            path = os.path.join(os.path.dirname(file), node.names[0].value.arguments[0].value.value)
            name = node.names[0].name.name
            try:
                made[name] = Module(name, path, read_tree(path))
            except OSError:
                found.refuse(node, f"`load`: there is no file {path}")
    return made


def is_load(node):
    """Whether a node is a `load` of a path that is written out."""
    return is_call_of(node, "load") and len(node.arguments) == 1 and isinstance(node.arguments[0].value, g.Text)


def used_modules(main, modules):
    """The modules that a script names, and those that these name."""
    used, rest = {}, [main]
    while rest:
        script = rest.pop()
        for node in script.walk():
            if isinstance(node, g.Name) and node.name in modules and node.name not in used:
                used[node.name] = modules[node.name]
                rest.append(modules[node.name].script)
    return used


class Prepared:
    """What came of a Jenkinsfile: the text, and all findings."""

    def __init__(self, source, file, options):
        self.file, self.options = file, options
        main = read(source.replace("\r\n", "\n"))
        early = Findings(main, file)
        if "\r\n" in source:
            early.add(CHANGED, 0, "line ends of Windows become those of Unix, as Groovy reads them in texts")
        loaded = used_modules(main, modules_of(options, main, file, early))
        self.context = Context(options, main, loaded, early)
        self.rewriter = Rewriter(self.context, main, file)
        self.rewriter.found.all += early.all
        self.take_loads(main)
        self.rewriter.all()
        self.parts = [self.of_module(it) for it in loaded.values()]
        self.text = self.whole(main)
        self.findings = sorted({*self.rewriter.found.all, *(it for part in self.parts for it in part.found.all)})
        if not self.refused():
            self.findings += self.left()
        self.sources = {file: main.source, **{it.file: it.script.source for it in loaded.values()}}

    def refused(self):
        return [it for it in self.findings if it.kind == REFUSED]

    def left(self):
        """What `check` would still refuse of the script, and what `lint` tells of what is left of it."""
        lines, map_ = Lines(self.text), places.Places(self.text, self.file)

        def finding(kind, at, text):
            file, line, column = map_.of(*lines.place(at))
            return Finding(self.file if file == os.path.abspath(self.file) else file, line, column, kind, text)

        fault = first_fault(self.text)
        if fault is not None:
            return [finding(REFUSED, fault[1], f"the script that comes of it has the fault `{fault[0]}` here")]
        known = {(it.file, it.line) for it in self.findings if it.kind == NOTE}
        told = [finding(NOTE, it.begin, it.sentence()) for it in findings_of(self.text) if it.stops()]
        return [it for it in told if it.file in (self.file, *(part.file for part in self.parts)) and (it.file, it.line) not in known]

    def take_loads(self, main):
        for node in main.walk():
            if isinstance(node, g.Declaration) and len(node.names) == 1 and is_load(node.names[0].value):
                call = node.names[0].value
                self.context.loads.add(id(call))
                self.rewriter.edits.replace(call.begin, call.end, literal(call.arguments[0].value.value))
                self.rewriter.skip(call)
                self.rewriter.found.changed(node, f"the functions of {call.arguments[0].value.value} come into the script, as they are now")

    def of_module(self, module):
        """A file of functions, rewritten."""
        made = Rewriter(self.context, module.script, module.file, module)
        made.all()
        for node in module.script.statements:
            inner = without_annotations(node)
            is_end = isinstance(node, g.Return) and isinstance(node.value, g.Constant) and node.value.word == "this"
            if is_end:
                made.edits.replace(node.begin, node.end, "")
            elif is_run(node) and not isinstance(inner, g.Function):
                made.found.refuse(node, "a statement beside the functions of such a file")
        return made

    # --- the text

    def whole(self, main):
        """The script: its own lines first, each at its number, then what was added, then the map."""
        self.set_in_front(main)
        text, pieces = self.rewriter.edits.applied()
        lines = places.pieces_of(text, pieces, main.place)
        text = text if text.endswith("\n") else text + "\n"
        functions = []

        def add(file, code, line=1):
            nonlocal text
            functions.append((text.count("\n") + 1, line, file))
            text += code if code.endswith("\n") else code + "\n"

        if self.rewriter.added:
            add(self.file, "\n".join(self.rewriter.added))
        for part in self.parts:
            code, _ = part.edits.applied()
            add(part.file, code)
            if part.added:
                add(part.file, "\n".join(part.added))
        for name, calls in sorted(self.context.dropped.items()):
            if calls:
                add("tools/prepare", dropped(name, calls))
        for it in library.needed(self.context.needed & self.context.library):
            add(f"library/{it.path}", it.code, it.first)
        if not lines and not functions:
            return text
        return f"{text}{places.HEAD}of {os.path.abspath(self.file)}\n" + places.told(lines, functions)

    def set_in_front(self, main):
        """What the script needs before its first statement, on the line of that statement; and what is around all of it."""
        runs = [it for it in main.statements if is_run(it)]
        front = "".join(f"{it}; " for it in self.settings())
        back = ""
        if self.context.is_wrapped and self.has_shell_steps(main):
            overrides = ", ".join(literal(f"{name}={value}") for name, value in sorted(self.context.environment.items()))
            front, back = f"{front}withEnv([{overrides}]) {{ ", " }"
        if not front or not runs:
            return
        edits = self.rewriter.edits
        edits.fronts[runs[0].begin].insert(0, front)
        edits.backs[runs[-1].end].append(back)

    def has_shell_steps(self, main):
        return any(isinstance(it, g.Name) and it.name == "sh" for it in main.walk()) or bool(self.context.needed)

    def settings(self):
        """The variables of Jenkins that the script reads."""
        context = self.context
        needed = {it.name for it in library.needed(context.needed & context.library)}
        if "params" in context.uses:
            yield f"params = {written(context.parameters)}"
        if "env" in context.uses or context.set_names:
            yield f"env = {written({**OF_BUILDS, **context.environment})}"
        if "currentBuild" in context.uses or context.reads_result or "noteResult" in needed:
            yield "currentBuild = [number: 1, id: '1', displayName: '#1', description: null, result: null, currentResult: 'SUCCESS', " \
                "previousBuild: null, changeSets: []]"
        if "scm" in context.uses and context.scm:
            url, _, branch = context.scm.partition("#")
            yield f"scm = ['$class': 'GitSCM', url: {literal(url)}, branch: {literal(branch or 'HEAD')}, extensions: [], " \
                f"branches: [[name: {literal(branch or 'HEAD')}]], userRemoteConfigs: [[url: {literal(url)}]]]"
        if needed & {"archiveArtifacts", "stash", "unstash"}:
            yield f"buildFolder = {literal(self.options.folder or os.path.dirname(os.path.abspath(self.file)))}"


def written(values):
    """A map as it is written in the language."""
    def entry(value):
        if isinstance(value, bool):
            return "true" if value else "false"
        return literal(value) if isinstance(value, str) else "null" if value is None else str(value)

    return "[" + (", ".join(f"{literal(name)}: {entry(value)}" for name, value in values.items()) or ":") + "]"


def dropped(name, calls):
    """A function in place of a step that is left out."""
    has_body = any(trailing for _, trailing in calls)
    return f"def {name}(given, body) {{ return body() }}" if has_body else f"def {name}(given) {{ return null }}"
