"""The parameters that a script declares, with their defaults, and those that are given."""
from groovy_reader import nodes as g

from .names import key_of

FORMS = {"string": "text", "text": "text", "booleanParam": "boolean", "choice": "choice", "password": "text", "credentials": "text",
         "StringParameterDefinition": "text", "TextParameterDefinition": "text", "BooleanParameterDefinition": "boolean",
         "ChoiceParameterDefinition": "choice"}


class Wrong(Exception):
    """A parameter that is not declared, or a value that it does not take."""


def constant(node):
    """The value of an expression that is written out."""
    if isinstance(node, g.Text):
        return node.value
    if isinstance(node, g.Number) and node.written.isdigit():
        return int(node.written)
    if isinstance(node, g.Constant):
        return {"true": True, "false": False, "null": None}.get(node.word)
    if isinstance(node, g.ListLiteral):
        return [constant(it.value) for it in node.items]
    raise ValueError


def entries(pairs):
    """The entries with names of a call or a map."""
    return {key_of(it.key): it.value for it in pairs if it.key is not None}


def declared(script, found):
    """The parameters that a script declares by `properties`: their forms and defaults."""
    made = {}
    for node in script.walk():
        if not (isinstance(node, g.Call) and isinstance(node.what, g.Name) and node.what.name in ("parameters", "properties")):
            continue
        # With braces they are those of a Declarative Pipeline.
        if node.what.name == "parameters" and not node.trailing:
            refuse_unknown(node, found)
        for inner in node.walk():
            if isinstance(inner, g.Call) and isinstance(inner.what, g.Name):
                declare(made, inner.what.name, entries(inner.arguments), inner, found)
            elif isinstance(inner, g.MapLiteral):
                kind = entries(inner.entries).get("$class")
                if isinstance(kind, g.Text):
                    declare(made, kind.value.split(".")[-1], entries(inner.entries), inner, found)
    return made


def refuse_unknown(node, found):
    """Refuses parameters that are not written out, or of forms that are not known here."""
    given = node.arguments[0].value if node.arguments else None
    items = [it.value for it in given.items] if isinstance(given, g.ListLiteral) else [given]
    for it in items:
        if not (isinstance(it, g.Call) and isinstance(it.what, g.Name) and it.what.name in FORMS):
            found.refuse(it or node, "a parameter that is not one of string, text, booleanParam, choice, password, credentials, written out")


def declare(made, form, given, node, found):
    """Notes a parameter that a call or a map declares."""
    if form not in FORMS or "name" not in given:
        return
    try:
        name, default = constant(given["name"]), constant(given["defaultValue"]) if "defaultValue" in given else None
        choices = constant(given["choices"]) if "choices" in given else []
    except ValueError:
        found.refuse(node, "a parameter whose name or default is not written out")
        return
    choices = choices.split("\n") if isinstance(choices, str) else choices
    kind = FORMS[form]
    if default is None:
        default = {"text": "", "boolean": False, "choice": choices[0] if choices else ""}[kind]
    made[name] = (kind, choices, default)


def values(made, given):
    """The values of the parameters: those given in place of the defaults. Without a declaration any may be given, as texts."""
    told = {name: default for name, (_, _, default) in made.items()}
    for name, value in given.items():
        if made and name not in made:
            raise Wrong(f"the script declares no parameter {name}")
        kind, choices, _ = made.get(name, ("text", [], ""))
        if kind == "boolean" and value not in ("true", "false"):
            raise Wrong(f"{name} is true or false, and not {value!r}")
        if kind == "choice" and choices and value not in choices:
            raise Wrong(f"{name} is one of {', '.join(choices)}, and not {value!r}")
        told[name] = value == "true" if kind == "boolean" else value
    return told
