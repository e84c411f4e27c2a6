"""What Jenkins' variables become: `env`, `params`, `currentBuild`, `scm`."""
from groovy_reader import nodes as g

from .names import word_of
from .words import OF_BUILDS, OF_JOBS, OF_NODES


# Of `currentBuild` what its map has; a build of a folder is always its first.
OF_CURRENT = {"result", "currentResult", "displayName", "description", "number", "id", "previousBuild", "changeSets", "fullDisplayName",
              "projectName"}


class JenkinsNames:
    """Rules of a Rewriter on names, and on the properties of what Jenkins gives a script."""

    def on_Name(self, node):
        """A name that no variable and no function has: one of Jenkins, of the environment, or of nothing."""
        name = node.name
        if self.is_variable(node, name) or name in self.own_functions or name == "it" or name in self.context.modules:
            return
        parent = self.parent(node)
        if isinstance(parent, g.Call) and parent.what is node:
            return
        if name == "env" and isinstance(parent, (g.Property, g.Index)):
            return
        if name in ("params", "currentBuild"):
            self.context.uses.add(name)
        elif name == "scm":
            self.context.uses.add("scm")
            if self.context.scm is None:
                self.found.refuse(node, "`scm`: give the repository by `--scm URL`, or `--scm URL#BRANCH`")
        elif name in self.context.parameters and not self.is_of_environment(name):
            self.context.uses.add("params")
            self.edits.replace(node.begin, node.end, f"params.{name}")
        elif self.is_of_environment(name):
            self.a_variable_of_environment(node, name, node)
        elif name == "docker":
            self.found.refuse(node, "`docker`: have an agent whose steps run in containers of that image (docs/USING.md, \"Run on other machines\")")
        elif name[:1].isupper() or name in ("java", "groovy", "hudson", "jenkins", "org", "manager", "sshagent"):
            self.found.refuse(node, f"`{name}`: there are no classes and no objects of plugins")
        else:
            self.found.refuse(node, f"nothing has the name `{name}`: give functions by `--vars`")

    def is_unknown(self, node):
        """Whether nothing that a script can have is named so, which `on_Name` tells."""
        name = node.name
        return not (self.is_variable(node, name) or name in ("it", "params", "currentBuild", "scm", "env") or name in self.context.modules
                    or name in self.context.parameters or self.is_of_environment(name))

    def is_of_environment(self, name):
        return name in OF_NODES or name in OF_JOBS or name in OF_BUILDS or name in self.context.environment or name in self.context.with_names \
            or name in self.context.set_names or name.isupper() and name.isidentifier()

    def a_property(self, node):
        """`env.X`, `params.X`, `currentBuild.X`."""
        on, name = node.on, word_of(node.name)
        parent = self.parent(node)
        is_target = isinstance(parent, g.Assignment) and parent.target is node
        if not isinstance(on, g.Name) or self.is_variable(node, on.name):
            self.is_thrown_causes(node)
        elif on.name == "env" and name is not None:
            if is_target:
                self.context.uses.add("env")
                if name in self.context.with_names:
                    self.found.refuse(node, f"`env.{name}` is set, and `withEnv` sets it too: use two names")
                self.a_value_of_environment(parent)
            else:
                self.a_variable_of_environment(node, name, node)
        elif on.name == "currentBuild" and name is not None:
            self.a_property_of_build(node, name, is_target)
        elif on.name == "params" and name is not None and self.context.parameters and name not in self.context.parameters:
            self.found.note(node, f"`params.{name}` is null: the script declares no such parameter")

    def a_value_of_environment(self, assignment):
        """A variable of the environment is a text, whatever it is set to."""
        value = assignment.value
        if isinstance(value, g.Constant) and value.word == "null":
            self.found.refuse(value, "`null` as a variable of the environment: write `''`")
        elif self.names.kind(value) != "text" and assignment.sign == "=" and not isinstance(value, g.Assignment):
            self.need("textOf", value)
            self.edits.around(value, "textOf(", ")")
            if isinstance(value, g.Call) and value.form == "command":
                self.valued.add(id(value))

    def a_variable_of_environment(self, node, name, written):
        """A variable of the environment is read from the build's own map, or by a shell step where a node or `withEnv` sets it."""
        own = self.context
        if name in own.credential_names:
            self.found.refuse(node, f"`{name}` of credentials in the script itself: leave it to the shell, in a text between single quotes")
            return
        if name in own.set_names and (name in own.with_names or own.has_open_overrides):
            self.found.refuse(node, f"`{name}` is set by `env` and may be set by `withEnv` too: use two names")
            return
        is_bare = isinstance(self.parent(written), g.Embedded) and not self.parent(written).has_braces
        is_plain_read = name in own.set_names or name in OF_BUILDS or (name in own.environment or name in OF_JOBS) and not own.has_open_overrides
        if is_plain_read and name not in own.with_names:
            own.uses.add("env")
            if isinstance(written, g.Name):
                self.edits.replace(written.begin, written.end, f"env.{name}")
            if name in OF_JOBS and name not in own.environment and name not in own.set_names:
                self.found.note(node, f"`{name}` is null: give it by `-e {name}=VALUE`")
            return
        self.need("environmentOf", node)
        told = f"environmentOf('{name}')"
        self.edits.replace(written.begin, written.end, "{" + told + "}" if is_bare else told)
        self.skip(written)
        self.found.changed(node, f"`{name}` of the environment is read by a shell step: `{told}`")

    def on_index_of_environment(self, node):
        """`env['X']` is `env.X`."""
        inner = node.items[0].value if len(node.items) == 1 else None
        if isinstance(inner, g.Text):
            parent = self.parent(node)
            if isinstance(parent, g.Assignment) and parent.target is node:
                self.context.uses.add("env")
                self.a_value_of_environment(parent)
            else:
                self.a_variable_of_environment(node, inner.value, node)
        else:
            self.found.refuse(node, "`env[..]` of a name that is not written out")

    def a_property_of_build(self, node, name, is_target):
        """`currentBuild.X`, read or set."""
        self.context.uses.add("currentBuild")
        if name not in OF_CURRENT:
            self.found.refuse(node, f"`currentBuild.{name}`")
        elif is_target and name == "result":
            assignment = self.parent(node)
            self.need("setResult", node)
            self.edits.replace(assignment.begin, assignment.value.begin, "setResult(")
            self.edits.behind(assignment.end, ")")
            self.skip(node)
            self.found.changed(node, "`currentBuild.result = r` becomes `setResult(r)` of the library, which logs it")
        elif is_target and name in ("displayName", "description"):
            self.found.note(node, f"`currentBuild.{name}` is kept for the script; nothing shows it")
        elif is_target:
            self.found.refuse(node, f"`currentBuild.{name}` cannot be set")

    def is_thrown_causes(self, node):
        """`e.causes` of what a catch names becomes a function of the library."""
        if isinstance(node.on, g.Name) and word_of(node.name) == "causes" and node.on.name in self.caught:
            self.need("causesOf", node)
            self.edits.replace(node.begin, node.end, f"causesOf({node.on.name})")
            self.skip(node)
            self.found.changed(node, "`e.causes` becomes `causesOf(e)` of the library")
            return True
        return False
