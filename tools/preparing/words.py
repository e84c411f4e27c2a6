"""What the product's language has, and what Jenkins sets: the tables by which a script is prepared."""

# Words that are never a name of a key or a property (docs/LANGUAGE.md, Tokens).
WORDS = frozenset("""def void if else while for in return break continue try catch finally throw new true false null import package class
    interface enum trait extends implements static final switch case default do assert as instanceof this super""".split())

STEPS = frozenset("println echo error unstable stage catchError retry node dir withEnv sh input parallel".split())

# The methods of the language, each with the numbers of arguments that it takes (docs/LANGUAGE.md, Methods).
METHODS = {
    "toString": {0}, "equals": {1}, "size": {0}, "length": {0}, "isEmpty": {0}, "trim": {0}, "toUpperCase": {0}, "toLowerCase": {0},
    "contains": {1}, "startsWith": {1}, "endsWith": {1}, "indexOf": {1}, "replace": {2}, "substring": {1, 2}, "tokenize": {0, 1},
    "readLines": {0}, "toInteger": {0}, "add": {1}, "get": {1}, "first": {0}, "last": {0}, "join": {1}, "reverse": {0},
    "containsKey": {1}, "put": {2}, "remove": {1}, "keySet": {0}, "values": {0}, "each": {1}, "collect": {1}, "find": {1},
    "findAll": {1}, "any": {1}, "every": {1}, "times": {1}, "intdiv": {1}, "getMessage": {0},
}

# Methods of Groovy that a function of `library/helpers` does, with the numbers of arguments behind the receiver. No kind of value of
# the language has a method of that name with so many arguments.
FUNCTIONS = {
    "capitalize": {0}, "take": {1}, "drop": {1}, "sort": {0, 1}, "sum": {0}, "max": {0}, "min": {0}, "unique": {0}, "collectEntries": {1},
    "inject": {2}, "eachWithIndex": {1}, "split": {0, 1}, "toBoolean": {0}, "isInteger": {0}, "isNumber": {0}, "padLeft": {1, 2},
    "padRight": {1, 2}, "multiply": {1}, "addAll": {1}, "flatten": {0}, "findIndexOf": {1}, "count": {1}, "equalsIgnoreCase": {1},
    "lastIndexOf": {1}, "stripIndent": {0}, "collectMany": {1}, "putAll": {1}, "minus": {1}, "toList": {0}, "charAt": {1},
    "withIndex": {0}, "leftShift": {1}, "push": {1}, "subList": {2},
}

# Functions with another number of arguments: a default that Groovy gives.
LEFT_OUT = {("join", 0): "''"}

# The classes of throwables of the language, and which of them each class of a `catch` takes.
THROWN = {
    "AbortException": "hudson.AbortException", "FlowInterruptedException": "org.jenkinsci.plugins.workflow.steps.FlowInterruptedException",
    "ArithmeticException": "java.lang.ArithmeticException", "MissingPropertyException": "groovy.lang.MissingPropertyException",
    "MissingMethodException": "groovy.lang.MissingMethodException", "NullPointerException": "java.lang.NullPointerException",
    "IllegalArgumentException": "java.lang.IllegalArgumentException", "IndexOutOfBoundsException": "java.lang.IndexOutOfBoundsException",
    "NumberFormatException": "java.lang.NumberFormatException", "NoSuchElementException": "java.util.NoSuchElementException",
    "MissingContextVariableException": "org.jenkinsci.plugins.workflow.steps.MissingContextVariableException",
    "RuntimeException": "java.lang.RuntimeException", "NoSuchMethodError": "java.lang.NoSuchMethodError", "Error": "java.lang.Error",
}
BELOW = {
    "IOException": ["AbortException"], "InterruptedException": ["FlowInterruptedException"],
    "IllegalArgumentException": ["IllegalArgumentException", "NumberFormatException"],
    "IndexOutOfBoundsException": ["IndexOutOfBoundsException"],
    "GroovyRuntimeException": ["MissingPropertyException", "MissingMethodException"],
    "RuntimeException": ["RuntimeException", "ArithmeticException", "MissingPropertyException", "MissingMethodException",
                         "NullPointerException", "IllegalArgumentException", "IndexOutOfBoundsException", "NumberFormatException",
                         "NoSuchElementException"],
    "Error": ["Error", "NoSuchMethodError"], "NoSuchMethodError": ["NoSuchMethodError"],
    **{name: [name] for name in ("AbortException", "FlowInterruptedException", "ArithmeticException", "MissingPropertyException",
                                 "MissingMethodException", "NullPointerException", "NumberFormatException", "NoSuchElementException",
                                 "MissingContextVariableException")},
}
# Classes of exceptions that a script throws itself, which become a RuntimeException with the same message.
RUNTIME = frozenset("IllegalStateException IllegalArgumentException UnsupportedOperationException".split())

# Variables that a node sets for its shell steps; those of the machine are read there too.
OF_NODES = frozenset("NODE_NAME EXECUTOR_NUMBER WORKSPACE WORKSPACE_TMP NODE_LABELS HOME PATH USER SHELL LANG TMPDIR".split())
# Variables that Jenkins sets for a build by its job: null where `-e` does not give them.
OF_JOBS = frozenset("""BRANCH_NAME BRANCH_IS_PRIMARY CHANGE_ID CHANGE_URL CHANGE_TITLE CHANGE_AUTHOR CHANGE_TARGET CHANGE_BRANCH CHANGE_FORK
    TAG_NAME TAG_TIMESTAMP BUILD_URL JOB_URL JENKINS_URL JENKINS_HOME RUN_DISPLAY_URL GIT_COMMIT GIT_BRANCH GIT_URL CI BUILD_CAUSE
    BUILD_USER HUDSON_URL STAGE_NAME""".split())
OF_BUILDS = {"BUILD_NUMBER": "1", "BUILD_ID": "1", "BUILD_DISPLAY_NAME": "#1"}

# Properties of a job that say when and how Jenkins begins and keeps builds; nothing here does so.
OF_THE_JOB = frozenset("""buildDiscarder logRotator disableConcurrentBuilds pipelineTriggers durabilityHint disableResume githubProjectProperty
    cron pollSCM upstream rateLimitBuilds overrideIndexTriggers preserveStashes copyArtifactPermission""".split())

# The functions that make of a value one of a type.
COERCED = {"String": "textOf", "boolean": "truthOf", "Boolean": "truthOf"}
AS_TYPE = {"int": "intOf", "Integer": "integerOf", **COERCED}
# Operators that give a truth value.
TRUTHS = ("&&", "||", "==", "!=", "<", "<=", ">", ">=", "in", "!in", "instanceof", "==~")
# What Groovy gives for arguments that are left out, behind those that are there.
FILLED = {("sort", 0): ", null", ("split", 0): ", null", ("padLeft", 1): ", ' '", ("padRight", 1): ", ' '"}
