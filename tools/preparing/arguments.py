"""The arguments that the functions of `library/` take: what `prepare` lets pass, and what it refuses since nothing here does it."""
from groovy_reader import nodes as g

from .names import key_of

# The names that a function reads.
READ = {name: frozenset(words.split()) for name, words in {
    "ansiColor": "colorMapName", "archiveArtifacts": "artifacts excludes allowEmptyArchive defaultExcludes onlyIfSuccessful",
    "checkout": "scm $class branches branch url credentialsId userRemoteConfigs extensions", "cleanWs": "patterns",
    "deleteDir": "", "file": "credentialsId variable", "fileExists": "file", "git": "url branch credentialsId", "isUnix": "",
    "junit": "testResults allowEmptyResults skipMarkingBuildUnstable", "lock": "resource skipIfLocked", "pwd": "tmp",
    "readFile": "file encoding", "readJSON": "file text returnPojo", "sleep": "time unit",
    "stash": "name includes excludes allowEmpty useDefaultExcludes", "string": "credentialsId variable", "timestamps": "",
    "unstash": "name", "usernamePassword": "credentialsId usernameVariable passwordVariable", "waitUntil": "initialRecurrencePeriod",
    "warnError": "message", "withCredentials": "bindings", "writeFile": "file text encoding", "writeJSON": "file json pretty returnText",
}.items()}
# Those that change nothing here.
IGNORED = {name: frozenset(words.split()) for name, words in {
    "archiveArtifacts": "fingerprint caseSensitive followSymlinks",
    "checkout": "poll changelog gitTool browser doGenerateSubmoduleConfigurations submoduleCfg",
    "cleanWs": "deleteDirs disableDeferredWipeout notFailBuild skipWhenFailed", "git": "poll changelog",
    "junit": "keepLongStdio healthScaleFactor checksName keepProperties keepTestNames skipPublishingChecks", "waitUntil": "quiet",
}.items()}
# Those that may have one value alone, which is what the function does.
ONLY = {("archiveArtifacts", "onlyIfSuccessful"): "false", ("warnError", "catchInterruptions"): "true"}
ONLY |= {("cleanWs", f"cleanWhen{result}"): "true" for result in ("Aborted", "Failure", "NotBuilt", "Success", "Unstable")}
# The extensions that `checkout` knows.
EXTENSIONS = ("CloneOption", "RelativeTargetDirectory", "CleanBeforeCheckout", "CleanCheckout", "LocalBranch")
# What one should know of a function.
NOTES = {
    "timestamps": "the log has no times: `watch` keeps them, and `report` shows them",
    "withCredentials": "nothing that a command prints is masked in the log",
}


def entries_of(node):
    """The named arguments of a call, or the entries of the one map that it is given, by their names."""
    first = node.arguments[0].value if len(node.arguments) - node.trailing == 1 else None
    rows = first.entries if isinstance(first, g.MapLiteral) else node.arguments
    return {key_of(it.key): it for it in rows if it.key is not None}


def refused(node, name):
    """What a call of a function of the library says that nothing here does: each with the place to tell."""
    given = entries_of(node)
    for own, entry in given.items():
        only = ONLY.get((name, own))
        if only is not None:
            if not (isinstance(entry.value, g.Constant) and entry.value.word == only):
                yield entry, f"`{own}` of `{name}` that is not {only}: nothing here does it"
        elif own not in READ[name] and own not in IGNORED.get(name, ()):
            yield entry, f"`{own}` of `{name}`: nothing here does it"
    if name == "checkout":
        yield from refused_of_checkout(given)


def refused_of_checkout(given):
    """Another system than git, several repositories, an extension that is not known."""
    system = given.get("$class")
    if system is not None and isinstance(system.value, g.Text) and system.value.value != "GitSCM":
        yield system, f"a `checkout` of {system.value.value}: git alone is known"
    remotes = given.get("userRemoteConfigs")
    if remotes is not None and isinstance(remotes.value, g.ListLiteral) and len(remotes.value.items) > 1:
        yield remotes, "a `checkout` of several repositories: one alone is fetched"
    extensions = given.get("extensions")
    if extensions is None or not isinstance(extensions.value, g.ListLiteral):
        return
    for item in extensions.value.items:
        entries = item.value.entries if isinstance(item.value, g.MapLiteral) else []
        for kind in (it for it in entries if key_of(it.key) == "$class"):
            if isinstance(kind.value, g.Text) and kind.value.value not in EXTENSIONS:
                yield kind, f"the extension {kind.value.value} of `checkout`: nothing here does it"
