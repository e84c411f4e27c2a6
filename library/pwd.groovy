// pwd(), pwd(tmp: true): the folder of the step, or a folder for temporary files beside the workspace. Wants a node.
//
// Example:
//     node { dir('sub') { echo pwd() } }
def pwd(given) {
    def folder = argumentsOf(given, 'tmp').tmp ? '"$WORKSPACE@tmp/tmp" && mkdir -p "$WORKSPACE@tmp/tmp"' : '"$PWD"'
    return sh(script: "#!/bin/sh\nprintf %s ${folder}", returnStdout: true)
}
