// fileExists(FILE), fileExists(file: FILE): whether a file or folder is there, its path from the folder of the step. Wants a node.
//
// Example:
//     node { if (!fileExists('VERSION')) { echo 'no version' } }
def fileExists(given) {
    def file = argumentsOf(given, 'file').file
    def code = sh(script: "#!/bin/sh\ntest -e ${quoted(file)}", returnStatus: true)
    if (code != 0 && code != 1) {
        error "fileExists: the step ended with ${code}"
    }
    return code == 0
}
