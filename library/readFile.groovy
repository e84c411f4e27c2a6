// readFile(FILE), readFile(file: FILE, encoding: ENCODING): the text of a file, its path from the folder of the step. Wants a node.
// The encoding is UTF-8, 'Base64' for the bytes in that form, or another one that `iconv` knows. A missing file throws.
//
// Not as in Jenkins: the exception is an AbortException of the shell step, and the text has at most 1,048,576 bytes.
//
// Example:
//     node { sh 'echo 1.4 > VERSION'; echo readFile('VERSION').trim() }
def readFile(given) {
    def asked = argumentsOf(given, 'file')
    def encoding = asked.encoding ?: 'UTF-8'
    def reader = 'cat'
    if (encoding.toUpperCase() == 'BASE64') {
        reader = 'base64 -w 0'
    } else if (encoding.toUpperCase() != 'UTF-8') {
        reader = "iconv -t UTF-8 -f ${quoted(encoding)}"
    }
    def file = quoted(asked.file)
    return sh(returnStdout: true, script: """#!/bin/sh
[ -r ${file} ] || { printf 'readFile: %s cannot be read\\n' ${file} >&2; exit 1; }
exec ${reader} < ${file}""")
}
