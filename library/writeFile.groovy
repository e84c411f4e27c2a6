// writeFile(file: FILE, text: TEXT, encoding: ENCODING): writes a text into a file and makes the folders above it. Wants a node.
// The encoding is UTF-8, 'Base64' where the text is that form of the bytes, or another one that `iconv` knows.
//
// Example:
//     node { writeFile file: 'out/VERSION', text: '1.4'; sh 'cat out/VERSION' }
def writeFile(given) {
    def encoding = given.encoding ?: 'UTF-8'
    def writer = 'cat'
    if (encoding.toUpperCase() == 'BASE64') {
        writer = 'base64 -d'
    } else if (encoding.toUpperCase() != 'UTF-8') {
        writer = "iconv -f UTF-8 -t ${quoted(encoding)}"
    }
    def file = quoted(given.file)
    sh "#!/bin/sh -e\nmkdir -p -- \"\$(dirname -- ${file})\"\nprintf '%s' ${quoted(given.text)} | ${writer} > ${file}"
}
