// writeJSON(file: FILE, json: VALUE, pretty: 4), writeJSON(json: VALUE, returnText: true): writes a value as JSON into a file, which
// wants a node, or gives its text. With `pretty` each entry stands on a line of its own, set in by so many blanks a level.
//
// Example:
//     echo writeJSON(json: [version: [1, 4]], returnText: true)
def writeJSON(given) {
    def text = jsonOf(given.json, given.pretty ?: 0, 0)
    if (given.returnText) {
        return text
    }
    writeFile(file: given.file, text: text)
}
