// The parts of a text between its line feeds, the last one also where it is empty.
//
// Example:
//     echo "${splitLinesOf('a\nb\n')}"
def splitLinesOf(text) {
    def told = []
    def rest = text
    while (rest.contains('\n')) {
        told.add(rest.substring(0, rest.indexOf('\n')))
        rest = rest.substring(rest.indexOf('\n') + 1)
    }
    told.add(rest)
    return told
}
