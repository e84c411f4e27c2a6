// `value.toList()`: of a list a list of its own, of a text its characters.
//
// Example:
//     echo "${toListOf('ab')}"
def toListOf(value) {
    def told = []
    for (entry in value) {
        told.add(entry)
    }
    return told
}
