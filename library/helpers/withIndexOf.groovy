// `list.withIndex()`: a list of pairs of each entry and its place.
//
// Example:
//     echo "${withIndexOf(['a', 'b'])}"
def withIndexOf(list) {
    def told = []
    eachWithIndexOf(list) { entry, index -> told.add([entry, index]) }
    return told
}
