// `list.min()`: the smallest entry, of an empty list null.
//
// Example:
//     echo "${minOf([2, 1, 3])}"
def minOf(list) {
    def told = list.isEmpty() ? null : list[0]
    for (entry in list) {
        told = entry < told ? entry : told
    }
    return told
}
