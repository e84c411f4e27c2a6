// `list.max()`: the largest entry, of an empty list null.
//
// Example:
//     echo "${maxOf([1, 3, 2])}"
def maxOf(list) {
    def told = list.isEmpty() ? null : list[0]
    for (entry in list) {
        told = entry > told ? entry : told
    }
    return told
}
