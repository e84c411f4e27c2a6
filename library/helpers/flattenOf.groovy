// `list.flatten()`: a list without lists in it.
//
// Example:
//     echo "${flattenOf([1, [2, [3]]])}"
def flattenOf(list) {
    def told = []
    for (entry in list) {
        if (kindOf(entry) == 'list') {
            told += flattenOf(entry)
        } else {
            told.add(entry)
        }
    }
    return told
}
