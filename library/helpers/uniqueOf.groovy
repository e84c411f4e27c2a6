// `list.unique()` of a list that nobody else has: its entries, each once.
//
// Example:
//     echo "${uniqueOf([1, 2, 1])}"
def uniqueOf(list) {
    def told = []
    for (entry in list) {
        if (!told.contains(entry)) {
            told.add(entry)
        }
    }
    return told
}
