// `list.subList(from, to)`: the entries from one place up to another and without it, as a list of their own.
//
// Example:
//     echo "${subListOf(['a', 'b', 'c'], 0, 2)}"
def subListOf(list, from, to) {
    def told = []
    for (int at = from; at < to; at++) {
        told.add(list.get(at))
    }
    return told
}
