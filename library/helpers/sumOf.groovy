// `list.sum()`: the entries added, of an empty list null.
//
// Example:
//     echo "${sumOf([1, 2])}"
def sumOf(list) {
    def told = list.isEmpty() ? null : list[0]
    for (int at = 1; at < list.size(); at++) {
        told = told + list[at]
    }
    return told
}
