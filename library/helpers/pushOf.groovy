// `list.push(entry)`: true; the list has the entry behind.
//
// Example:
//     def l = [1]
//     pushOf(l, 2); echo "${l}"
def pushOf(list, entry) {
    return list.add(entry)
}
