// `list << entry`: the list, with the entry behind. A text or a map is refused.
//
// Example:
//     echo "${leftShiftOf([1], 2)}"
def leftShiftOf(list, entry) {
    list.add(entry)
    return list
}
