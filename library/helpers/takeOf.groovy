// `value.take(n)`: the first characters of a text, or entries of a list, as many as there are.
//
// Example:
//     echo takeOf('4f5a8c1d2e', 7)
def takeOf(value, number) {
    def size = number < value.size() ? number : value.size()
    if (kindOf(value) == 'text') {
        return value.substring(0, size < 0 ? 0 : size)
    }
    def told = []
    for (int at = 0; at < size; at++) {
        told.add(value[at])
    }
    return told
}
