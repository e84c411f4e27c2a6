// `value.drop(n)`: a text without its first characters, or a list without its first entries.
//
// Example:
//     echo dropOf('v1.4', 1)
def dropOf(value, number) {
    def from = number < 0 ? 0 : number < value.size() ? number : value.size()
    if (kindOf(value) == 'text') {
        return value.substring(from)
    }
    def told = []
    for (int at = from; at < value.size(); at++) {
        told.add(value[at])
    }
    return told
}
