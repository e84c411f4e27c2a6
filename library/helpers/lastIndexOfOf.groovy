// `value.lastIndexOf(part)` of a text or a list: the last place, or -1.
//
// Example:
//     echo "${lastIndexOfOf('a/b/c', '/')}"
def lastIndexOfOf(value, part) {
    def isText = kindOf(value) == 'text'
    for (int at = value.size() - 1; at >= 0; at--) {
        if (isText ? value.substring(at).startsWith(part) : value[at] == part) {
            return at
        }
    }
    return -1
}
