// `a - b`: of numbers the difference, of a text without the first place of the other, of a list without the entries of another or an entry.
//
// Example:
//     echo minusOf('a-b', '-b')
def minusOf(value, other) {
    def kind = kindOf(value)
    if (kind != 'list' && kind != 'text') {
        return value - other
    }
    if (kind == 'list') {
        def left = kindOf(other) == 'list' ? other : [other]
        return value.findAll { !left.contains(it) }
    }
    def at = value.indexOf("${other}")
    return at < 0 ? value : value.substring(0, at) + value.substring(at + "${other}".length())
}
