// `collection.count { .. }` and `list.count(value)`: how many entries the closure takes, or are equal; `text.count(part)` how often.
//
// Example:
//     echo "${countOf([1, 2, 1], 1)}"
def countOf(collection, what) {
    if (kindOf(what) == 'closure') {
        return collection.findAll(what).size()
    }
    if (kindOf(collection) == 'text') {
        return (collection.length() - collection.replace(what, '').length()).intdiv(what.length())
    }
    return collection.findAll { it == what }.size()
}
