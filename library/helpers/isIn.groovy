// `value in collection`: of a list an entry, of a map a key with a true value, of null null, of any other value an equal one.
//
// Example:
//     echo "${isIn('a', ['a', 'b'])} ${isIn('a', [a: 1])}"
def isIn(value, collection) {
    def kind = kindOf(collection)
    if (kind == 'list') {
        return collection.contains(value)
    }
    if (kind == 'map') {
        return collection.get(value) ? true : false
    }
    return collection == value
}
