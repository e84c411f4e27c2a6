// `collection.collectMany { list }`: the entries of all the lists.
//
// Example:
//     echo "${collectManyOf([1, 2]) { [it, it * 10] }}"
def collectManyOf(collection, body) {
    def told = []
    for (list in collection.collect(body)) {
        told += list
    }
    return told
}
