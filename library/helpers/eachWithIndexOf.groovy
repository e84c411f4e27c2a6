// `collection.eachWithIndex { entry, index -> .. }`: the collection.
//
// Example:
//     eachWithIndexOf(['a', 'b']) { entry, index -> echo "${index}: ${entry}" }
def eachWithIndexOf(collection, body) {
    def index = 0
    for (entry in collection) {
        body(entry, index)
        index++
    }
    return collection
}
