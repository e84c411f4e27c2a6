// `collection.inject(first) { told, entry -> .. }`.
//
// Example:
//     echo "${injectOf([1, 2, 3], 0) { told, entry -> told + entry }}"
def injectOf(collection, first, body) {
    def told = first
    for (entry in collection) {
        told = body(told, entry)
    }
    return told
}
