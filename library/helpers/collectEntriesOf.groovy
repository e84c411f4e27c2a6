// `collection.collectEntries { [key, value] }`, also with a map of one or more entries: a map.
//
// Example:
//     echo "${collectEntriesOf(['a', 'b']) { [it, it.toUpperCase()] }}"
def collectEntriesOf(collection, body) {
    def told = [:]
    for (entry in collection.collect(body)) {
        if (kindOf(entry) == 'map') {
            for (pair in entry) {
                told[pair.key] = pair.value
            }
        } else {
            told[entry[0]] = entry[1]
        }
    }
    return told
}
