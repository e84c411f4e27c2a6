// `map.get(key, value)`: the value of a key, which is put into the map where it has none.
//
// Example:
//     echo getOf([:], 'JDK', 'jdk8')
def getOf(map, key, value) {
    if (!map.containsKey(key)) {
        map.put(key, value)
    }
    return map.get(key)
}
