// `text.charAt(place)`, as a text.
//
// Example:
//     echo charAtOf('abc', 1)
def charAtOf(text, at) {
    return text.substring(at, at + 1)
}
