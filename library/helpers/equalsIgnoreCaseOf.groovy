// `text.equalsIgnoreCase(other)`, of letters of ASCII.
//
// Example:
//     echo "${equalsIgnoreCaseOf('Linux', 'linux')}"
def equalsIgnoreCaseOf(text, other) {
    return other != null && text.toLowerCase() == other.toLowerCase()
}
