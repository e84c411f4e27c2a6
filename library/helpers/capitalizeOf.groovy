// `text.capitalize()`.
//
// Example:
//     echo capitalizeOf('linux')
def capitalizeOf(text) {
    return text.isEmpty() ? text : text.substring(0, 1).toUpperCase() + text.substring(1)
}
