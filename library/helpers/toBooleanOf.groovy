// `text.toBoolean()`: whether a text is `true`, `y` or `1`, in small or large letters.
//
// Example:
//     echo "${toBooleanOf('True')}"
def toBooleanOf(value) {
    return ['true', 'y', '1'].contains("${value}".trim().toLowerCase())
}
