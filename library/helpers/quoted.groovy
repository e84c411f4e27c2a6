// A value's text as one word of the shell, whatever characters it has.
//
// Example:
//     node { sh "printf '%s' ${quoted("it's")}" }
def quoted(value) {
    return "'" + "${value}".replace("'", "'\\''") + "'"
}
