// The arguments of a call as a map: those with names as they are, a single one under the name of the main parameter, none as [:].
//
// Example:
//     echo "${argumentsOf('x', 'file')} ${argumentsOf([file: 'x'], 'file')}"
def argumentsOf(given, main) {
    if (given == null) {
        return [:]
    }
    return kindOf(given) == 'map' ? given : [(main): given]
}
