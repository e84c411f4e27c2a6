// ansiColor(NAME) { .. }: runs its body with TERM set to the name, so that tools write colours. The log keeps their signs as they are.
//
// Example:
//     node { ansiColor('xterm') { sh 'echo "$TERM"' } }
def ansiColor(given, body) {
    return withEnv(["TERM=${argumentsOf(given, 'colorMapName').colorMapName}"], body)
}
