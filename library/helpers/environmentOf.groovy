// The value of a variable of the environment of a shell step, or null where there is none. Wants a node, and runs a step there.
//
// Example:
//     node { withEnv(['MODE=test']) { echo environmentOf('MODE') } }
def environmentOf(name) {
    def told = sh(script: "#!/bin/sh\nprintf '%s' \"\${${name}+=}\${${name}-}\"", returnStdout: true)
    return told == '' ? null : told.substring(1)
}
