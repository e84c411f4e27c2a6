// warnError(MESSAGE) { .. }, warnError(message: MESSAGE) { .. }: goes on behind a failure of its body, logs the message, and makes the
// build UNSTABLE.
//
// Example:
//     warnError('style') { echo 'x' }
def warnError(given, body) {
    catchErrorHere(message: argumentsOf(given, 'message').message, buildResult: 'UNSTABLE') { body() }
}
