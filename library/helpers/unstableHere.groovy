// `unstable`, which keeps the result in `currentBuild` where the script has it.
//
// Example:
//     currentBuild = [result: null, currentResult: 'SUCCESS']
//     catchError(buildResult: 'SUCCESS') { echo 'x' }
def unstableHere(given) {
    answers { noteResult('UNSTABLE') }
    unstable argumentsOf(given, 'message').message
}
