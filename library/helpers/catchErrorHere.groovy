// `catchError`, which keeps the result in `currentBuild` where the script has it.
//
// Example:
//     currentBuild = [result: null, currentResult: 'SUCCESS']
//     catchErrorHere([buildResult: 'SUCCESS']) { error 'x' }
def catchErrorHere(given, body) {
    def asked = argumentsOf(given, 'message')
    def isWhole = false
    catchError(asked) {
        body()
        isWhole = true
    }
    if (!isWhole) {
        answers { noteResult(asked.buildResult ?: 'FAILURE') }
    }
}
