// Makes the result of the build at least this bad, as `currentBuild.result = RESULT` does, and logs it.
//
// Example:
//     currentBuild = [result: null, currentResult: 'SUCCESS']
//     setResult('SUCCESS'); echo currentBuild.result
def setResult(result) {
    if (result == null) {
        return
    }
    if (!['SUCCESS', 'UNSTABLE', 'FAILURE', 'NOT_BUILT', 'ABORTED'].contains(result)) {
        error "no result: ${result}"
    }
    noteResult(result)
    if (result == 'UNSTABLE') {
        unstable "the result is ${result}"
    } else if (result != 'SUCCESS') {
        catchError(buildResult: result) { error "the result is ${result}" }
    }
}
