// Keeps in `currentBuild` that the result of the build is at least this bad.
//
// Example:
//     currentBuild = [result: null, currentResult: 'SUCCESS']
//     noteResult('UNSTABLE'); echo currentBuild.result
def noteResult(result) {
    def all = ['SUCCESS', 'UNSTABLE', 'FAILURE', 'NOT_BUILT', 'ABORTED']
    if (currentBuild.result == null || all.indexOf(result) > all.indexOf(currentBuild.result)) {
        currentBuild.result = result
        currentBuild.currentResult = result
    }
}
