// file(credentialsId: ID, variable: V): for `withCredentials`. The variable is the path of the file `file` of the credential's folder:
// the file itself, and no copy, so a step must not change it.
//
// Example:
//     withCredentials([file(credentialsId: 'settings', variable: 'SETTINGS')]) { echo 'x' }
def file(given) {
    return ["CREDENTIAL_FILE_${given.variable}=${given.credentialsId}/file"]
}
