// withCredentials([usernamePassword(..), string(..), file(..)]) { .. }, withCredentials(bindings: [..]) { .. }: runs its body with
// variables that have the values of credentials in the shell steps that go through `withoutTrace`, as all of a script that
// `tools/prepare` made do.
//
// A credential is a folder `ID` with the files `username` and `password`, or `secret`, or `file`, below the folder
// $CONTROLLER_CREDENTIALS, by default ~/.config/controller/credentials, which nobody but the builder may read. Each shell step reads
// the values itself: neither the build's store nor a control folder has them, and the log has no trace of the step's commands. What a
// command prints stands in the log: nothing is masked.
//
// Not as in Jenkins: the names are variables of shell steps and not of the script, where `tools/prepare` refuses them: leave them to
// the shell, in a text between single quotes.
//
// Example:
//     withCredentials([string(credentialsId: 'token', variable: 'TOKEN')]) {
//         node { sh withoutTrace('test -z "$TOKEN" || echo "a token"') }
//     }
def withCredentials(given, body) {
    def overrides = []
    for (binding in argumentsOf(given, 'bindings').bindings) {
        overrides += binding
    }
    return withEnv(overrides, body)
}
