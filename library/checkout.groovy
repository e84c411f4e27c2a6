// checkout(scm), checkout([url: URL, branch: BRANCH, credentialsId: ID]), checkout([$class: 'GitSCM', branches: .., ..]),
// checkout(scm: .., poll: false): brings a branch, tag or commit of a git repository into the folder of the step, and gives a map with
// GIT_COMMIT, GIT_BRANCH and GIT_URL. Wants a node, and the command `git`. Credentials are those of `usernamePassword`.
//
// Of the extensions it knows CloneOption (depth, noTags), RelativeTargetDirectory, CleanBeforeCheckout, CleanCheckout and LocalBranch;
// another one is an error. Not as in Jenkins: other systems than git, and several repositories.
//
// Example:
//     node { checkout([url: 'https://example.com/shop.git', branch: 'main']) }
def checkout(given) {
    def asked = given.scm ?: given
    def remote = asked.userRemoteConfigs ? asked.userRemoteConfigs[0] : asked
    def branch = (asked.branches ? asked.branches[0].name : asked.branch) ?: 'HEAD'
    branch = branch.replace('refs/heads/', '').replace('*/', '').replace('origin/', '')
    def options = cloneOptions(asked.extensions ?: [])
    def script = withoutTrace("""#!/bin/sh -e
${options.folder}
export GIT_TERMINAL_PROMPT=0
if [ -n "\${GIT_PASSWORD:-}" ]; then
    # The shell of the helper has the variables, and no command line has their values.
    helper='!f() { echo "username=\$GIT_USERNAME"; echo "password=\$GIT_PASSWORD"; }; f'
    export GIT_CONFIG_COUNT=1 GIT_CONFIG_KEY_0=credential.helper GIT_CONFIG_VALUE_0="\$helper"
fi
git init -q .
git fetch -q ${options.words} ${quoted(remote.url)} ${quoted(branch)} >&2
${options.clean}
git checkout -q -f FETCH_HEAD >&2
git rev-parse HEAD""")
    def fetch = { sh(script: script, returnStdout: true).trim() }
    def commit
    if (remote.credentialsId) {
        def credential = [credentialsId: remote.credentialsId, usernameVariable: 'GIT_USERNAME', passwordVariable: 'GIT_PASSWORD']
        commit = withCredentials([usernamePassword(credential)], fetch)
    } else {
        commit = fetch()
    }
    return [GIT_COMMIT: commit, GIT_BRANCH: "origin/${branch}", GIT_URL: remote.url]
}
