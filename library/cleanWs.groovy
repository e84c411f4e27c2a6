// cleanWs(), cleanWs(patterns: [[pattern: 'out/**', type: 'INCLUDE']]): removes the workspace, or the files in it that the patterns
// take. Wants a node. `deleteDirs`, `disableDeferredWipeout` and `notFailBuild` change nothing: files alone are taken by patterns,
// all goes at once, and what cannot be removed fails the build.
//
// Not as in Jenkins: `cleanWhenFailure: false` and its kin are refused, as the result of a build is not known before its end.
//
// Example:
//     node { sh 'touch a'; cleanWs() }
def cleanWs(given) {
    def asked = argumentsOf(given, 'patterns')
    asked.each { name, value ->
        if (name.startsWith('cleanWhen') && !value) {
            error "cleanWs: ${name} cannot be told here"
        }
    }
    def taken = []
    def left = []
    for (entry in asked.patterns) {
        (entry.type == 'EXCLUDE' ? left : taken).add(entry.pattern)
    }
    if (taken.isEmpty() && left.isEmpty()) {
        sh '#!/bin/sh -e\ncd /\nrm -rf -- "$WORKSPACE"'
    } else {
        def files = filesOf(taken.isEmpty() ? '**' : taken.join(','), left.join(','), false)
        sh "#!/bin/sh -e\ncd \"\$WORKSPACE\"\n${files} | while IFS= read -r file; do rm -f -- \"\$file\"; done"
    }
}
