// archiveArtifacts(PATTERNS), archiveArtifacts(artifacts: PATTERNS, excludes: .., allowEmptyArchive: true, defaultExcludes: false):
// copies the files that the patterns take, with their folders, into `artifacts` of the build's folder. Wants a node. Where no file is
// there it fails, unless an empty archive is allowed. `fingerprint`, `followSymlinks` and `caseSensitive` change nothing.
//
// The build's folder is the variable `buildFolder`, which `tools/prepare` sets; else set it at the top of the script.
// Not as in Jenkins: `onlyIfSuccessful: true` is refused, as the result of a build is not known before its end.
//
// Example:
//     buildFolder = '/tmp/controller/build'
//     node { sh 'echo 1 > a.txt'; archiveArtifacts '*.txt' }
def archiveArtifacts(given) {
    def asked = argumentsOf(given, 'artifacts')
    if (asked.onlyIfSuccessful) {
        error 'archiveArtifacts: onlyIfSuccessful cannot be told here'
    }
    println 'Archiving artifacts'
    def files = filesOf(asked.artifacts, asked.excludes, asked.defaultExcludes != false)
    def found = sh(returnStdout: true, script: """#!/bin/sh -e
to=${quoted(buildFolder)}/artifacts
mkdir -p -- "\$to"
${files} | while IFS= read -r file; do
    mkdir -p -- "\$to/\$(dirname -- "\$file")"
    cp -p -- "\$file" "\$to/\$file"
    echo "\$file"
done""")
    if (found == '') {
        def text = "No artifacts found that match the file pattern \"${asked.artifacts}\". Configuration error?"
        if (!asked.allowEmptyArchive) {
            error text
        }
        println text
    }
}
