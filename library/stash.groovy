// stash(NAME), stash(name: NAME, includes: PATTERNS, excludes: .., allowEmpty: true, useDefaultExcludes: false): keeps files of the
// folder for `unstash`, in `stashes` of the build's folder. Wants a node. Where no file is there it fails, unless that is allowed.
//
// The build's folder is the variable `buildFolder`, which `tools/prepare` sets; else set it at the top of the script.
// Not as in Jenkins: a stash stays when the build has ended.
//
// Example:
//     buildFolder = '/tmp/controller/build'
//     node { sh 'echo 1 > a.txt'; stash name: 'text', includes: '*.txt'; deleteDir(); unstash 'text'; sh 'cat a.txt' }
def stash(given) {
    def asked = argumentsOf(given, 'name')
    def files = filesOf(asked.includes ?: '**', asked.excludes, asked.useDefaultExcludes != false)
    def number = sh(returnStdout: true, script: """#!/bin/sh -e
to=${quoted(buildFolder)}/stashes
mkdir -p -- "\$to"
${files} > "\$to"/${quoted(asked.name)}.list
tar -cf "\$to"/${quoted(asked.name)}.new -T "\$to"/${quoted(asked.name)}.list
mv -- "\$to"/${quoted(asked.name)}.new "\$to"/${quoted(asked.name)}.tar
wc -l < "\$to"/${quoted(asked.name)}.list
rm -- "\$to"/${quoted(asked.name)}.list""").trim()
    if (number == '0' && !asked.allowEmpty) {
        error "No files included in stash ‘${asked.name}’"
    }
    println "Stashed ${number} file(s)"
}
