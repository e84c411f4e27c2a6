// junit(PATTERNS), junit(testResults: PATTERNS, allowEmptyResults: true, skipMarkingBuildUnstable: true): counts the test cases of the
// XML files that the patterns take, and gives a map with totalCount, failCount, skipCount and passCount. The build is UNSTABLE where a
// case failed, unless that is not to be marked. Without a file it fails, unless that is allowed. Wants a node, and `awk`.
// `keepLongStdio`, `healthScaleFactor` and `checksName` change nothing.
//
// Not as in Jenkins: no test is told by its name, files of an earlier build count, and a file that is no whole XML is not found.
//
// Example:
//     node { sh 'echo "<testsuite><testcase/></testsuite>" > t.xml'; echo "${junit('*.xml')}" }
def junit(given) {
    def asked = argumentsOf(given, 'testResults')
    println 'Recording test results'
    def told = sh(returnStdout: true, script: """#!/bin/sh -e
${filesOf(asked.testResults, '', false)} | { while IFS= read -r file; do echo '<file/>'; cat -- "\$file"; done; } | awk '
BEGIN { RS = "<" }
quoting { if (index(\$0, "]]>")) quoting = 0; next }
commenting { if (index(\$0, "-->")) commenting = 0; next }
/^!\\[CDATA\\[/ { if (!index(\$0, "]]>")) quoting = 1; next }
/^!--/ { if (!index(\$0, "-->")) commenting = 1; next }
/^file\\/>/ { files++ }
/^testcase[ \\t\\r\\n\\/>]/ { cases++; inside = 1; bad = out = 0; split(\$0, tag, ">"); if (tag[1] ~ /\\/\$/) inside = 0 }
inside && /^(failure|error)[ \\t\\r\\n\\/>]/ { if (!bad) failed++; bad = 1 }
inside && /^skipped[ \\t\\r\\n\\/>]/ { if (!out) skipped++; out = 1 }
/^\\/testcase/ { inside = 0 }
END { print files + 0, cases + 0, failed + 0, skipped + 0 }'""").tokenize().collect { it.toInteger() }
    def count = [totalCount: told[1], failCount: told[2], skipCount: told[3], passCount: told[1] - told[2] - told[3]]
    if (told[0] == 0 || told[1] == 0) {
        if (!asked.allowEmptyResults) {
            error told[0] == 0 ? 'No test report files were found. Configuration error?' : 'None of the test reports contained any result'
        }
        println 'No test results'
    } else if (count.failCount > 0 && !asked.skipMarkingBuildUnstable) {
        unstableHere "${count.failCount} of ${count.totalCount} tests failed"
    }
    return count
}
