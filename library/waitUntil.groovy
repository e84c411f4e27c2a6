// waitUntil { .. }, waitUntil([initialRecurrencePeriod: 250, body: { .. }]): runs its body until it gives a true value, and waits
// between two turns: a quarter of a second first (or that many milliseconds), then a fifth longer each time, at most 15 seconds.
// Wants a node where it has to wait.
//
// `tools/prepare` writes waitUntil(initialRecurrencePeriod: 250) { .. } of a Jenkinsfile in the second form.
//
// Example:
//     node { sh 'rm -f ready; (sleep 1; touch ready) > /dev/null 2>&1 &'; waitUntil { fileExists('ready') } }
def waitUntil(given) {
    def body = given
    def milliseconds = 250
    if (kindOf(given) == 'map') {
        body = given.body
        milliseconds = given.initialRecurrencePeriod ?: 250
    }
    while (!body()) {
        def rest = milliseconds % 1000
        def zeros = rest < 10 ? '00' : rest < 100 ? '0' : ''
        sh "#!/bin/sh\nsleep ${milliseconds.intdiv(1000)}.${zeros}${rest}"
        milliseconds = (milliseconds * 6).intdiv(5)
        if (milliseconds > 15000) {
            milliseconds = 15000
        }
    }
}
