// sleep(SECONDS), sleep(time: N, unit: 'MINUTES'): waits, by a shell step. Wants a node.
//
// Example:
//     node { sleep 1; sleep(time: 1000, unit: 'MILLISECONDS') }
def sleep(given) {
    def asked = argumentsOf(given, 'time')
    def unit = asked.unit ?: 'SECONDS'
    def seconds = [MILLISECONDS: 0, SECONDS: 1, MINUTES: 60, HOURS: 3600, DAYS: 86400][unit]
    if (seconds == null) {
        error "sleep: no unit ${unit}"
    }
    sh "#!/bin/sh\nsleep ${seconds == 0 ? (asked.time + 999).intdiv(1000) : asked.time * seconds}"
}
