// lock(NAME) { .. }, lock(resource: NAME, skipIfLocked: true) { .. }: runs its body while no other build of this machine has the lock
// of that name, and waits for it first, or passes its body over with `skipIfLocked`. Wants a node, and `flock`.
//
// The lock is that of the file NAME.lock in $CONTROLLER_LOCKS, by default /tmp/controller-locks. A process of its own holds it, which
// ends with the body, and outlives a controller that is killed. Not as in Jenkins: after a power cut the lock is free while the build
// is not over; `label`, `quantity`, `extra` and `variable` are refused.
//
// Example:
//     node { lock('database') { echo 'alone' } }
def lock(given, body) {
    def asked = argumentsOf(given, 'resource')
    for (name in ['label', 'quantity', 'extra', 'variable']) {
        if (asked.containsKey(name)) {
            error "lock: ${name} is not known"
        }
    }
    def name = quoted(asked.resource.replace('/', '%'))
    def folder = 'folder=${CONTROLLER_LOCKS:-/tmp/controller-locks}'
    println "Trying to acquire lock on [${asked.resource}]"
    def held = sh(returnStdout: true, script: """#!/bin/sh -e
${folder}
mkdir -p -- "\$folder"
exec 9>> "\$folder"/${name}.lock
flock ${asked.skipIfLocked ? '-n' : ''} 9 || exit 0
held=\$(mktemp -- "\$folder"/${name}.held.XXXXXX)
setsid sh -c 'while [ -e "\$1" ]; do sleep 0.1; done' holder "\$held" < /dev/null > /dev/null 2>&1 &
echo "\$held\"""")
    if (held == '') {
        println "Skipped, [${asked.resource}] is locked"
        return null
    }
    try {
        return body()
    } finally {
        sh "#!/bin/sh\nrm -f -- ${quoted(held.trim())}"
        println "Lock released on resource [${asked.resource}]"
    }
}
