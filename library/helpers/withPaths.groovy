// The overrides of `withEnv` in which a name with a `+`, as in PATH+GO=/opt/go/bin, puts its value and a `:` in front of the variable.
// Wants a node where a name has one.
//
// Example:
//     node { withEnv(withPaths(['PATH+GO=/opt/go/bin'])) { sh 'echo "$PATH"' } }
def withPaths(overrides) {
    def values = [:]
    for (override in overrides) {
        def at = override.indexOf('=')
        def name = override.substring(0, at)
        def value = override.substring(at + 1)
        def plus = name.indexOf('+')
        if (plus >= 0) {
            name = name.substring(0, plus)
            def old = values.containsKey(name) ? values[name] : environmentOf(name)
            value = old ? "${value}:${old}" : value
        }
        values[name] = value
    }
    return values.collect { name, value -> "${name}=${value}" }
}
