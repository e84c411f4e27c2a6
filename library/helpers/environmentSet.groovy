// The overrides of `withEnv` for the variables of these names that the script has set by `env.NAME = ..`.
//
// Example:
//     env = [MODE: 'test']
//     node { withEnv(environmentSet(['MODE', 'OTHER'])) { sh 'echo "$MODE"' } }
def environmentSet(names) {
    return names.findAll { env[it] != null }.collect { "${it}=${env[it]}" }
}
