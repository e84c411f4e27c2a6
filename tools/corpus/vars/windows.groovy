// As the handbook's page on shared libraries has it.
def call(Closure body) {
    node('windows') {
        body()
    }
}
