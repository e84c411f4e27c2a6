// Runs scripts by Groovy itself: each file of the arguments, with `echo`, `println` and `error` as this product has them. What comes
// is written behind a line `=== FILE`.
import org.codehaus.groovy.control.CompilationFailedException
import org.codehaus.groovy.control.CompilerConfiguration
import org.codehaus.groovy.runtime.InvokerHelper

class Log {
    static StringBuilder text = new StringBuilder()

    static void line(value) {
        text.append(value).append('\n')
    }
}

class AbortException extends Exception {
    AbortException(String message) { super(message) }

    String toString() { "hudson.AbortException: $message" }
}

abstract class Steps extends Script {
    def echo(message) {
        Log.line('[Pipeline] echo')
        Log.line(message)
    }

    def echo(Map words) { echo(words.message) }

    void println(Object value) { Log.line(InvokerHelper.toString(value)) }

    def error(message) {
        Log.line('[Pipeline] error')
        throw new AbortException(message.toString())
    }
}

def settings = new CompilerConfiguration()
settings.scriptBaseClass = Steps.name
for (file in args) {
    Log.text = new StringBuilder()
    Log.line('[Pipeline] Start of Pipeline')
    def thrown = null
    try {
        new GroovyShell(this.class.classLoader, new Binding(), settings).parse(new File(file).getText('UTF-8'), 'WorkflowScript.groovy').run()
    } catch (CompilationFailedException refused) {
        thrown = 'refused'
    } catch (Throwable other) {
        thrown = other instanceof AbortException ? "ERROR: $other.message" : other
    }
    Log.line('[Pipeline] End of Pipeline')
    if (thrown != null) Log.line(thrown)
    Log.line("Finished: ${thrown == null ? 'SUCCESS' : 'FAILURE'}")
    println "=== $file"
    print Log.text
}
