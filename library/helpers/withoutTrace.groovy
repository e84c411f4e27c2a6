// The script of a shell step with what gives it the credentials of `withCredentials` around it, and without a trace of its commands;
// outside of `withCredentials` it does what the script alone does. A script that names its interpreter is run from a file of its own.
//
// Example:
//     node { sh withoutTrace('echo built') }
def withoutTrace(script) {
    def given = """for name in \$(env | sed -n 's/^CREDENTIAL_\\([A-Za-z0-9_]*\\)=.*/\\1/p'); do
    folder=\${CONTROLLER_CREDENTIALS:-\$HOME/.config/controller/credentials}
    [ -d "\$folder" ] || { echo "withCredentials: no folder \$folder" >&4; exit 1; }
    case \$(ls -ld -- "\$folder") in d???------*) ;; *) echo "withCredentials: others may read \$folder" >&4; exit 1;; esac
    eval "path=\$folder/\\\$CREDENTIAL_\$name"
    [ -r "\$path" ] || { echo "withCredentials: no file \$path" >&4; exit 1; }
    case \$name in FILE_*) value=\$path name=\${name#FILE_};; *) value=\$(cat -- "\$path");; esac
    eval "\$name=\\\$value; export \$name"
    traced=no
done
"""
    def front = "{ case \$- in *x*) traced=yes;; *) traced=no;; esac; set +x; ${given}"
    if (!script.startsWith('#!')) {
        return front + "[ \$traced = no ] || set -x; } 4>&2 2>/dev/null\n" + script
    }
    def mark = 'END_OF_THE_STEP'
    return """#!/bin/sh -e
${front}} 4>&2 2>/dev/null
file=\$(mktemp)
cat > "\$file" <<'${mark}'
${script}
${mark}
chmod 700 "\$file"
code=0
"\$file" || code=\$?
rm -f -- "\$file"
exit "\$code"
"""
}
