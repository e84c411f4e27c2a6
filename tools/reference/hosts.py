"""Shell steps of the reference: each runs as docs/HOSTS.md says of a task, and the next one begins when it has ended."""
import os
import subprocess


def slot(build, at):
    """The number of an executor among those of its agent, from 0."""
    agent = build.executors[at].agent
    return sum(other.agent == agent for other in build.executors[:at])


def variables(build, task):
    at = task["executor"]
    own = {"JOB_NAME": build.job, "BUILD_NUMBER": "1", "NODE_NAME": build.executors[at].agent, "EXECUTOR_NUMBER": str(slot(build, at)),
           "WORKSPACE": build.held[at]}
    return {**os.environ, **own, **dict(override.split("=", 1) for override in task["overrides"])}


def ran(build, number, task):
    """The exit code of a task, its log and its output."""
    control = f"{build.held[task['executor']]}@tmp/durable-{number:08x}"
    for folder in (control, task["folder"]):
        os.makedirs(folder, exist_ok=True)
    with open(f"{control}/script.sh", "w", encoding="utf-8") as script:
        script.write(task["script"])
    words = ["sh", "-xe", script.name]
    if task["script"].startswith("#!"):
        os.chmod(script.name, 0o700)
        words = [script.name]
    how = {"cwd": task["folder"], "env": variables(build, task), "stdin": subprocess.DEVNULL, "stdout": subprocess.PIPE}
    ended = subprocess.run(words, stderr=subprocess.PIPE if task["keeps"] else subprocess.STDOUT, check=False, **how)
    log, out = (ended.stderr, ended.stdout) if task["keeps"] else (ended.stdout, b"")
    code = ended.returncode if ended.returncode >= 0 else 128 - ended.returncode
    return code, log.decode(errors="replace"), out.decode(errors="replace")


def serve(build, grant):
    """The executors in their order, each until it has no task that is open; and so again until none has."""
    while any(request["kind"] == "task" for request in build.requests.values()):
        for at in range(len(build.executors)):
            while tasks := [it for it, request in build.requests.items() if request["kind"] == "task" and request["executor"] == at]:
                number = min(tasks)
                code, log, build.requests[number]["out"] = ran(build, number, build.requests[number])
                build.log += log
                build.take(f"exited {number} {code}")
                grant()
