"""Engines on this machine for trials of `library/launch`: a cluster of Slurm, an `sshd`, images of containers.

Each keeps its files in a folder of its own, listens on the loopback alone, and ends its processes when it is closed. What it needs of
Debian's packages it installs where it may: that is, as root, with `apt-get`, and without their services being started.
"""
import contextlib
import os
import pathlib
import pwd
import re
import shutil
import signal
import socket
import subprocess
import time

# Seconds until something has to have come on a busy machine.
PATIENCE = 240
SERVICES = pathlib.Path("/usr/sbin/policy-rc.d")
# Debian has the daemons in the last two, which are not on everybody's PATH.
PATH = os.pathsep.join([os.environ.get("PATH", os.defpath), "/usr/sbin", "/sbin"])


class Missing(Exception):
    """Why an engine cannot be had here."""


def environment(variables=()):
    """This process' environment with these variables besides, by which the daemons are found."""
    return {**os.environ, "PATH": PATH, **dict(variables)}


def found(program):
    """The path of a program; None where it is not here."""
    return shutil.which(program, path=PATH)


def ran(*words, variables=()):
    """What a command printed.

    Raises Missing, with what it said last, where it failed."""
    run = subprocess.run(words, stdin=subprocess.DEVNULL, capture_output=True, text=True, env=environment(variables), check=False)
    if run.returncode != 0:
        said = run.stderr.strip().splitlines() or [f"status {run.returncode}"]
        raise Missing(f"{' '.join(words)}: {said[-1]}")
    return run.stdout


@contextlib.contextmanager
def no_services():
    """While it lasts no package that is installed starts a service."""
    if SERVICES.exists():
        yield
        return
    SERVICES.write_text("#!/bin/sh\nexit 101\n", encoding="utf-8")
    SERVICES.chmod(0o755)
    try:
        yield
    finally:
        SERVICES.unlink()


def need(packages):
    """Sees that programs are here: `packages` has the package of each.

    Raises Missing, which names the program, where one is not to be had."""
    lacking = [program for program in packages if not found(program)]
    if not lacking:
        return
    if os.geteuid() != 0 or not found("apt-get"):
        raise Missing(f"{lacking[0]} is not here: install {packages[lacking[0]]}")
    wanted = sorted({packages[program] for program in lacking})
    with no_services():
        ran("apt-get", "install", "-y", "--no-install-recommends", *wanted, variables={"DEBIAN_FRONTEND": "noninteractive"})


def free_ports(count):
    """Ports of the loopback on which nobody listens now."""
    with contextlib.ExitStack() as open_ones:
        sockets = [open_ones.enter_context(socket.socket()) for _ in range(count)]
        for one in sockets:
            one.bind(("127.0.0.1", 0))
        return [one.getsockname()[1] for one in sockets]


def wait_until(came, what):
    until = time.monotonic() + PATIENCE
    while not came():
        if time.monotonic() > until:
            raise Missing(f"{what}: it did not come within {PATIENCE} s")
        time.sleep(0.1)


class Daemons:
    """Processes in the background, of which each writes into a log of its own."""

    def __init__(self, room):
        self.room, self.children = room, {}

    def start(self, name, *words):
        with open(f"{self.room}/{name}.log", "ab") as log:
            streams = {"stdin": subprocess.DEVNULL, "stdout": log, "stderr": log}
            self.children[name] = subprocess.Popen(words, **streams, env=environment(), start_new_session=True)

    def end(self, name, how=signal.SIGTERM):
        child = self.children.pop(name)
        child.send_signal(how)
        try:
            child.wait(timeout=30)
        except subprocess.TimeoutExpired:
            child.kill()
            child.wait()

    def close(self):
        for name in list(reversed(self.children)):
            self.end(name)


SLURM_CONF = """\
ClusterName=trial
SlurmctldHost={host}(127.0.0.1)
SlurmctldPort={ctld}
SlurmUser={user}
SlurmdUser={user}
AuthType=auth/munge
AuthInfo=socket={room}/munge.socket
CredType=cred/munge
StateSaveLocation={room}/state
SlurmdSpoolDir={room}/spool-%n
SlurmctldPidFile={room}/slurmctld.pid
SlurmdPidFile={room}/%n.pid
ProctrackType=proctrack/linuxproc
TaskPlugin=task/none
JobAcctGatherType=jobacct_gather/none
SelectType=select/cons_tres
SelectTypeParameters=CR_CPU
MpiDefault=none
ReturnToService=2
SlurmdTimeout=60
SlurmdParameters=config_overrides
KillWait=2
SchedulerParameters=sched_interval=1,batch_sched_delay=0
NodeName=linux NodeHostname={host} NodeAddr=127.0.0.1 Port={first} CPUs=4 Feature=linux
NodeName=big NodeHostname={host} NodeAddr=127.0.0.1 Port={second} CPUs=4 Feature=bigmem
PartitionName=build Nodes=ALL Default=YES MaxTime=INFINITE State=UP
"""


class Cluster:
    """Slurm with two nodes, `linux` and `big`, of four processors each, and a feature each."""

    PACKAGES = {"munged": "munge", "slurmctld": "slurmctld", "slurmd": "slurmd", "sbatch": "slurm-client"}

    def __init__(self, room):
        need(self.PACKAGES)
        self.room, self.daemons = room, Daemons(room)
        self.configure()
        try:
            self.start()
        except BaseException:
            self.daemons.close()
            raise

    def configure(self):
        room = pathlib.Path(self.room)
        for name in ("state", "spool-linux", "spool-big"):
            (room / name).mkdir()
        key = room / "munge.key"
        key.touch(mode=0o600)
        key.write_bytes(os.urandom(1024))
        ports = dict(zip(("ctld", "first", "second"), free_ports(3)))
        user = pwd.getpwuid(os.geteuid()).pw_name
        text = SLURM_CONF.format(host=socket.gethostname().split(".")[0], user=user, room=self.room, **ports)
        (room / "slurm.conf").write_text(text, encoding="utf-8")
        self.variables = {"SLURM_CONF": f"{self.room}/slurm.conf"}

    def start(self):
        munge = [f"--{name}={self.room}/munge.{name.partition('-')[0]}" for name in ("key-file", "socket", "pid-file", "log-file", "seed-file")]
        self.daemons.start("munged", "munged", "--foreground", "--force", *munge)
        wait_until(lambda: os.path.exists(f"{self.room}/munge.socket"), "munged's socket")
        self.start_scheduler()
        self.start_node("linux")
        self.start_node("big")

    def start_scheduler(self):
        """It goes on with the jobs that it knew, where there are any."""
        self.daemons.start("slurmctld", "slurmctld", "-D", "-f", f"{self.room}/slurm.conf")

    def start_node(self, node):
        self.daemons.start(node, "slurmd", "-D", "-N", node, "-f", f"{self.room}/slurm.conf")
        wait_until(lambda: self.state(node) == "idle", f"the node {node}")

    def state(self, node):
        try:
            return self.says("sinfo", "--noheader", f"--nodes={node}", "--format=%t").strip()
        except Missing:
            return ""

    def says(self, *words):
        return ran(*words, variables=self.variables)

    def lose(self, node, task):
        """The node is gone with all of its processes, among them those of `task`, and whoever watches the machines says so."""
        step = parent_of(task)
        self.daemons.end(node, signal.SIGKILL)
        os.kill(step, signal.SIGKILL)
        os.killpg(os.getpgid(task), signal.SIGKILL)
        self.says("scontrol", "update", f"NodeName={node}", "State=DOWN", "Reason=lost")

    def close(self):
        with contextlib.suppress(Missing):
            self.says("scancel", "--me")
            wait_until(lambda: not self.says("squeue", "--noheader"), "the end of all jobs")
        self.daemons.close()


def parent_of(process):
    """The number of a process' parent."""
    with open(f"/proc/{process}/stat", encoding="utf-8") as line:
        return int(line.read().rpartition(")")[2].split()[1])


SSHD_CONFIG = """\
Port {port}
ListenAddress 127.0.0.1
HostKey {room}/host
AuthorizedKeysFile {room}/key.pub
StrictModes no
UsePAM no
PidFile none
PasswordAuthentication no
MaxStartups 100
"""


class Sshd:
    """An `sshd` with keys of its own. Where it may it logs in a user who is there for it alone; else the one who runs it."""

    PACKAGES = {"sshd": "openssh-server", "ssh": "openssh-client"}
    # Nobody's, by Debian's rules for numbers of users.
    NUMBER = 64990

    def __init__(self, room):
        need(self.PACKAGES)
        self.room, self.daemons, self.variables, [self.port] = room, Daemons(room), {}, free_ports(1)
        self.is_other = os.geteuid() == 0
        self.user = "elsewhere" if self.is_other else pwd.getpwuid(os.geteuid()).pw_name
        # sshd reads the key as the user who comes.
        os.chmod(room, 0o755)
        for name in ("host", "key"):
            ran("ssh-keygen", "-q", "-t", "ed25519", "-N", "", "-f", f"{room}/{name}")
        with open(f"{room}/config", "w", encoding="utf-8") as file:
            file.write(SSHD_CONFIG.format(port=self.port, room=room))
        words = [found("sshd"), "-D", "-e", "-f", f"{room}/config"]
        self.daemons.start("sshd", *(self.with_user(words) if self.is_other else words))
        try:
            wait_until(self.answers, "an answer of sshd")
        except BaseException:
            self.close()
            raise

    def with_user(self, words):
        """The words in a view of the file system in which there is the user."""
        os.makedirs("/run/sshd", exist_ok=True)
        os.mkdir(f"{self.room}/home")
        os.chown(f"{self.room}/home", self.NUMBER, self.NUMBER)
        lines = {"passwd": f"elsewhere:x:{self.NUMBER}:{self.NUMBER}::{self.room}/home:/bin/sh", "group": f"elsewhere:x:{self.NUMBER}:",
                 "shadow": "elsewhere:*:19000::::::"}
        for name, line in lines.items():
            shutil.copyfile(f"/etc/{name}", f"{self.room}/{name}")
            with open(f"{self.room}/{name}", "a", encoding="utf-8") as file:
                file.write(f"{line}\n")
        mounts = " && ".join(f'mount --bind "$0/{name}" /etc/{name}' for name in lines)
        return ["unshare", "--mount", "sh", "-c", f'{mounts} && exec "$@"', self.room, *words]

    def options(self):
        """The words by which `ssh` comes to it."""
        return [f"-p{self.port}", f"-i{self.room}/key", "-oStrictHostKeyChecking=no", f"-oUserKnownHostsFile={self.room}/known",
                "-oLogLevel=ERROR", f"{self.user}@127.0.0.1"]

    def answers(self):
        try:
            return ran("ssh", *self.options(), "-oBatchMode=yes", "echo on") == "on\n"
        except Missing:
            return False

    def close(self):
        self.daemons.close()


# What the file /etc/image of an image has, and what the shell steps of the trials call.
IN_IMAGE = "an image of the trials"
PROGRAMS = "sh mv cat echo mkdir chmod sleep ls id rm kill env date sed cut head touch basename dirname tr uname".split()


def make_image(folder):
    """Makes a root file system of programs of this machine, with the libraries that `ldd` tells."""
    for name in ("usr/bin", "proc", "dev", "tmp", "etc"):
        os.makedirs(f"{folder}/{name}")
    os.symlink("usr/bin", f"{folder}/bin")
    pathlib.Path(f"{folder}/etc/image").write_text(f"{IN_IMAGE}\n", encoding="utf-8")
    for name in PROGRAMS:
        program = found(name)
        shutil.copy(program, f"{folder}/usr/bin/{name}")
        for library in re.findall(r"/\S+", ran("ldd", program)):
            os.makedirs(os.path.dirname(folder + library), exist_ok=True)
            shutil.copy(library, folder + library)


class Sandbox:
    """bwrap, and an image for it."""

    PACKAGES = {"bwrap": "bubblewrap", "setsid": "util-linux"}

    def __init__(self, room):
        need(self.PACKAGES)
        self.image = f"{room}/image"
        make_image(self.image)
        self.variables = {}
        ran("bwrap", "--bind", "/", "/", "--unshare-pid", "--proc", "/proc", "true")

    def wrong(self):
        """An image by which no container runs, and what is said of it."""
        return [f"{os.path.dirname(self.image)}/none"], "No such file or directory"

    def close(self):
        """It has no process of its own."""


CONTAINERS_CONF = """\
[engine]
runtime = "{runtime}"
cgroup_manager = "cgroupfs"
events_logger = "file"
[containers]
default_ulimits = ["nofile=1024:1024", "nproc=1000:1000"]
log_driver = "k8s-file"
netns = "none"
"""
STORAGE_CONF = """\
[storage]
driver = "vfs"
runroot = "{room}/run"
graphroot = "{room}/storage"
"""


class Podman:
    """podman with a storage of its own, and an image in it."""

    PACKAGES = {"podman": "podman"}

    def __init__(self, room):
        need(self.PACKAGES)
        self.room, self.image = room, "trial:1"
        self.variables = {"CONTAINERS_CONF": f"{room}/containers.conf", "CONTAINERS_STORAGE_CONF": f"{room}/storage.conf"}
        with open(f"{room}/storage.conf", "w", encoding="utf-8") as file:
            file.write(STORAGE_CONF.format(room=room))
        make_image(f"{room}/image")
        ran("tar", "-C", f"{room}/image", "--owner=0", "--group=0", "-cf", f"{room}/image.tar", ".")
        self.choose_runtime()

    def choose_runtime(self):
        """The first runtime by which a container runs on this machine."""
        reasons = []
        for runtime in filter(found, ("crun", "runc")):
            with open(f"{self.room}/containers.conf", "w", encoding="utf-8") as file:
                file.write(CONTAINERS_CONF.format(runtime=runtime))
            try:
                self.says("import", "--quiet", f"{self.room}/image.tar", self.image)
                self.says("run", "--rm", self.image, "/bin/sh", "-c", "true")
                return
            except Missing as reason:
                reasons.append(f"by {runtime}: {reason}")
        raise Missing("; ".join(reasons) or "neither crun nor runc is here")

    def wrong(self):
        return ["--pull=never", "none:1"], "none:1: image not known"

    def says(self, *words):
        return ran("podman", *words, variables=self.variables)

    def close(self):
        with contextlib.suppress(Missing):
            self.says("rm", "--force", "--all")
