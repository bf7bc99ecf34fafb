"""What tests share: whether the programs that they need are there, and servers that run for a while."""
import contextlib
import glob
import json
import os
import random
import shutil
import signal
import socket
import subprocess
import sys
import tempfile
import time
import urllib.error
import urllib.request

TOP = os.path.dirname(os.path.dirname(os.path.dirname(os.path.abspath(__file__))))
LATEST = 600  # seconds until something hangs for sure: what is waited for comes much sooner


def installed(packages):
    """Whether programs are there, each of a Debian package. A missing one is installed by root where the variable INSTALLS has
    something, as tools/test --whole gives it; else what is missing is named on standard output."""
    path = os.environ["PATH"] + ":/usr/sbin"

    def missing():
        return [package for name, package in packages.items() if not shutil.which(name, path=path)]
    if missing() and may_install():
        install(missing())
    if missing():
        print("needs " + ", ".join(missing()))
    return not missing()


def may_install():
    """Whether packages may be installed: by root, where the variable INSTALLS has something."""
    return bool(os.environ.get("INSTALLS")) and os.geteuid() == 0 and shutil.which("apt-get") is not None


def install(packages):
    """Installs Debian packages, whose services aren't started."""
    get = "apt-get -qq -o DPkg::Lock::Timeout=%d install -y --no-install-recommends %s" % (LATEST, " ".join(packages))
    with no_services():
        subprocess.run(["sh", "-c", "%s || { apt-get -qq update && %s; }" % (get, get)], stdin=subprocess.DEVNULL,
                       stdout=subprocess.DEVNULL, stderr=subprocess.DEVNULL, env=dict(os.environ, DEBIAN_FRONTEND="noninteractive"))


@contextlib.contextmanager
def no_services():
    """While packages are installed here, they start no service of this machine."""
    try:
        with open("/usr/sbin/policy-rc.d", "x", encoding="ascii") as file:
            file.write("#!/bin/sh\nexit 101\n")
            os.fchmod(file.fileno(), 0o755)
    except FileExistsError:
        yield
        return
    try:
        yield
    finally:
        os.unlink("/usr/sbin/policy-rc.d")


def has_host():
    """Whether there is a pawhost: that of the variable PAWHOST, or in bin/."""
    if os.access(os.environ.get("PAWHOST") or os.path.join(TOP, "bin", "pawhost"), os.X_OK):
        return True
    print("needs bin/pawhost")
    return False


def free_port():
    """A port that nobody has, below those that the system gives to clients: one of these might have it before a server does."""
    with open("/proc/sys/net/ipv4/ip_local_port_range", encoding="ascii") as file:
        ports = range(10000, int(file.read().split()[0]))
    for port in random.sample(ports, min(len(ports), 100)) + [0]:
        with contextlib.suppress(OSError), socket.socket() as taken:
            taken.bind(("127.0.0.1", port))
            return taken.getsockname()[1]
    sys.exit("there is no free port")


def wait_for(port, process):
    """Waits until somebody listens at a port of this machine."""
    end = time.monotonic() + LATEST
    while time.monotonic() < end and process.poll() is None:
        with contextlib.suppress(OSError), socket.create_connection(("127.0.0.1", port), LATEST):
            return
        time.sleep(0.05)
    sys.exit("nobody listens at port %d" % port)


def children_of(process):
    """The processes that a process has begun, in whichever of its threads."""
    found = []
    for path in glob.glob("/proc/%d/task/*/children" % process):
        with contextlib.suppress(OSError), open(path, encoding="ascii") as file:
            found += [int(word) for word in file.read().split()]
    return found


def family_of(process):
    """A process and all that it has begun, and these have."""
    return [process] + [one for child in children_of(process) for one in family_of(child)]


def runs(process):
    """Whether a process runs: one that has ended may still be listed."""
    try:
        with open("/proc/%d/stat" % process, encoding="latin-1") as file:
            return file.read().rpartition(")")[2].split()[0] not in ("X", "Z")
    except OSError:
        return False


def wait_for_end(processes):
    """Waits until none of these runs: what was killed may hold locks and ports until then."""
    end = time.monotonic() + LATEST
    while any(runs(process) for process in processes):
        if time.monotonic() > end:
            sys.exit("a process doesn't end")
        time.sleep(0.01)


@contextlib.contextmanager
def running(words, port, said, **more):
    """A server, from when it listens at its port on; what it says goes into a file."""
    with open(said, "ab") as file, subprocess.Popen(words, stdin=subprocess.DEVNULL, stdout=file, stderr=file, **more) as process:
        try:
            wait_for(port, process)
            yield process
        finally:
            process.terminate()


# --- Hosts over a store --------------------------------------------------------------------------------------------

POSTGRES = "/usr/lib/postgresql"


def installed_for_stores():
    """Whether all is there that a host wants, and PostgreSQL beside it; what is missing is installed or named, as `installed` does."""
    wanted = {"starlette": "python3-starlette", "uvicorn": "python3-uvicorn", "psycopg2": "python3-psycopg2"}
    lacks = "import importlib.util as found; print(*(%r[name] for name in %r if not found.find_spec(name)))" % (wanted, list(wanted))

    def missing():
        said = subprocess.run(["/usr/bin/python3", "-c", lacks], stdout=subprocess.PIPE, check=False).stdout.decode()
        return said.split() + ([] if os.path.isdir(POSTGRES) else ["postgresql"])
    if missing() and may_install():
        install(missing())
    if missing():
        print("needs " + ", ".join(missing()))
    return not missing() and has_host()


class Cluster:
    """A PostgreSQL with its default settings in a folder of its own, at a socket there. Root runs it as the user postgres."""

    def __init__(self, folder):
        self.folder, self.data = folder, os.path.join(folder, "data")
        os.makedirs(folder, mode=0o700)
        version = max(os.listdir(POSTGRES), key=float)
        self.programs = os.path.join(POSTGRES, version, "bin")
        self.user = ["setpriv", "--reuid=postgres", "--regid=postgres", "--init-groups"] if os.geteuid() == 0 else []
        if self.user:
            shutil.chown(folder, "postgres", "postgres")
            for parent in parents_of(folder):
                os.chmod(parent, os.stat(parent).st_mode | 0o011)
        self.run("initdb", "-D", self.data, "-A", "trust", "-U", "paw", "-E", "UTF8", "--locale=C")
        with open(os.path.join(self.data, "postgresql.conf"), "a", encoding="ascii") as file:
            file.write("listen_addresses = ''\nunix_socket_directories = '%s'\n" % folder)
        self.start()
        self.run("createdb", "-h", folder, "-U", "paw", "paw")
        self.address = "postgresql://paw@/paw?host=" + folder

    def run(self, program, *words):
        subprocess.run([*self.user, os.path.join(self.programs, program), *words], cwd=self.folder, stdin=subprocess.DEVNULL,
                       stdout=subprocess.DEVNULL, stderr=subprocess.DEVNULL, check=True)

    def start(self):
        """Starts it, once what a killed one left has ended."""
        end = time.monotonic() + LATEST
        while True:
            try:
                self.run("pg_ctl", "-D", self.data, "-l", os.path.join(self.folder, "log"), "-w", "-s", "start")
                return
            except subprocess.CalledProcessError:
                if time.monotonic() > end:
                    raise
                time.sleep(0.1)

    def kill(self):
        """Ends it at once, as a failure would. Each connection has a process of its own, which ends a moment later: before that it may
        take one more change."""
        with open(os.path.join(self.data, "postmaster.pid"), encoding="ascii") as file:
            family = family_of(int(file.readline()))
        os.kill(family[0], signal.SIGKILL)
        wait_for_end(family)

    def stop(self):
        self.run("pg_ctl", "-D", self.data, "-m", "immediate", "-w", "-s", "stop")


def parents_of(folder):
    """The folders above one that belong to this user and that others may not enter."""
    parent = os.path.dirname(folder)
    while parent != os.path.dirname(parent):
        found = os.stat(parent)
        if not found.st_mode & 0o001 and found.st_uid == os.geteuid():
            yield parent
        parent = os.path.dirname(parent)


@contextlib.contextmanager
def cluster(folder):
    """A PostgreSQL that runs for a while."""
    found = Cluster(folder)
    try:
        yield found
    finally:
        found.stop()


class Serving:
    """A host that runs: its address, its process, and the folder in memory where its sessions lie."""

    def __init__(self, address, process, room):
        self.address, self.process, self.room = address, process, room


@contextlib.contextmanager
def served(said, store, *words, port=None, room=None):
    """A host over a store, of one process. What it says goes into a file; its sessions lie in a folder in memory, which may be named."""
    port = port or free_port()
    with contextlib.ExitStack() as held:
        room = room or held.enter_context(tempfile.TemporaryDirectory(prefix="paw-test-", dir="/dev/shm"))
        command = [os.path.join(TOP, "hosting", "serve"), "--port", str(port), "--processes", "1", "--room", room, "--store", store, *words]
        process = held.enter_context(running(command, port, said))
        try:
            yield Serving("http://127.0.0.1:%d/" % port, process, room)
        finally:
            process.send_signal(signal.SIGTERM)
            process.wait(LATEST)


class Player:
    """Somebody who plays at a host, as a page does."""

    def __init__(self, address, game, name=None):
        self.address, self.game, self.state, self.texts = address, game, {"name": name}, []

    def post(self, what, address=None, **fields):
        """The status and the answer of a request. What the host can't do right now is sent again, as a page does."""
        end = time.monotonic() + LATEST
        while True:
            status, answer = self.once((address or self.address) + self.game + "/" + what, json.dumps(fields).encode("ascii"))
            if status != 503 or time.monotonic() > end:
                return status, answer
            time.sleep(0.1)

    @staticmethod
    def once(address, data):
        request = urllib.request.Request(address, data, {"Content-Type": "application/json", "Accept": "application/json"})
        try:
            with urllib.request.urlopen(request, timeout=LATEST) as answer:
                return answer.status, json.load(answer)
        except urllib.error.HTTPError as fault:
            with fault:
                return fault.code, json.loads(fault.read() or b"{}")

    def at(self):
        """Where it stands, as fields of a request."""
        return {name: self.state[name] for name in ("name", "generation", "n", "after")}

    def follow(self, answer):
        """Takes over what a host told."""
        self.state = answer
        if answer["turns"]:
            self.texts[answer["turns"][0]["n"]:] = [turn["text"] for turn in answer["turns"]]
        return answer

    def begin(self, **fields):
        return self.follow(self.post("begin", **fields)[1])

    def open(self, address=None):
        return self.follow(self.post("open", address, name=self.state["name"])[1])

    def ask(self, line, key, address=None):
        """The answer to a line, which isn't taken over."""
        return self.post("line", address, **{**self.at(), "n": self.state["n"] + 1}, key=key, line=line)

    def line(self, line, key, address=None):
        return self.follow(self.ask(line, key, address)[1])

    def undo(self, keeps):
        return self.post("undo", **self.at(), to=keeps)[1]
