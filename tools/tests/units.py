"""What tools/tests/units tries inside of its container, where systemd has begun a host and opened its door.

usage: units.py FILE   (for what is told)
"""
import http.client
import json
import os
import re
import socket
import subprocess
import sys
import time

LATEST = 600  # seconds
STORE = "/var/lib/games/paw.store"


def system(*words):
    return subprocess.run(["systemctl", *words], stdout=subprocess.PIPE, stderr=subprocess.STDOUT, text=True, check=False).stdout.strip()


def until(does, told):
    """What something gives, once it gives something."""
    end = time.monotonic() + LATEST
    while time.monotonic() < end:
        try:
            found = does()
        except (OSError, http.client.HTTPException, ValueError):
            found = None
        if found:
            return found
        time.sleep(0.1)
    print("%s: it didn't come in %d seconds" % (told, LATEST))
    print(system("--no-pager", "--full", "status", "games.service"))
    raise SystemExit(1)


def ask(what, **fields):
    """The answer of the host."""
    connection = http.client.HTTPConnection("127.0.0.1", 8080, timeout=LATEST)
    connection.request("POST", "/gull/" + what, json.dumps(fields), {"Content-Type": "application/json", "Accept": "application/json"})
    with connection.getresponse() as answer:
        return json.loads(answer.read()) if answer.status == 200 else None


def visit(*lines):
    """What a visit at the door shows."""
    with socket.create_connection(("127.0.0.1", 4000), LATEST) as door:
        door.sendall("".join(line + "\r\n" for line in lines).encode("ascii"))
        door.shutdown(socket.SHUT_WR)
        return b"".join(iter(lambda: door.recv(65536), b"")).decode("latin-1")


def main():
    until(lambda: ask("begin"), "a game of the host")
    owner = os.stat("/proc/%s" % system("show", "-P", "MainPID", "games.service")).st_uid
    print("the host runs as root" if owner == 0 else "the host runs, and not as root")
    shut = all(os.stat(STORE + ending).st_mode & 0o777 == 0o600 for ending in ("", "-wal", "-shm", "-turn"))
    print("its store is its own" if shut else "its store can be read by others")
    shown = visit("", "x boat")
    name = re.search("called ([a-z]{16})", shown)[1]
    print("a game is begun at the door:", "There is a locker under the seat." in shown)
    before = system("show", "-P", "MainPID", "games.service")
    os.kill(int(before), 9)
    until(lambda: system("show", "-P", "MainPID", "games.service") not in (before, "0"), "a host that was killed")
    state = until(lambda: ask("open", name=name), "the game behind the kill")
    print("the host was killed, and begun again; the game stands at line", state["n"])
    print("it goes on at the door:", "lies a box of matches" in visit(name, "open locker"))
    system("start", "games-copy.service")
    print("the copy:", system("show", "-P", "Result", "games-copy.service"), os.path.getsize("/var/lib/games/copy.store") > 0)
    system("start", "games-copy.timer")
    print("the timer waits:", system("is-active", "games-copy.timer"))
    system("stop", "games.service")
    print("the host ends:", system("show", "-P", "Result", "games.service"))
    said = subprocess.run(["journalctl", "--no-pager"], stdout=subprocess.PIPE, check=False).stdout
    print("a traceback was shown" if b"Traceback" in said else "no traceback was shown")


if __name__ == "__main__":
    sys.stdout = open(sys.argv[1], "w", encoding="ascii", errors="replace", buffering=1)
    main()
