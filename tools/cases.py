"""Cases of tools/fuzz and tools/crashes: each is made of its number, and has a folder of its own. So many of them are tried, or for
so long; one that differs is told with the command that tries it again, and its files are kept."""
import os
import shlex
import shutil
import subprocess
import tempfile
import time

import paws
import signals

SLOWEST = 600  # seconds that a run of the program has, on a machine with other work


class Differs(Exception):
    """What a case has otherwise than it is to be."""


def words(told, count):
    """A reader of the words of such a script, which tries so many cases where it isn't told."""
    found = paws.words(told)
    found.add_argument("--paw", help="the program (that of the variable PAW, or the one that ./paw runs)")
    found.add_argument("--first", type=int, default=0, help="the number of the first case (0)")
    found.add_argument("--cases", type=int, default=count, help="how many cases (%d)" % count)
    found.add_argument("--minutes", type=float, help="in place of a number of cases: for so long")
    return found


def run(paw, *given, lines=()):
    """The status of a run of the program, what it shows, and what it says of a refusal."""
    status, shown, said = paws.run([paw, *given], lines, SLOWEST)
    return status, shown, said.strip()


def kept(script, room):
    """A new folder with the files of a case."""
    found = os.path.join(tempfile.mkdtemp(prefix=script + "."), "case")
    shutil.copytree(room, found)
    return found


def go(script, given, tried):
    """Calls `tried` with the number and the folder of each case. Says which cases these were, and how many of them differed."""
    by = " --paw " + shlex.quote(given.paw) if given.paw else ""
    number, wrong, ends = given.first, 0, time.monotonic() + 60 * given.minutes if given.minutes else None
    while time.monotonic() < ends if ends else number < given.first + given.cases:
        with signals.room("/dev/shm" if os.path.isdir("/dev/shm") else None) as room:
            try:
                tried(number, room)
            except (Differs, subprocess.TimeoutExpired) as why:
                wrong += 1
                print("case %d: %s\n  its files are in %s\n  to try it again: tools/%s%s --first %d --cases 1" %
                      (number, why, kept(script, room), script, by, number), flush=True)
            except Exception:
                print("case %d isn't tried to its end" % number, flush=True)
                raise
        number += 1
    return "%d cases from %d on, %d differences" % (number - given.first, given.first, wrong), wrong
