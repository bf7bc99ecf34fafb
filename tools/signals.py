"""What a script does at Ctrl-C, SIGTERM and SIGHUP: it ends with 128 and the number of the signal, and leaves nothing behind.

tools/begin starts a script with Ctrl-C held back; paws.script takes the signals, and so ends what is held. Of those that come, the
first raises a KeyboardInterrupt with the number of the signal, wherever the script is; later ones do nothing, so that it can end.
"""
import contextlib
import os
import select
import signal
import sys
import time

ENDING = (signal.SIGINT, signal.SIGTERM, signal.SIGHUP)
AGAIN = 0.01  # seconds until a signal is raised anew that came where nothing can be raised, and a folder is looked at anew
ATTEMPTS = 100
PIECE = 65536  # bytes
came = []     # the signal that ends the script; None where it has ended by itself


def end(number, _):
    if not came:
        came.append(number)
        raise KeyboardInterrupt(number)


def not_raised(told):
    """What a finalizer raises goes nowhere: a signal that came there is raised once more."""
    if not issubclass(told.exc_type, KeyboardInterrupt):
        sys.__unraisablehook__(told)
    elif came and came[0]:
        number = came.pop()
        signal.signal(signal.SIGALRM, lambda *_: end(number, None))
        signal.setitimer(signal.ITIMER_REAL, AGAIN)


def take():
    """From here on a signal ends the script. One that the caller ignores, as nohup does, is ignored still."""
    sys.unraisablehook = not_raised
    for number in ENDING:
        if signal.getsignal(number) != signal.SIG_IGN:
            signal.signal(number, end)
    signal.pthread_sigmask(signal.SIG_UNBLOCK, ENDING)


@contextlib.contextmanager
def held():
    """Signals that come meanwhile wait. A script that is started here has them held back, too, and takes them itself."""
    before = signal.pthread_sigmask(signal.SIG_BLOCK, ENDING)
    try:
        yield
    finally:
        signal.pthread_sigmask(signal.SIG_SETMASK, before)


def pieces(file):
    """What comes from a file, by its number, up to its end. A signal that comes right before a read would wait until something is
    there to read: so it is a thing to read itself."""
    woken, wakes = os.pipe()
    os.set_blocking(wakes, False)
    before = signal.set_wakeup_fd(wakes, warn_on_full_buffer=False)
    try:
        while True:
            if file in select.select([file, woken], [], [])[0]:
                data = os.read(file, PIECE)
                if not data:
                    return
                yield data
            else:
                os.read(woken, PIECE)  # a signal that does nothing here
    finally:
        signal.set_wakeup_fd(before)
        os.close(woken)
        os.close(wakes)


@contextlib.contextmanager
def room(folder=None):
    """A folder of this run alone, in the one named or where such folders lie. It goes with the run, whatever signal comes."""
    import tempfile  # wanted by few
    with held():
        try:
            made = tempfile.TemporaryDirectory(dir=folder)
        except OSError as fault:
            where = folder or os.environ.get("TMPDIR", "/tmp")
            raise OSError(fault.errno, "no temporary folder can be made there", where) from fault
    try:
        yield made.name
    finally:
        with held():
            take_away(made)


def take_away(made):
    """Takes a temporary folder away. A program that was begun in it may write one more file before the same signal ends it."""
    for attempt in range(ATTEMPTS):
        try:
            return made.cleanup()
        except OSError:
            if attempt + 1 == ATTEMPTS:
                raise
            time.sleep(AGAIN)


def status_of(main):
    """The status with which main ends, or that of the signal which ended it."""
    try:
        take()
        status = main()
        came.append(None)
        return status
    except KeyboardInterrupt as stopped:
        came.append(None)
        return 128 + (stopped.args or [signal.SIGINT])[0]
