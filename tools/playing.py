"""The program as it plays a session: a line goes to it, and the text that answers comes back as a whole."""
import select
import socket
import subprocess

import sessions

LONGEST = 65536  # a text has at most 65,535 bytes
LOOK = 0.02  # seconds between two looks at the session, where no text has come


class Playing:
    """A program that plays. Its output is a socket that keeps writes apart: the program shows a text by one write, so each read
    gives a whole one. It has a process group of its own, so that keys of the terminal which end programs don't reach it. Files that
    were open before this program began stay open: the program or the image may be one of them, /proc/self/fd/8."""

    def __init__(self, words, session):
        self.session = session
        self.texts, theirs = socket.socketpair(socket.AF_UNIX, socket.SOCK_SEQPACKET)
        with theirs:
            theirs.setsockopt(socket.SOL_SOCKET, socket.SO_SNDBUF, 2 * LONGEST)
            self.process = subprocess.Popen(words, stdin=subprocess.PIPE, stdout=theirs, stderr=subprocess.PIPE,
                                            close_fds=False, start_new_session=True, restore_signals=False)
        self.lines = None

    def first(self):
        """The text before the first line typed; None where the program has ended instead."""
        text = self.next_text()
        if text is not None:
            self.lines = sessions.now(self.session).lines
        return text

    def answer(self, line):
        """The text that answers a line of bytes; None where the program has ended."""
        try:
            self.process.stdin.write(line + b"\n")
            self.process.stdin.flush()
        except BrokenPipeError:
            return None
        text = self.next_text()
        self.lines += 1
        return text

    def next_text(self):
        """A text that is empty isn't written: the session tells that the line was taken, and that nothing answers it."""
        while not select.select([self.texts], [], [], LOOK)[0]:
            if self.lines is not None:
                state = sessions.now(self.session)
                if state.lines > self.lines and not state.text:
                    return ""
        return self.texts.recv(LONGEST).decode("latin-1") or None

    def end(self):
        """Ends the input, and waits for the program to end; gives its status and what it says."""
        try:
            self.process.stdin.close()
        except BrokenPipeError:
            pass
        said = self.process.stderr.read().decode("utf-8", "replace").strip()
        self.process.stderr.close()
        self.texts.close()
        return self.process.wait(), said
