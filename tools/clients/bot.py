"""A bot for IRC that plays a game with those who talk to it: one game for a channel, and one for each nick that talks in private.

usage: python3 bot.py HOST PORT NICK CHANNEL COMMAND WORDS..    as .. ./paw serve --folder FOLDER GAME.img

In the channel a line is for the bot where it begins with the bot's nick and a colon. The first line to it begins a game, each later
one is a line of that game; !undo takes one back, and !new goes back to the beginning. Answers are notices, so no bot answers them.
The status is 1 where the connection or the command ends.
"""
import hashlib
import itertools
import json
import re
import socket
import subprocess
import sys
import textwrap
import time

ROWS, COLUMNS = 14, 400     # of an answer at most; a message of IRC has 512 bytes with all that stands around it
BURST, PACE = 4, 0.5        # so many rows go at once, then each waits so many seconds: servers throw out who floods
LONGEST = 200               # letters of a line that is played
MESSAGE = re.compile(r"(?::([^ !]*)\S* +)?(\S+)((?: +[^: ]\S*)*)(?: +:(.*))? *")  # its source, command, words, and text
MARK = re.compile(r"\[[A-Z]+( \d+)*\]\n")  # of a picture, a sound or a colour


class Bot:
    def __init__(self, host, port, nick, channel, words):
        self.nick, self.channel, self.ids = nick, channel, itertools.count(1)
        self.program = subprocess.Popen(words, stdin=subprocess.PIPE, stdout=subprocess.PIPE)
        self.connection = socket.create_connection((host, int(port)))
        self.send("NICK " + nick, "USER %s 0 * :plays a text adventure" % nick)

    def send(self, *rows):
        for count, row in enumerate(rows, 1):
            self.connection.sendall(row.encode("ascii", "replace") + b"\r\n")
            if count > BURST:
                time.sleep(PACE)

    def ask(self, do, **fields):
        """The reply of the game's program to a request."""
        self.program.stdin.write(json.dumps({"paw": 1, "id": next(self.ids), "do": do, **fields}).encode() + b"\n")
        self.program.stdin.flush()
        reply = self.program.stdout.readline()
        return json.loads(reply) if reply else sys.exit("the game's program has ended")

    def answer(self, who, line):
        """What the game of a nick or of the channel says to a line."""
        game = "irc-" + hashlib.sha256(who.lower().encode()).hexdigest()[:32]
        reply = self.ask("where", game=game)
        if reply["ok"]:
            n, back = reply["n"], {"!undo": max(0, reply["n"] - 1), "!new": 0}
            reply = self.ask("undo", game=game, to=back[line]) if line in back else self.ask("take", game=game, n=n + 1, line=line)
        elif reply["kind"] == "unknown":
            reply = self.ask("begin", game=game)
        return reply["text"] if reply["ok"] else "(%s !undo takes a line back, !new goes back to the beginning.)" % reply["why"]

    def tell(self, whom, text):
        """Sends a text in rows that fit, without marks and the prompt at its end."""
        rows = [row for part in MARK.sub("", text).rstrip("> \n").split("\n") for row in textwrap.wrap(part, COLUMNS)]
        rows = rows[:ROWS] + ["(There is more of this text, which is too long for here.)"] * (len(rows) > ROWS)
        self.send(*("NOTICE %s :%s" % (whom, row) for row in rows or ["(Nothing is said.)"]))

    def hear(self, source, command, words, text):
        """Does what a message of the server wants."""
        if command == "PING":
            self.send("PONG :" + text)
        elif command == "433":  # another one has the nick
            self.nick += "_"
            self.send("NICK " + self.nick)
        elif command == "001":
            self.send("JOIN " + self.channel)
        elif command == "PRIVMSG" and words:
            called = text.lower().startswith(self.nick.lower() + ":")
            if words[0].lower() == self.nick.lower():
                self.tell(source, self.answer(source, plain(text)))
            elif words[0].lower() == self.channel.lower() and called:
                self.tell(self.channel, self.answer(self.channel, plain(text[len(self.nick) + 1:])))

    def run(self):
        with self.connection.makefile("rb") as messages:
            for message in iter(lambda: messages.readline(4096), b""):
                found = MESSAGE.fullmatch(message.decode("utf-8", "replace").strip("\r\n"))
                if found:
                    self.hear(found[1] or "", found[2].upper(), found[3].split(), found[4] or "")


def plain(text):
    """A line without controls, as colours of IRC, and not too long."""
    return re.sub(r"[\x00-\x1f\x7f-\x9f]", "", text).strip()[:LONGEST]


if __name__ == "__main__":
    if len(sys.argv) < 6:
        sys.exit(__doc__.strip())
    try:
        Bot(*sys.argv[1:5], sys.argv[5:]).run()
    except (OSError, ValueError, KeyboardInterrupt) as why:
        sys.exit("%s: %s" % (sys.argv[0], why or "stopped"))
    sys.exit("the server has closed the connection")
