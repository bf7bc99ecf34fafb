"""Plays lines over the protocol: python3 client.py ./paw serve games/gull.img"""
import json
import subprocess
import sys

LINES = ["x boat", "open locker", "take matches", "n"]


class Game:
    def __init__(self, *words):
        self.program = subprocess.Popen(words, stdin=subprocess.PIPE, stdout=subprocess.PIPE)
        self.name, self.n = None, 0

    def ask(self, do, **fields):
        request = json.dumps({"paw": 1, "id": do, "do": do, **fields})
        self.program.stdin.write(request.encode() + b"\n")
        self.program.stdin.flush()
        reply = json.loads(self.program.stdout.readline())
        if not reply["ok"]:
            sys.exit(reply["why"])
        self.name, self.n = reply.get("game"), reply.get("n", self.n)
        return reply


game = Game(*sys.argv[1:])
print(game.ask("begin", seed=7)["text"], end="")
for line in LINES:
    print(line, game.ask("take", game=game.name, n=game.n + 1, line=line)["text"], sep="\n", end="")
