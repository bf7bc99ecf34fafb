"""Begins the seat within a published game: the first word is the path by which the game was called."""
import os
import runpy
import sys

import called
import paws

called.game = sys.argv.pop(1)
called.name = sys.argv[0] = os.path.basename(called.game)
paws.REASONS = "/proc/%d/fd/6" % os.getpid()  # where the launcher has opened them
runpy.run_module("seat", run_name="__main__")
