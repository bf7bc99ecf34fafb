"""Runs a script for tools/begin: python3 begin.py WHO ELSE SCRIPT WORD... It is written so that any Python can read it."""
import os
import sys

who, other = sys.argv[1:3]
del sys.argv[:3]
if sys.version_info < (3, 9):
    told = (who,) + tuple(sys.version_info[:2]) + (other,)
    sys.stderr.write("%s wants Python 3.9 or later, and python3 is Python %d.%d here.%s\n" % told)
    sys.exit(126)
if sys.argv:
    __file__ = sys.argv[0]
    sys.path[0] = os.path.dirname(os.path.realpath(__file__))
    try:
        with open(__file__, "rb") as script:
            code = compile(script.read(), __file__, "exec")
    except (IOError, OSError) as fault:
        sys.exit("%s: %s" % (__file__, fault.strerror))
    exec(code)
