"""The interpreter that has what a host needs: packages of Debian belong to /usr/bin/python3, whatever python3 comes first."""
import importlib.util
import os
import sys

DEBIAN = "/usr/bin/python3"
PACKAGES = {"starlette": "python3-starlette", "uvicorn": "python3-uvicorn", "psycopg2": "python3-psycopg2"}


def missing(names):
    return [name for name in names if not importlib.util.find_spec(name)]


def find(path, *names, told=""):
    """Goes on where all of these modules are there; begins the script anew with Debian's interpreter where they aren't. Where
    that lacks them too it ends, and says what to install, or what the script tells of itself where --help or --version is asked."""
    if not missing(names):
        return
    if os.path.realpath(sys.executable) != os.path.realpath(DEBIAN) and os.access(DEBIAN, os.X_OK):
        os.execv(DEBIAN, [DEBIAN, os.path.abspath(path), *sys.argv[1:]])
    if told and "--help" in sys.argv:
        import paws
        paws.words(told).print_help()
        sys.exit(0)
    if told and "--version" in sys.argv:
        import changes
        changes.tell(os.path.basename(path))
        sys.exit(0)
    sys.stderr.write("%s wants what isn't here; in Debian: apt install %s\n" %
                     (os.path.basename(path), " ".join(PACKAGES[name] for name in missing(names))))
    sys.exit(2)
