"""Where the program is that the tests run."""

import os
import pathlib
import subprocess
import sys

ROOT = pathlib.Path(__file__).resolve().parent.parent
# The status of a test that finds no program.
NO_PROGRAM = 70


def asked(**streams):
    """The path of the program that ./convoy runs; none where one has to be proved first, or none can be, as it says."""
    how = {"env": os.environ | {"CONVOY_PROVE": "0", "CONVOY_WHERE": "1"}, "stdin": subprocess.DEVNULL, "text": True}
    return subprocess.run([ROOT / "convoy"], stdout=subprocess.PIPE, **how, **streams).stdout.strip()


def program():
    """The absolute path of the program: the one that the variable CONVOY names, or the one that ./convoy runs."""
    path = os.environ.get("CONVOY") or asked()
    if not (os.path.isfile(path) and os.access(path, os.X_OK)):
        print(f"no program to test: '{path}' cannot be run" if path else "no program to test", file=sys.stderr)
        sys.exit(NO_PROGRAM)
    return os.path.abspath(path)
