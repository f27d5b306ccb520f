"""The proved programs of this repository, for the tools that run them."""
import os
import subprocess
import sys

ROOT = os.path.dirname(os.path.dirname(os.path.abspath(__file__)))


def proved(name):
    """The file of a program; it is proved and built where it is not there yet."""
    folder = os.path.join(ROOT, "crates", name)
    program = os.path.join(folder, "out", name)
    if not os.path.exists(program):
        print(f"proving and building {name}", file=sys.stderr)
        subprocess.run(["rt", "run"], cwd=folder, check=True, stdin=subprocess.DEVNULL, stdout=subprocess.DEVNULL, stderr=sys.stderr)
    return program
