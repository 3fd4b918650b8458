"""The programs that a script runs, the crates that it reads of, and what it says where it can do nothing.

A script that tried nothing says in one sentence what it needs, and ends with status 2.
"""
import os
import subprocess
import sys

TOOLS = os.path.dirname(os.path.abspath(__file__))
NOTHING = 2


class Lacking(Exception):
    """Nothing can be tried, and why."""


def program_of(name, given=None):
    """The path of the program given, or of that of a crate, proved or else unproved; Lacking where there is none."""
    if given is None:
        made = subprocess.run([os.path.join(TOOLS, "kept"), "program", name], stdout=subprocess.PIPE, text=True, check=False)
        given = made.stdout.strip()
    if not os.access(given, os.X_OK):
        raise Lacking(f"it needs the program {given or name}")
    return os.path.abspath(given)


def uses():
    """The crates of the repository, each with those that it uses, of the kit too."""
    with open(os.path.join(os.path.dirname(TOOLS), "crates.txt"), encoding="utf8") as file:
        lines = [line.split("#")[0].partition(":") for line in file if line.split("#")[0].strip()]
    return {head.split()[0]: rest.split() for head, _, rest in lines}


def below(crates, every):
    """These crates, and those of the repository that they stand on."""
    found, todo = set(), list(crates)
    while todo:
        crate = todo.pop()
        if crate in every and crate not in found:
            found.add(crate)
            todo += every[crate]
    return found


def run(path, words, text, seconds=60):
    done = subprocess.run([path, *words], input=text.encode(), capture_output=True, timeout=seconds)
    return done.returncode, done.stdout.decode()


def ends(main):
    """Runs a script's main, and ends with its status."""
    try:
        sys.exit(main())
    except Lacking as lacking:
        print(f"{os.path.basename(sys.argv[0])}: nothing was tried: {lacking}", file=sys.stderr)
        sys.exit(NOTHING)
