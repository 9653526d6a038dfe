"""What the checks share: the top of the repository, the modules of tools/, the built program, and the count of what passed."""

import os
import subprocess
import sys
import threading
from pathlib import Path

ROOT = Path(__file__).resolve().parent.parent
sys.path.append(str(ROOT / "tools"))


def program_path(name="nbhd"):
    """The path of a program: the one that the variable of its name in capitals names, else that of its crate."""
    return Path(os.environ.get(name.upper()) or ROOT / "crates" / name / "out" / name).resolve()


def built_program(name="nbhd", build=(ROOT / "build",)):
    """The path of a program, which a command in its crate's folder builds first where the program of the crate is missing."""
    program = program_path(name)
    if not program.exists() and not os.environ.get(name.upper()):
        subprocess.run(build, cwd=ROOT / "crates" / name, stdout=subprocess.DEVNULL)
    if not program.exists():
        sys.exit(f"{Path(sys.argv[0]).name}: {program} is missing")
    return program


def crates_listed():
    """The lines of crates.txt by the crate's name, and the libraries that each names."""
    lines = {}
    for line in (ROOT / "crates.txt").read_text(encoding="utf-8").splitlines():
        head, colon, uses = line.partition("#")[0].partition(":")
        if colon:
            lines[head.split()[0]] = (line, uses.split())
    return lines


def with_below(crates, names):
    """These crates of the repository and those below them, each after those that it uses."""
    found = []
    for name in names:
        for it in [*with_below(crates, [used for used in crates[name][1] if used in crates]), name]:
            found += [it] if it not in found else []
    return found


class Checks:
    """How many checks passed, and how many failed."""

    def __init__(self):
        self.passed, self.failed, self.lock = 0, 0, threading.Lock()

    def check(self, good, *lines):
        """Counts a check, and prints the lines where it failed."""
        with self.lock:
            if good:
                self.passed += 1
            else:
                self.failed += 1
                print(*lines, sep="\n", flush=True)

    def end(self):
        """Prints the last line of a tool, which .ci/run adds up, and ends it."""
        print(f"{self.passed} passed, {self.failed} failed")
        sys.exit(1 if self.failed else 0)
