"""The commands of a page, which stand in its console blocks, and what they print, and the files of its blocks of Python."""

import os
import re
import signal
import subprocess
import sys
from importlib.util import find_spec
from pathlib import Path

FENCE = "```"
SECONDS = 60
# The first line of a block of Python, which names its file, and a module that it needs.
FILE = re.compile(r"# (\w+\.py)\n")
MODULE = re.compile(r"^import (\w+)", re.MULTILINE)


def commands_of(page):
    """The commands of a page: of each its place, its text and the lines that it is to print; `None` if it is the text of a file."""
    commands, console, wanted, file = [], False, None, None
    for number, line in enumerate(page.read_text(encoding="utf-8").split("\n"), 1):
        place = f"{os.path.relpath(page)}:{number}"
        if line.lstrip().startswith(FENCE):
            if "console" in line and (console or line != FENCE + "console"):
                sys.exit(f"{place}: a console block begins with the line {FENCE}console")
            if file:
                commands.append((place, "\n".join([*file, ""]), None))
            console, wanted, file = line == FENCE + "console", None, [] if line == FENCE + "python" else None
        elif file is not None:
            file.append(line)
        elif console and line.startswith("$ "):
            wanted = []
            commands.append((place, line[2:], wanted))
        elif console and wanted is None:
            sys.exit(f"{place}: the output of no command")
        elif console:
            wanted.append(line)
    if console:
        sys.exit(f"{place}: the last console block has no end")
    return commands


def lines_of(command, folder, environment):
    """The lines that a command prints, with its exit status where it is not 0."""
    process = subprocess.Popen(
        ["sh", "-c", command],
        cwd=folder,
        env=environment,
        stdin=subprocess.DEVNULL,
        stdout=subprocess.PIPE,
        stderr=subprocess.STDOUT,
        start_new_session=True,
    )
    try:
        output, _ = process.communicate(timeout=SECONDS)
        last = [f"[status {process.returncode}]"] if process.returncode else []
    except subprocess.TimeoutExpired:
        os.killpg(process.pid, signal.SIGKILL)
        output, _ = process.communicate()
        last = [f"[stopped after {SECONDS} seconds]"]
    lines = output.decode(errors="replace").split("\n")
    return (lines if lines[-1] else lines[:-1]) + last


def written(place, text, folder):
    """Writes a file of a page into a folder, and returns its name; `None` if it needs a module that is not there."""
    file, missing = FILE.match(text), [name for name in MODULE.findall(text) if not find_spec(name)]
    if not file:
        sys.exit(f"{place}: the first line of a block of Python is `# NAME.py`")
    if missing:
        print(f"{place}: {file[1]} is left out, as there is no {missing[0]}")
        return None
    Path(folder, file[1]).write_text(text, encoding="utf-8")
    return file[1]


def run_commands(page, folder, environment, checks):
    """Checks that each command of a page prints in a folder what the page says."""
    left_out = []
    for place, command, wanted in commands_of(page):
        if wanted is None:
            left_out += [] if written(place, command, folder) else [FILE.match(command)[1]]
        elif not any(name in command for name in left_out):
            found = lines_of(command, folder, environment)
            checks.check(found == wanted, f"{place}: $ {command}", "expected:", *wanted, "found:", *found, "")
