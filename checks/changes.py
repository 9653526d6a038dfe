"""The files that CONTRIBUTING names for each kind of change."""

import re
import subprocess

from common import ROOT
from definitions import enums

HEAD = re.compile(r"^## A new (\w+)\n(.*?)(?=^## )", re.MULTILINE | re.DOTALL)
BULLET = re.compile(r"^- .*?(?=^- |^\n|\Z)", re.MULTILINE | re.DOTALL)
CODE = re.compile(r"`([^`\n]+)`")
# What names all operations and is no part of the language: a test crate, and pages that show programs.
SHOWN = ("crates/conformance/", "crates/refusals/", "docs/TUTORIAL.md", "docs/EXERCISES.md", "docs/RECIPES.md")


def tracked():
    """The files of the repository."""
    return subprocess.run(["git", "-C", ROOT, "ls-files"], capture_output=True, text=True, check=True).stdout.splitlines()


def named(bullet, files):
    """The files that the marks of a bullet name before a sentence that begins with "If": paths, folders, and ends of paths in the crates
    that it names."""
    marks = CODE.findall(re.split(r"\.\s+If\s", bullet)[0])
    crates = [f"crates/{mark.split('/')[0]}/" for mark in marks if any(it.startswith(f"crates/{mark.split('/')[0]}/") for it in files)]
    for mark in marks:
        of_crates = [it for it in files if it.endswith(f"/{mark}") and it.startswith(tuple(crates))]
        in_folder = [it for it in files if mark.endswith("/") and it.startswith(mark)]
        yield from of_crates if "." in mark else in_folder
        yield from (it for it in files if it == mark)


def changed():
    """For each kind of change the files that its list in CONTRIBUTING names."""
    files = tracked()
    text = (ROOT / "CONTRIBUTING.md").read_text(encoding="utf-8")
    return {kind: {it for bullet in BULLET.findall(part) for it in named(bullet, files)} for kind, part in HEAD.findall(text)}


def with_all_operations():
    """The files of the language that name each operation: a new one is added there."""
    words = [name for enum in ("UnOp", "BinOp") for name in enums()[enum][0]]
    for path in tracked():
        if path.startswith(("crates/", "docs/", "editors/", "page/")) and not path.startswith(SHOWN):
            text = (ROOT / path).read_bytes().decode(errors="replace")
            if all(re.search(rf"\b({word}|{word.lower()})\b", text) for word in words):
                yield path
