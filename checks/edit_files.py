"""Edits: wrong bodies that the check has to refuse, and the functions that they change.

An edit is a file NAME.edit with lines `file: `, `old: ` and `new: `: a line of a source file, and what stands in its place. Those of
tests/wrong_edits are no wrong bodies, and begin with a line `said: `: what has to be said of them."""

import re
from dataclasses import dataclass
from pathlib import Path

from common import ROOT

# The folders of edits: of those that `rt ci` tries too, of the others, and of those that are not to be taken as refused.
OF_CI, OTHERS, WRONG = "crates/*/must-fail", "tests/edits/*", "tests/wrong_edits/*"
FUNCTION = re.compile(r"( *)(?:pub(?:\([^)]*\))? +)?(?:const +)?(?:unsafe +)?fn +(\w+)")
IMPL = re.compile(r"(?:unsafe +)?impl\b(.*)")
CYCLE = re.compile(r" *#\[cycle\((\w+)\)\]")


@dataclass
class Edit:
    """An edit: its crate and name, its file and the text in it, its lines as (file, old, new), the paths of the functions that it changes,
    and of all that share a proof with them. Both have a None where a line stands in no function."""

    crate: str
    name: str
    path: Path
    text: str
    lines: list
    functions: set
    sharers: set

    def __str__(self):
        return f"{self.crate}/{self.name}"

    def is_in_functions(self):
        return None not in self.functions

    def said(self):
        """What has to be said of an edit that is no wrong body."""
        return self.text.split("\n")[0].removeprefix("said: ")

    def apply(self, folder):
        """Changes the crate's files in this folder. Returns what is wrong with the edit, if anything is."""
        texts, was = {}, {}
        for file, old, new in self.lines:
            was.setdefault(file, text_of(folder / file))
            text = texts.get(file, was[file])
            if text.count(old) != 1:
                return f"an old text of it is in {file} {text.count(old)} times"
            texts[file] = text.replace(old, new)
        if texts == was:
            return "it changes nothing"
        for file, text in texts.items():
            (folder / file).write_text(text, encoding="utf-8")
        return None


def text_of(path):
    return path.read_text(encoding="utf-8") if path.is_file() else ""


def edits_in(*folders):
    """The edits of these folders, in the order of their names."""
    return sorted((edit_of(path) for folder in folders for path in ROOT.glob(f"{folder}/*.edit")), key=str)


def edit_of(path):
    text = text_of(path)
    crate = path.parent.parent.name if path.parent.name == "must-fail" else path.parent.name
    lines = lines_of(text)
    places = [place_of(ROOT / "crates" / crate, file, old) for file, old, _ in lines]
    return Edit(crate, path.stem, path, text, lines, {it for it, _ in places}, {it for _, them in places for it in them})


def lines_of(text):
    """The file, the old text and the new text of each change that an edit makes."""
    file, old, found = "", "", []
    for line in text.split("\n"):
        if line.startswith("file: "):
            file = line.removeprefix("file: ").strip()
        elif line.startswith("old: "):
            old = line.removeprefix("old: ")
        elif line.startswith("new:"):
            found.append((file, old, line.removeprefix("new:").removeprefix(" ")))
    return found


def place_of(folder, file, old):
    """The function of a crate in which this text stands, and those that share a proof with it."""
    text = text_of(folder / file)
    if not file.startswith("src/") or text.count(old) != 1:
        return None, {None}
    line = text[: text.find(old)].count("\n")
    function = function_at(file, text, line)
    return function, {function, *(in_cycle(file, text, line) if function else [])}


def function_at(file, text, line):
    """The path, below the crate, of the function that holds this line, counted from 0, as a check prints it, or None. The layout of
    `rt fmt` shows it: a function stands at the margin, or one step within its impl."""
    lines = text.split("\n")
    # An attribute, at which some messages stand, belongs to what is below it.
    while lines[line].lstrip().startswith("#["):
        line += 1
    at = last_row(FUNCTION, lines, line)
    function = FUNCTION.match(lines[at])
    # A closing brace between, as far from the margin as the function, ends the function.
    if not function or f"{function[1]}}}" in lines[at + 1 : line]:
        return None
    parts = [it for it in Path(file).with_suffix("").parts[1:] if it not in ("lib", "main", "mod")]
    if function[1]:
        header = IMPL.match(lines[last_row(IMPL, lines, at)])
        if not header:
            return None
        parts.append(owner(header[1]))
    return "::".join([*parts, function[2]])


def last_row(form, lines, line):
    """The last row up to this one that has this form, or 0."""
    return next((at for at in range(line, 0, -1) if form.match(lines[at])), 0)


def in_cycle(file, text, line):
    """The paths of the functions in the cycle of calls of the function that holds this line, if it is in one, and that of their proof."""
    lines = text.split("\n")
    at = last_row(FUNCTION, lines, line)
    while at and lines[at - 1].lstrip().startswith(("#[", "//")):
        at -= 1
        if CYCLE.match(lines[at]):
            found = [function_at(file, text, row) for row, it in enumerate(lines) if it == lines[at]]
            return [*found, f"{found[0].rpartition('::')[0]}::{CYCLE.match(lines[at])[1]}"]
    return []


def owner(header):
    """The part of a function's path that an impl gives: its type, and behind it the trait's name with those of its types."""
    of_trait, _, of = without_parameters(header.replace("->", "").split("{")[0].split(" where ")[0].strip()).rpartition(" for ")
    return names_in(of, 0) + names_in(of_trait, 1)


def without_parameters(header):
    """What follows `impl`, without the parameters in angle brackets at its start."""
    depth = 0
    for at, it in enumerate(header):
        depth += (it == "<") - (it == ">")
        if depth == 0:
            return header[at + 1 :] if header.startswith("<") else header
    return header


def names_in(text, most):
    """The names in a type or a trait that stand in at most so many angle brackets, joined, without lifetimes and the modules of paths."""
    depth, found = 0, ""
    for it in text:
        depth += (it == "<") - (it == ">")
        found += it if depth <= most else ""
    return re.sub(r"\W", "", re.sub(r"'\w+|\w+::", "", found))


def passes_of(edits):
    """Edits in lists, in each of which no two change one function, or two that share a proof."""
    passes = []
    for edit in edits:
        fitting = next((it for it in passes if not any(edit.sharers & other.sharers for other in it)), None)
        if fitting is None:
            passes.append([edit])
        else:
            fitting.append(edit)
    return passes
