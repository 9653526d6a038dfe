"""What a text is that is given in place of another one, told from its first bytes, as nbhd's notes tell it."""

import re

FILES = (b"\x1f\x8b", b"\xfd7zXZ", b"PK\x03\x04", b"BZh", b"%PDF-", b"{\\rtf", b"\x89PNG", b"\xff\xd8\xff", b"GIF8")
WIDE = (b"\xff\xfe", b"\xfe\xff", b"\xef\xbb\xbf")
PAGES = (b"<svg", b"<?xml", b"<!doctype", b"<html", b"<head", b"<body", b"<pre")
REPORTS = re.compile(
    rb"(accepted ids|yes:|no: ring|(text|check|ring|segments|table|formula|refutation) fault|refuted:|nbhd:) "
)
PLACES = re.compile(rb"   0[0-9 ]{10}\n   1")
PROGRAM, TABLE = re.compile(rb"rounds [0-9]+(?! ids )"), re.compile(rb"nbhd-table|rounds [0-9]+ ids ")
COMMENTS = re.compile(rb"(?:\s+|c(?: [^\n]*)?(?:\n|$)|#[^\n]*(?:\n|$))*")
STEP = re.compile(rb"[1-9][0-9]* (?:d |[icm] )?(?:-?[0-9]+ )*0 (?:[0-9]+ )*0\r?$|[1-9][0-9]* d (?:[0-9]+ )+0\r?$")
CLAUSE = re.compile(rb"(?:d )?(?:-?[1-9][0-9]* )*0\r?$")

# The kinds, each with what is said of one that is given in place of another.
SAID = {
    "program": "this looks like a program of nbhd",
    "table": "this is the text of a table: `nbhd audit` takes one",
    "formula": "this is a formula, as `nbhd formula` prints it",
    "refutation": "this looks like a refutation, which has its hints: `nbhd refute` takes one",
    "proof": "this looks like a proof in DRAT",
    "answer": "this is a solver's answer: `tools/model` makes the table of a model",
    "report": "this is output of nbhd",
    "page": "this is a page in HTML or XML: save the text alone",
    "wide": "the file is UTF-16, or has a byte order mark: save it as ASCII without one",
    "file": "this is no text, but a packed file, a picture or a document: save its text alone",
}


def kind_of(data):
    """The kind of a text by its first bytes, None if it is not known."""
    if data.startswith(FILES):
        return "file"
    if data.startswith(WIDE) or re.match(rb"[^\0]\0[^\0]\0|\0[^\0]\0[^\0]", data):
        return "wide"
    if data.lstrip().lower().startswith(PAGES):
        return "page"
    if PLACES.match(data):
        return "report"
    return kind_of_line(data[COMMENTS.match(data).end() :].split(b"\n", 1)[0])


def kind_of_line(line):
    """The kind of a text by its first line that is no comment."""
    starts = {"table": TABLE, "program": PROGRAM, "report": REPORTS, "refutation": STEP, "proof": CLAUSE}
    if line.startswith(b"p cnf"):
        return "formula"
    if line.split(b" ")[0] in (b"s", b"v") or line.rstrip() in (b"SAT", b"UNSAT"):
        return "answer"
    return next((kind for kind, pattern in starts.items() if pattern.match(line)), None)


def mistaken(data, *wanted):
    """What is said of a text that is not of the wanted kinds, None if it may be."""
    kind = kind_of(data)
    return None if kind in wanted else SAID.get(kind)
