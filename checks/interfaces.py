"""The lemmas of a crate that proofs of other crates may cite: those of its interface, the one file of proofs/ that proofs/Lib.antt makes
public. Of a crate that makes several files public none may be cited. checks/inventory compares the imports with the interfaces and prints
these."""

import itertools
import re
import sys

sys.dont_write_bytecode = True
import contracts
from common import ROOT

# An import of a file of a crate's proofs/ with the names that it brings, and any other mention of such a file.
IMPORT = re.compile(r"^(?:pub )?(?:ghost )?use Rattle\.(\w+)\.proofs\.([\w.+]+)\.\{(.*?)\};?$", re.MULTILINE)
MENTION = re.compile(r"\bRattle\.(\w+)\.proofs\.([\w.+]+)|\b(\w+)::proofs::(\w+)")
PUBLIC_FILE = re.compile(r"^pub mod (\w+)$", re.MULTILINE)
# A lemma or a definition of an interface, and definitions that it passes on.
HEAD = re.compile(r"^(?:abbrev |unfoldable )?pub (?:record |data |ruleset )?([^\s({:=]+)(?=[\s({:])")
PASSED_ON = re.compile(r"^pub use Rattle\.\w+\.proofs\.\w+\.\{(.*)\}$")


def public_files():
    """The file that proofs/Lib.antt makes public, by the crate; crates with none and with several are left out."""
    libraries = {crate: ROOT / f"crates/{crate}/proofs/Lib.antt" for crate in contracts.crate_names()}
    public = {crate: PUBLIC_FILE.findall(contracts.read(path)) for crate, path in libraries.items() if path.exists()}
    return {crate: files[0] for crate, files in public.items() if len(files) == 1}


def cited():
    """The names of each interface that files of other crates import, by the crate; crates of which nothing is imported are left out."""
    found, files = {}, public_files()
    for _, crate, file, names in foreign_imports():
        if files.get(crate) == file:
            found.setdefault(crate, set()).update(names)
    return found


def path_of(crate, file):
    return ROOT / f"crates/{crate}/proofs/{file}.antt"


def texts():
    """The crate, the path and the text of each source file, definition and proof."""
    for crate in contracts.crate_names():
        for folder in ("src", "specs", "proofs"):
            for path in sorted((ROOT / f"crates/{crate}/{folder}").glob("**/*")):
                if path.suffix in (".rt", ".antt"):
                    yield crate, path, contracts.read(path)


def foreign_imports():
    """Each import of a file of another crate's proofs/: the path, the crate, the file, and the names that it brings."""
    for crate, path, text in texts():
        for other, file, listed in IMPORT.findall(text):
            if other in contracts.crate_names() and other != crate:
                yield path, other, file, [name.strip().partition(" as ")[0] for name in listed.split(",")]


def is_written(crate, file):
    """Whether the crate has this file of proofs/, which the check has not generated."""
    parts = file.split(".")
    return any(path_of(crate, "/".join(parts[:length])).exists() for length in range(1, len(parts) + 1))


def lemmas_in(crate, file):
    """The names of an interface in their order, each with the comment that stands above it."""
    found, lines = [], contracts.read(path_of(crate, file)).splitlines()
    for number, line in enumerate(lines):
        passed_on, head = PASSED_ON.match(line), HEAD.match(line)
        names = [name.strip() for name in passed_on[1].split(",")] if passed_on else [head[1]] if head else []
        if names:
            above = itertools.takewhile(lambda it: it.startswith("-- "), reversed(lines[:number]))
            found.append((names, " ".join(it.removeprefix("-- ") for it in reversed(list(above)))))
    return found


def faults():
    """What is wrong with the interfaces and with the imports of other crates' proofs."""
    files = public_files()
    for crate, names in cited().items():
        yield from faults_of_lemmas(crate, files[crate], names)
    for crate, path, text in texts():
        for match in MENTION.finditer(text):
            other, file = match[1] or match[3], match[2] or match[4]
            named = file.split(".")[0]
            if other in contracts.crate_names() and other != crate and is_written(other, file) and named != files.get(other):
                yield f"{path.relative_to(ROOT)} cites crates/{other}/proofs/{named}, which is not the interface of {other}"


def faults_of_lemmas(crate, file, imported):
    """What is wrong with the lemmas of an interface, of which other crates import these."""
    # What the statements of other lemmas here name need not be cited.
    text = contracts.read(path_of(crate, file))
    for names, comment in lemmas_in(crate, file):
        for name in names:
            place = f"crates/{crate}/proofs/{file}.antt: {name}"
            if not comment:
                yield f"{place} has no comment"
            if name not in imported and not is_named(name, text):
                yield f"{place} is not cited by another crate"


def is_named(name, text):
    """Whether a text names a definition in the statement or the proof of another one."""
    starts = re.compile(rf"^(?:(?:abbrev )?pub (?:record )?{re.escape(name)}|{re.escape(name)}|pub use)(?![\w'-])")
    inside = re.compile(rf"(?<![\w.'-]){re.escape(name)}(?![\w'-])")
    return any(inside.search(line) for line in text.splitlines() if not starts.match(line) and not line.startswith("--"))
