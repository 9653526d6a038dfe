"""What `rt ci` and `./build` kept on this machine, and which edits were refused, so that neither is done again.

It calls functions of the kit's command `rt`, which no page of the kit promises."""

import contextlib
import hashlib
import importlib.machinery
import importlib.util
import os
import shutil
import sys
import tempfile
import time
from pathlib import Path

from common import ROOT

CACHE = Path(os.environ.get("XDG_CACHE_HOME") or Path.home() / ".cache") / "nbhd-edits"
# What judges an edit. A refusal rests on it too.
JUDGES = ["edits", "edit_checks.py", "edit_files.py", "kept.py"]
DAYS = 60


def load_kit():
    """The module of the kit's command `rt`."""
    loader = importlib.machinery.SourceFileLoader("rt_of_kit", os.path.realpath(shutil.which("rt")))
    module = importlib.util.module_from_spec(importlib.util.spec_from_loader("rt_of_kit", loader))
    sys.modules["rt_of_kit"] = module
    loader.exec_module(module)
    return module


class Kept:
    """Copies of crates in an empty folder, over libraries that were made of the same files: `crates` has those crates that were named and
    that have all libraries below them."""

    def __init__(self, kit, every, names):
        self.kit = kit
        below = {it.name for crate in every if crate.name in names for it in crate.below()}
        self.libraries = set()
        for crate in every:
            if crate.name in below and self.has_libraries(crate) and self.take_library(crate):
                self.libraries.add(crate.name)
        self.crates = {it.name: it for it in every if it.name in names and self.has_libraries(it)}
        self.keys = {name: self.key(crate) for name, crate in self.crates.items()}

    def has_libraries(self, crate):
        return all(it.name in self.libraries for it in crate.below())


class KeptByKit(Kept):
    """What `rt ci` kept on this machine, with a kit that does so."""

    LACKING = "a library below its crate is not kept: run `rt ci` or `./build` first"
    KNOWS_REFUSALS = True

    def __init__(self, kit, folder, names):
        every = kit.crates_of(str(folder))
        self.store = kit.Kept(every)
        # Nothing of what is kept is removed.
        self.store.drop = lambda _: None
        super().__init__(kit, every, names)

    def has_store(self):
        """Whether the kit keeps anything on this machine."""
        return bool(self.store.at)

    def key(self, crate):
        return self.store.key(crate)

    def take_library(self, crate):
        if not self.store.give(crate, False, self.key(crate)):
            return False
        self.store.is_built(crate)
        return crate.name in self.store.rlibs

    def is_proved(self, name):
        """Whether `rt ci` proved this crate as it stands."""
        return os.path.isfile(f"{self.store.place(self.crates[name], False, self.keys[name])}/made.json")

    def refused_by_ci(self, edit):
        """What `rt ci` said of this edit, if it refused it by a goal."""
        kind, text = self.store.tried(self.store.of_edit(edit.path, self.keys[edit.crate])) or (None, "")
        refused, colon, goal = text.partition("refused, as it must be: ")
        return goal if kind == self.kit.REFUSED and colon else None


class LeftHere(Kept):
    """The libraries that `rt ci` or `rt check` left in this checkout, with a kit that keeps nothing elsewhere. They do not tell which edits
    were refused."""

    LACKING = "a library below its crate is missing or of other files: run `rt ci` in a new clone, or `rt check` in the crate, first"
    KNOWS_REFUSALS = False

    def __init__(self, kit, folder, names):
        kit.rtlib.Crate = kit.Crate
        every = sorted(kit.rtlib.crates_below(str(folder)), key=lambda it: len(it.below()))
        super().__init__(kit, every, names)

    def has_store(self):
        return True

    def key(self, crate):
        return crate.stamp()

    def library(self, name):
        return ROOT / "crates" / name / "out/rlib"

    def maker(self, crate):
        """Whose library of this crate is there: that of `rt check`, whose stamp is a sum of its files, or that of `rt ci`, which is newer than
        them; none if it is of other files."""
        library = self.library(crate.name)
        if not library.is_dir():
            return None
        if (library / "stamp").exists():
            return "check" if (library / "stamp").read_text(encoding="utf-8") == crate.stamp() else None
        roots = [ROOT / "crates" / it.name / part for it in [crate, *crate.below()] for part in ("src", "specs", "proofs")]
        files = (path for root in roots for path in root.rglob("*") if path.is_file())
        return "ci" if all(path.stat().st_mtime < library.stat().st_mtime for path in files) else None

    def is_left(self, crate):
        """Whether the libraries of a crate and of those below are there. Those of `rt check` do not fit those of `rt ci`."""
        return {self.maker(it) for it in [crate, *crate.below()]} in ({"check"}, {"ci"})

    def take_library(self, crate):
        if self.is_left(crate):
            shutil.copytree(self.library(crate.name), os.path.dirname(crate.rlib))
        return os.path.isdir(crate.rlib)

    def is_proved(self, name):
        """Whether the library of this crate is there as it stands, which is made of a proved crate alone."""
        return self.is_left(self.crates[name])


def kept_in(folder, names):
    """What is kept of the crates with these names, with copies of all crates in a folder that is new."""
    kit = load_kit()
    copy_crates(folder)
    kit.Crate.cuts_libraries = True
    kit.Crate.allowed = kit.handles_of(str(folder))
    return KeptByKit(kit, folder, names) if hasattr(kit, "Kept") else LeftHere(kit, folder, names)


def copy_crates(folder):
    """Copies the files of which `rt ci` makes its verdict."""
    shutil.copytree(ROOT / "crates", folder / "crates", ignore=shutil.ignore_patterns("out", "must-fail"))
    for name in ("crates.txt", "HANDLES"):
        shutil.copy(ROOT / name, folder / name)


class Refusals:
    """The edits that were refused earlier: a file for each, with the goal, whose name is a sum of all that the refusal rests on."""

    def __init__(self, keys):
        self.keys = keys
        self.judge = b"".join((ROOT / "checks" / name).read_bytes() for name in JUDGES)
        with contextlib.suppress(OSError):
            CACHE.mkdir(parents=True, exist_ok=True)
            for path in CACHE.iterdir():
                if time.time() - path.stat().st_mtime > DAYS * 86_400:
                    path.unlink()

    def path_of(self, edit):
        parts = (self.judge, self.keys[edit.crate], edit.name, edit.text)
        return CACHE / hashlib.sha256(repr(parts).encode()).hexdigest()

    def goal_of(self, edit):
        """The goal by which this edit was refused, if it was."""
        with contextlib.suppress(OSError):
            path = self.path_of(edit)
            goal = path.read_text(encoding="utf-8")
            path.touch()
            return goal
        return None

    def keep(self, edit, goal):
        with contextlib.suppress(OSError), tempfile.NamedTemporaryFile("w", dir=CACHE, delete=False, encoding="utf-8") as file:
            file.write(goal)
            os.replace(file.name, self.path_of(edit))
