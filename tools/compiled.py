"""The programs of tools/ that are written in C."""

import hashlib
import os
import platform
import shutil
import subprocess
import tempfile
from pathlib import Path


def compiled(name):
    """The path of a program, which cc compiles on its first use into the user's cache. Fails with an OSError that says why."""
    source = Path(__file__).resolve().parent / f"{name}.c"
    digest = hashlib.sha256(source.read_bytes()).hexdigest()[:16]
    folder = Path(os.environ.get("XDG_CACHE_HOME") or os.path.expanduser("~/.cache")) / "nbhd-tools"
    program = folder / f"{name}-{platform.machine()}-{digest}"
    if not program.exists():
        if not shutil.which("cc"):
            raise OSError(f"{source.name} has to be compiled, and there is no cc (apt-get install gcc)")
        folder.mkdir(parents=True, exist_ok=True)
        compile_to(source, program)
    return program


def compile_to(source, program):
    """Compiles a program in a scratch folder and moves it to its path."""
    with tempfile.TemporaryDirectory(dir=program.parent) as scratch:
        made = Path(scratch) / source.stem
        ran = subprocess.run(["cc", "-O2", "-o", made, source], capture_output=True, text=True)
        if ran.returncode:
            raise OSError(f"cc does not compile {source.name}: {ran.stderr.strip()}")
        made.replace(program)
