"""The files of the page, read once."""

import json

from .documents import converter, served_documents

TYPES = {".html": "text/html", ".css": "text/css", ".js": "text/javascript", ".svg": "image/svg+xml"}


def page_files(root, program=None):
    """The type and the bytes of each file of the page, of the documents and of their pictures, and of the kept tables,
    by its path in the address. No other path is looked up. The program makes pages of the documents: that of
    `converter` if none is given."""
    files = {}
    for file in sorted((root / "page").iterdir()):
        if file.suffix in TYPES and file.is_file():
            files[f"/{file.name}"] = (f"{TYPES[file.suffix]}; charset=utf-8", file.read_bytes())
    files.update(served_documents(root, program or converter()))
    for ending, kind in ((".svg", "image/svg+xml; charset=utf-8"), (".png", "image/png")):
        for file in sorted((root / "docs/pictures").glob(f"*{ending}")):
            files[f"/docs/pictures/{file.name}"] = (kind, file.read_bytes())
    files["/"] = files.pop("/index.html")
    tables = {}
    for folder in ("least", "problems"):
        for file in sorted((root / "examples" / folder).glob("*.table")):
            tables[f"{folder}/{file.name}"] = ("text/plain; charset=utf-8", file.read_bytes())
    files.update((f"/examples/{name}", table) for name, table in tables.items())
    files["/tables.json"] = ("application/json", json.dumps(list(tables)).encode())
    files["/examples.json"] = ("application/json", json.dumps(examples(root)).encode())
    return files


def examples(root):
    """The name, the title (the first comment line) and the text of each example: CV1, LDB, then the others of examples/."""
    first = [root / "examples/cv1.txt", root / "programs/ldb.txt"]
    files = first + [file for file in sorted((root / "examples").glob("*.txt")) if file not in first]
    texts = {file.name: file.read_text(encoding="ascii") for file in files}
    return [{"name": name, "title": title_of(name, text), "text": text} for name, text in texts.items()]


def title_of(name, text):
    """The first comment line of a program; of LDB, which has none, what it is."""
    first = text.split("\n", 1)[0]
    if first.startswith("#"):
        return first.lstrip("# ")
    return "LDB: Cole and Vishkin without the bit, a rule that fails." if name == "ldb.txt" else name
