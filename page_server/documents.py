"""The documents as pages in the style of the page. cmark-gfm makes HTML of their Markdown."""

import html
import posixpath
import re
import shutil
import subprocess

GUIDES = ["TUTORIAL", "EXERCISES", "RECIPES", "GALLERY", "LEAST", "LANGUAGE", "FAULTS", "PROOFS", "ARCHITECTURE", "DECISIONS"]
NAMES = ["README", *(f"docs/{guide}" for guide in GUIDES), "CHANGELOG"]
# Lists that `checks/inventory` prints, by its word. A bundle has them.
LISTS = {"docs/CALLS": "calls", "docs/DEFINITIONS": "definitions", "docs/EDITS": "edits"}
# Where the page is, as the documents' links have it.
PAGE = "http://127.0.0.1:8765/"
HEAD = re.compile(r"<h([1-6])>(.*?)</h\1>", re.DOTALL)
TEXT_ALONE = "To read this as a page with links: apt-get install cmark-gfm, then start ./nbhd-page again.\n\n"
SECTION = re.compile(r'<h2 id="([^"]*)">(.*?)</h2>', re.DOTALL)
LAYOUT = """\
<!doctype html>
<html lang="en">
<meta charset="utf-8">
<meta name="viewport" content="width=device-width, initial-scale=1">
<meta name="color-scheme" content="light dark">
<title>{title}</title>
<link rel="icon" href="{top}page/icon.svg" type="image/svg+xml">
<link rel="stylesheet" href="{top}page/style.css">
<link rel="stylesheet" href="{top}page/document.css">
<script src="{top}page/theme.js"></script>
<body class="document">
<nav class="tools" aria-label="Documents">
<a href="{page}">The page</a>
{links}
<button id="theme" class="quiet" type="button">Colours: light</button>
</nav>
<main>
{body}</main>
</html>
"""


def converter():
    """The path of cmark-gfm, or `None`."""
    return shutil.which("cmark-gfm")


def names_in(root):
    """The names of the documents that a folder has."""
    return [name for name in [*NAMES, *LISTS] if any((root / f"{name}.{ending}").is_file() for ending in ("html", "md"))]


def document_files(root, program):
    """The documents of a folder by their path with the ending `.html`: made by the program of `converter` from Markdown, or as they are.
    Without a program Markdown is left out."""
    files, names = {}, names_in(root)
    for name in names:
        made, source = root / f"{name}.html", root / f"{name}.md"
        if made.is_file():
            files[f"{name}.html"] = made.read_text(encoding="utf-8")
        elif program:
            files[f"{name}.html"] = document(name, source.read_bytes(), program, names)
    return files


def served_documents(root, program):
    """The type and the text of each document, by its path in the address."""
    found = document_files(root, program)
    for name in names_in(root):
        path, source = f"{name}.html", root / f"{name}.md"
        if path in found:
            # The files of the page have no folder there, and the page may have another port.
            text = re.sub(r'(href|src)="(?:\.\./)?page/', r'\1="/', found[path]).replace(f'href="{PAGE}', 'href="/')
            yield f"/{path}", ("text/html; charset=utf-8", text.encode())
        else:
            yield f"/{path}", ("text/plain; charset=utf-8", TEXT_ALONE.encode() + source.read_bytes())


def document(name, markdown, program, names):
    """A document as a page: its heads have anchors, and its links lead to the other documents, of these names."""
    # (`--unsafe` leaves `<details>` as it is)
    ran = subprocess.run([program, "--unsafe", "-e", "table", "-t", "html"], input=markdown, stdout=subprocess.PIPE, check=True)
    body = with_contents(with_anchors(with_links(name, ran.stdout.decode(), names)))
    title = re.search(r"<h1[^>]*>(.*?)</h1>", body)[1]
    return LAYOUT.format(title=without_tags(title), top=relative("", name), page=PAGE, links=links_of(name, names), body=body)


def relative(path, name):
    """A path from the folder of a document."""
    return ("../" if "/" in name else "") + path


def links_of(name, names):
    """Links to all documents; that to the document itself is marked."""
    lines = []
    for other in names:
        current = ' aria-current="page"' if other == name else ""
        lines.append(f'<a href="{relative(other, name)}.html"{current}>{posixpath.basename(other).capitalize()}</a>')
    return "\n".join(lines)


def with_links(name, body, names):
    """The text with links to documents as pages. Of a link to a file that is no document the words are left."""

    def link(found):
        target, words = found[1], found[2]
        path, mark, anchor = target.partition("#")
        if not path or ":" in path:
            return found[0]
        other = posixpath.normpath(posixpath.join(posixpath.dirname(name), path)).removesuffix(".md")
        return f'<a href="{relative(other, name)}.html{mark}{anchor}">{words}</a>' if other in names else words

    return re.sub(r'<a href="([^"]*)">(.*?)</a>', link, body, flags=re.DOTALL)


def anchors_of(heads):
    """The anchor of each head, as on GitHub: its words in lower case with `-` between them, and a number if an earlier one has the same."""
    taken = {}
    for head in heads:
        words = re.sub(r"[^\w\- ]", "", head.lower()).replace(" ", "-")
        taken[words] = taken.get(words, -1) + 1
        yield f"{words}-{taken[words]}" if taken[words] else words


def with_anchors(body):
    """The text with an anchor at each head."""
    anchors = anchors_of(without_tags(words) for _, words in HEAD.findall(body))
    return HEAD.sub(lambda found: f'<h{found[1]} id="{next(anchors)}">{found[2]}</h{found[1]}>', body)


def with_contents(body):
    """The text with a list of its heads of the second level below its title."""
    lines = [f'<li><a href="#{anchor}">{without_links(words)}</a></li>' for anchor, words in SECTION.findall(body)]
    if len(lines) < 2:
        return body
    contents = "\n".join(['<nav class="contents" aria-label="Contents">', "<ul>", *lines, "</ul>", "</nav>"])
    return body.replace("</h1>\n", f"</h1>\n{contents}\n", 1)


def without_links(text):
    return re.sub(r"</?a\b[^>]*>", "", text)


def without_tags(text):
    return html.unescape(re.sub(r"<[^>]*>", "", text))
