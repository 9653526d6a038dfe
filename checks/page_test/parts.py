"""The parts of the page and of its server, each alone: the modules without a document by `node --test`, where there is one, and the
modules of page_server."""

import posixpath
import re
import shutil
import subprocess
import sys
import time

from http_tests import STUB
from steps import CV1, ROOT, STEPS

sys.path.insert(0, str(ROOT))

from page_server import orders, runs
from page_server.documents import NAMES, TEXT_ALONE, converter, served_documents
from page_server.errors import ClientGone, Refusal
from page_server.files import page_files

RESULT = re.compile(r"^(not ok|ok) \d+ - (.*)$", re.MULTILINE)


def modules():
    """Whether there is a node to test the modules with."""
    node = shutil.which("node")
    if node is None:
        return False
    tests = ROOT / "checks/page_test/modules.test.mjs"
    ran = subprocess.run([node, "--test", "--test-reporter=tap", tests], capture_output=True, text=True)
    results = RESULT.findall(ran.stdout)
    STEPS.check("the modules are tested", len(results) >= 16, ran.stdout + ran.stderr)
    for result, name in results:
        STEPS.check(name, result == "ok", ran.stdout)
    return True


def refused(call, *words):
    """The status of a refusal, `None` without one."""
    try:
        call(*words)
    except Refusal as refusal:
        return refusal.status
    return None


def documents():
    """Each document is a page whose links lead somewhere, or a text that says what makes it one."""
    text = dict(served_documents(ROOT, None))["/docs/LANGUAGE.html"]
    STEPS.equal("a document as text", text, ("text/plain; charset=utf-8", TEXT_ALONE.encode() + (ROOT / "docs/LANGUAGE.md").read_bytes()))
    if converter() is None:
        print("page-test: not run: the documents as pages, as there is no cmark-gfm")
        return
    files = page_files(ROOT)
    STEPS.equal("a document as a page", files["/docs/LANGUAGE.html"][0], "text/html; charset=utf-8")
    for name in (f"/{name}.html" for name in NAMES):
        page = files[name][1].decode()
        for link in re.findall(r'(?:href|src)="([^"]*)"', page):
            path, _, anchor = link.partition("#")
            path = posixpath.normpath(posixpath.join(posixpath.dirname(name), path)) if path else name
            there = path in files and (path == "/" or not anchor or f' id="{anchor}"' in files[path][1].decode())
            STEPS.check(f"the link {link[:60]} of {name}", there)
    for name in (f"/{name}.html" for name in NAMES):
        page = files[name][1].decode()
        heads = re.findall(r'<h2 id="([^"]*)">(.*?)</h2>', page)
        contents = page.partition("</h1>")[2].partition("</nav>")[0] if '<nav class="contents"' in page else ""
        listed = re.findall(r'<li><a href="#([^"]*)">(.*?)</a></li>', contents)
        wanted = [(anchor, re.sub("</?a[^>]*>", "", words)) for anchor, words in heads] if len(heads) > 1 else []
        STEPS.equal(f"the heads that {name} lists", listed, wanted)
    anchors = re.findall(r'<h2 id="([^"]*)"', files["/docs/LEAST.html"][1].decode())
    STEPS.equal("anchors", anchors[:3], ["what-is-known-of-rounds", "what-is-known-of-channels", "the-proofs"])


def server_parts():
    body = b'{"command": "trace", "options": {"ids": "8", "ring": "-h"}, "text": "\\u00e9"}'
    STEPS.equal("words and text", orders.words_and_text(body), (["trace", "--ids=8", "--ring=-h"], "\u00e9".encode()))
    body = b'{"command": "judge", "options": {"ids": "8", "forbid": ["0,0", "-h"]}, "text": ""}'
    STEPS.equal("words of patterns", orders.words_and_text(body), (["judge", "--ids=8", "--forbid=0,0", "--forbid=-h"], b""))
    body = b'{"command": "apply", "options": {"ring": "0,1", "format": "json"}, "text": ""}'
    STEPS.equal("the word of a format", orders.words_and_text(body), (["apply", "--ring=0,1", "--format=json"], b""))
    for broken in (b"", b"null", b'{"command": "table", "options": {"ring": "1"}, "text": ""}'):
        STEPS.equal(f"no words: {broken}", refused(orders.words_and_text, broken), 400)
    files = page_files(ROOT)
    STEPS.equal("the first page", files["/"], ("text/html; charset=utf-8", (ROOT / "page/index.html").read_bytes()))
    STEPS.check("no file but these", not {"/package.json", "/index.html", "/docs/pictures", "/CONTRIBUTING.html"} & set(files))
    present = runs.Runs(STUB)
    here = lambda: False
    STEPS.equal("a run", present.run(["check"], b"echo", here), (0, b"stub\n['check']\n", b""))
    STEPS.equal("a run that a signal ends", present.run([], b"die 9", here)[0], -9)
    STEPS.equal("a flood", refused(present.run, [], b"flood", here), 503)
    begin = time.monotonic()
    try:
        present.run([], b"sleep 60", lambda: time.monotonic() > begin + 0.2)
        gone = False
    except ClientGone:
        gone = True
    STEPS.check("a run whose client is gone", gone and time.monotonic() < begin + 5 and not present.children)
    present.stop_all()
    STEPS.equal("no run after the end", refused(present.run, [], CV1.encode(), here), 503)
