"""A lesson as one file, opened from a `file:` address: it has what nbhd answered, and says what it has not."""

import os
import re
import subprocess
import sys
import tempfile
from pathlib import Path

from problem_views import DRAWN
from steps import CV1, LDB, PROGRAM, ROOT, STEPS, nbhd

IDS, RING = "8", "5,1,3,7,0,2"
# Two are right, two are wrong, and one is refused.
PROGRAMS = ["examples/cv1.txt", "programs/ldb.txt", "examples/three_18.txt", "examples/local_min.txt"]
ITEMS = "document.querySelectorAll('[role=treeitem]').length"
UNRECORDED = "This lesson is a file without nbhd. It has the answers for its programs with 8 identifiers, "
UNRECORDED += "on its rings; others need nbhd"
THREE_18 = (ROOT / "examples/three_18.txt").read_text(encoding="ascii")
LOCAL_MIN = (ROOT / "examples/local_min.txt").read_text(encoding="ascii")
SAID = f"document.querySelector('{{}}')?.textContent.startsWith('{UNRECORDED}')"
FROM_ELSEWHERE = "performance.getEntriesByType('resource').map(e => e.name).filter(name => !name.startsWith('data:'))"


def printed(*words, **how):
    """What nbhd-page does with these words: the status, the output and the standard error."""
    environment = {**os.environ, "NBHD": str(PROGRAM)}
    how = {"stdout": subprocess.PIPE, "stderr": subprocess.PIPE, "env": environment, "cwd": ROOT, **how}
    ran = subprocess.run([sys.executable, ROOT / "nbhd-page", *words], **how)
    return ran.returncode, ran.stdout or b"", ran.stderr.decode()


def words(files, rings=f"{RING}/0,1,2,3,4,5,6,7", ids=IDS):
    return ["--lesson", ",".join(map(str, files)), "--ids", ids, "--rings", rings]


def lesson_in_one_file(page):
    usual = page.url
    with tempfile.TemporaryDirectory(prefix="page-test-") as folder:
        faulty = Path(folder) / "faulty.txt"
        faulty.write_text(CV1.replace("finish", "finnish"), encoding="ascii")
        status, text, said = printed(*words([*PROGRAMS, faulty]))
        STEPS.equal("a lesson is printed", (status, said), (0, ""))
        STEPS.check("five programs take less than 2 MB", 200_000 < len(text) < 2_000_000, len(text))
        STEPS.equal("the same lesson again", printed(*words([*PROGRAMS, faulty]))[1], text)
        file = Path(folder) / "lesson.html"
        file.write_bytes(text)
        page.url = file.as_uri()
        try:
            for part in (recorded_runs, recorded_verdicts, not_recorded):
                STEPS.run(part, page)
            STEPS.equal("nothing is loaded from elsewhere", page.value(FROM_ELSEWHERE), [])
        finally:
            page.url = usual
    refused_lessons()


def recorded_runs(page):
    """The lesson begins with its first program on its first ring; runs and trees are those of nbhd."""
    page.browser.size(1280, 800)
    page.browser.open(page.url)
    page.wait("the first ring", "document.querySelectorAll('#stage .label').length === 6")
    STEPS.equal("it is that of the words", page.value("document.querySelector('#ring').value"), RING)
    names = ["cv1.txt", "ldb.txt", "three_18.txt", "local_min.txt", "faulty.txt"]
    said = f"A lesson in one file: {', '.join(names)} with 8 identifiers"
    STEPS.check("what it has", page.text(".lesson-note").startswith(said))
    facts = page.value("[...document.querySelectorAll('#examples .aside')].map(e => e.textContent)")
    STEPS.equal("its programs", sorted(fact.split(" ")[0] for fact in facts), sorted(names))
    STEPS.equal("no links to documents", page.texts("a"), [])
    rings = page.value("[...document.querySelectorAll('#rings option')].map(e => e.value)")
    STEPS.check("its rings and those of a no", rings[1:3] == [RING, "0,1,2,3,4,5,6,7"] and "0,1,2,3" in rings, rings)
    for name, text in (("cv1.txt", CV1), ("ldb.txt", LDB), ("three_18.txt", THREE_18)):
        for ring in (RING, "0,1,2,3,4,5,6,7"):
            page.open(view="run", ids=IDS, ring=ring, example=name, why="5")
            page.wait_ring(f"{name} on {ring}", ring)
            channels = nbhd(text, "run", "--ids", IDS, "--ring", ring).split()
            STEPS.equal(f"the channels of {name} on {ring}", page.texts("#stage .badge-number"), channels)
            page.wait(f"a tree of {name} on {ring}", f"{ITEMS} > 1")
    page.choose("#rings select", "0,1,2,3")
    page.wait("a ring that is chosen", "document.querySelector('#ring').value === '0,1,2,3'")
    refused = "document.querySelector('#run-refused').textContent"
    page.wait("it is too short for three_18", f"{refused}.startsWith('ring fault G1')")
    page.open(view="run", ids=IDS, ring=RING, example="faulty.txt")
    page.wait("a refused program", "document.querySelector('.check.bad .line')?.textContent === 'text fault N3'")
    STEPS.equal("its fault", page.texts(".ink .fault"), ["finnish"])


def recorded_verdicts(page):
    """Verdicts on all problems, tables, graphs and pictures are there."""
    page.open(view="judge", ids=IDS, ring=RING, example="local_min.txt")
    named = {name: f"--problem {name}" for name in ("mis", "matching", "weak2")}
    for problem, asked in {**named, "distance": "--far 1", "differ": ""}.items():
        page.choose("#problem", problem)
        verdict = nbhd(LOCAL_MIN, "judge", "--ids", IDS, *asked.split())
        chosen = f"document.querySelector('#problem').value === '{problem}'"
        page.wait(f"the verdict on {problem}", f"{chosen} && {DRAWN.format(verdict[:2])}")
        ring = re.search("ring ([0-9 ]*) place", verdict)[1].split()
        STEPS.equal(f"the ring of the no to {problem}", page.texts("#witness .identifier"), ring)
    page.wait("what the nodes read", "document.querySelector('.seen .reads code')")
    page.click(".seen button")
    page.wait("why leads to the run", f"{ITEMS} && document.querySelector('#stage .badge')")
    page.open(view="table", ids=IDS, ring=RING, example="cv1.txt")
    counts = "['.histogram li', '.windows li'].map(s => document.querySelectorAll(s).length).join()"
    page.wait("a table", f"{counts} === '6,240'")
    page.click("#tab-graph")
    page.wait("a matrix", "document.querySelectorAll('.matrix td').length > 36")
    page.value("URL.createObjectURL = blob => (window.saved = blob, '#saved')")
    page.click("#tab-run")
    page.wait("a drawing", "document.querySelector('#stage svg')")
    page.click("#save-picture")
    page.wait("its picture", "window.saved?.type === 'image/svg+xml'")


def not_recorded(page):
    """What is not recorded needs nbhd, and the page says so."""
    page.browser.size(390, 844)
    page.open(view="run", ids=IDS, ring="5,1,3,7", example="cv1.txt")
    page.wait("another ring", SAID.format("#run-refused"))
    STEPS.check("it fits a phone", page.value("document.documentElement.scrollWidth <= innerWidth"))
    page.browser.size(1280, 900)
    page.open(view="judge", ids="7", ring=RING, example="cv1.txt")
    page.wait("another number of identifiers", SAID.format(".check .note"))
    STEPS.equal("it is not checked", page.text(".check strong"), "Not checked")
    page.fill("#ids", IDS)
    page.wait("a number that is recorded", DRAWN.format("yes"))
    page.fill("#text", CV1 + "\n")
    page.wait("another program", SAID.format(".check .note"))
    page.open(view="judge", ids=IDS, ring=RING, example="cv1.txt", problem="own", forbid="0,1")
    page.wait("another problem", SAID.format("#verdict .refused"))


def refused_lessons():
    """No lesson is printed where the words are wrong, with one line that says which."""
    good = ["programs/cv1.txt"]
    for name, asked, wanted in (
        ("no such file", words(["programs/none.txt"]), "programs/none.txt: No such file or directory"),
        ("a folder", words(["programs"]), "programs: Is a directory"),
        ("two files of one name", words(["programs/cv1.txt", "examples/cv1.txt"]), "two files have the name cv1.txt"),
        ("no number", words(good, ids="x"), "invalid value 'x' for '--ids <M>'"),
        ("a letter in a ring", words(good, f"{RING}/5,x"), "the ring 5,x: bad ring"),
        ("an empty ring", words(good, f"{RING}/"), "the ring : bad ring"),
        ("an identifier twice", words(good, f"{RING}/5,1,5,2"), "the ring 5,1,5,2: places 0 and 2 have the same "),
        ("an identifier that is too great", words(good, "5,1,8,2"), "the ring 5,1,8,2: "),
        ("a ring that is too short", words(good, "5,1,3"), "the ring 5,1,3: "),
    ):
        status, text, said = printed(*asked)
        good_line = status == 1 and text == b"" and said.startswith(f"nbhd-page: {wanted}") and said.count("\n") == 1
        STEPS.check(f"a lesson with {name}", good_line, (status, text[:40], said))
    for asked in (words(good)[:2], words(good)[2:], words(good)[:4], ["--rings", RING]):
        status, text, said = printed(*asked)
        told = said.endswith("error: --lesson, --ids and --rings belong together\n")
        STEPS.check(f"the words {asked}", status == 2 and text == b"" and told, said)
    with open("/dev/full", "wb") as full:
        told = printed(*words(good), stdout=full)
    STEPS.equal("a full disk", told, (1, b"", "nbhd-page: the lesson is not written: No space left on device\n"))
    reader, writer = os.pipe()
    os.close(reader)
    told = printed(*words(good), stdout=writer)
    os.close(writer)
    STEPS.equal("a reader that has gone", told, (1, b"", "nbhd-page: the lesson is not written: Broken pipe\n"))


LESSONS = [lesson_in_one_file]
