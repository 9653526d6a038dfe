"""Pictures that leave the page: they stand alone and look as on the page, and tools/picture prints the same ones."""

import json
import re
import subprocess
import sys
import tempfile
from xml.etree import ElementTree

from steps import CV1, LDB, ROOT, STEPS, nbhd

LONGEST = 100_000
MIS_7 = (ROOT / "examples/mis_7.txt").read_text(encoding="ascii")
# Of each picture the state, the drawing, and what tools/picture is asked for the same one.
PICTURES = {
    "a run": ({"view": "run", "ids": "8", "ring": "5,1,3,7", "example": "cv1.txt"}, "#stage svg", ("run", CV1, "5,1,3,7", ())),
    "messages": ({"view": "run", "ids": "8", "ring": "5,1,3,7,0,2", "example": "cv1.txt", "step": "1"}, "#stage svg", None),
    "a large run": ({"view": "run", "ids": "128", "ring": ",".join(map(str, range(100))), "example": "identity.txt"}, "#stage svg", None),
    "a wrong set": (
        {"view": "run", "ids": "7", "ring": "1,2,3,4,5,6", "example": "mis_7.txt", "problem": "mis"},
        "#stage svg",
        ("run", MIS_7, "1,2,3,4,5,6", ("mis",)),
    ),
    "a no": ({"view": "judge", "ids": "8", "ring": "5,1,3,7", "text": LDB}, "#witness svg", ("no", LDB, "0,1,2,3", ())),
    "a no of a set": (
        {"view": "judge", "ids": "7", "ring": "5,1,3,7", "example": "mis_7.txt", "problem": "mis"},
        "#witness svg",
        ("no", MIS_7, "1,2,3,4,5,6", ("mis",)),
    ),
    "a graph": ({"view": "graph", "ids": "4", "ring": "5,1,3,7", "text": LDB}, "#drawing svg", None),
    "120 windows": ({"view": "graph", "ids": "6", "ring": "5,1,3,7", "example": "cv1.txt"}, "#drawing svg", None),
}
# What is seen of each shape and text of a drawing, in order.
SEEN = """(svg => [...svg.querySelectorAll('circle, rect, path, text')].filter(e => e.checkVisibility()).map(e => {
  const style = getComputedStyle(e);
  const clear = e => e === svg ? 1 : getComputedStyle(e).opacity * clear(e.parentNode);
  const text = e.tagName === 'text' ? [e.textContent, style.fontSize, style.fontWeight, style.textAnchor].join(' ') : '';
  const lines = style.stroke === 'none' ? '' : [style.strokeWidth, style.strokeDasharray, style.strokeLinecap].join(' ');
  const at = e.getCTM();
  return [[e.tagName, text, style.fill, style.stroke, lines, clear(e).toFixed(2)].join(' | '), at.e, at.f];
}))"""


def taken(page, module, call):
    """The text that the page makes of its drawing."""
    return page.value(f"import('/take.js').then(t => import('/{module}').then(m => t.taken(m.{call})))")


def pictures_taken(page):
    """Each picture stands alone and looks as on the page; the buttons give it; the tool prints the same one."""
    for name, (state, drawing, asked) in PICTURES.items():
        page.open(**state)
        page.wait(f"the drawing of {name}", f"document.querySelector('{drawing}') && !document.querySelector('.pending')")
        if state["view"] == "run" and "step" not in state:
            page.wait(f"the end of {name}", "document.querySelector('#timeline [aria-current=step]')?.textContent === 'finish'")
        text = taken(page, "picture.js", "svgText")
        stands_alone(name, text)
        page.value(f"document.querySelector('{drawing}').style.cssText = 'max-width: none; max-height: none; flex: none'")
        page.value(f"window.alone = new DOMParser().parseFromString({json.dumps(text)}, 'image/svg+xml').documentElement")
        page.value("document.body.append(alone)")
        on_page, alone = (page.value(f"{SEEN}({svg})") for svg in (f"document.querySelector('{drawing}')", "alone"))
        STEPS.check(f"{name} has parts", len(on_page) > 8, len(on_page))
        differ = [pair for pair in zip(on_page, alone) if not is_same(*pair)]
        STEPS.equal(f"{name} looks as on the page: {len(on_page)}, {len(alone)}", differ[:2], [])
        STEPS.equal(f"{name} has all parts", len(alone), len(on_page))
        page.value("alone.remove()")
        if asked:
            STEPS.equal(f"tools/picture prints {name}", untitled(picture(asked)), untitled(text))
            tikz = taken(page, "tikz.js", "tikzText")
            tikz_is_whole(name, tikz, text)
            STEPS.equal(f"it prints the tikzpicture of {name}", picture(asked, "--tikz").splitlines()[1:], tikz.splitlines()[1:])
    histogram_taken(page)
    buttons(page)


def is_same(one, other):
    """Whether two parts look the same at the same place, but for a pixel."""
    return one[0] == other[0] and all(abs(first - second) <= 1 for first, second in zip(one[1:], other[1:]))


def stands_alone(name, text):
    """A text is an SVG with nothing from outside, and of no great length."""
    STEPS.check(f"{name} is short", len(text.encode()) < LONGEST, len(text.encode()))
    root = ElementTree.fromstring(text)
    STEPS.equal(f"{name} is an SVG", root.tag, "{http://www.w3.org/2000/svg}svg")
    outside = re.findall(r"class=| style=|href|url\(|var\(|light-dark|<style|@import|<image", text)
    STEPS.equal(f"{name} needs nothing from outside", outside, [])
    fonts = set(re.findall(r'font-family="([^"]*)"', text))
    STEPS.check(f"{name} has fonts of every machine", fonts <= {"serif", "sans-serif", "monospace"}, fonts)


def untitled(text):
    return re.sub(r"<title>.*?</title>", "", text)


def picture(asked, *more):
    """What tools/picture prints for a program text on a ring."""
    what, program, ring, problem = asked
    ids = "8" if program != MIS_7 else "7"
    trace = nbhd(program, "trace", "--ids", ids, "--ring", ring)
    words = [part for name in problem for part in ("--problem", name)]
    given = trace if what == "run" else nbhd(program, "judge", "--ids", ids, *words) + trace
    ran = subprocess.run([ROOT / "tools/picture", what, *words, *more], input=given.encode(), capture_output=True)
    STEPS.equal(f"the status of tools/picture {what}", (ran.returncode, ran.stderr), (0, b""))
    return ran.stdout.decode()


def tikz_is_whole(name, tikz, text):
    """A tikzpicture has balanced braces and brackets, ends each line, and has each text of the SVG."""
    for first, last in ("{}", "[]", "()"):
        STEPS.equal(f"{name}: {first} and {last}", tikz.count(first), tikz.count(last))
    lines = [line for line in tikz.splitlines() if line and not line.startswith("%")]
    STEPS.check(f"{name} begins and ends", lines[0].startswith("\\begin{tikzpicture}") and lines[-1] == "\\end{tikzpicture}")
    STEPS.equal(f"{name}: lines without an end", [line for line in lines[1:-1] if not line.endswith(("};", ";", "}"))], [])
    colours = re.findall(r"\\definecolor\{(\w+)\}\{HTML\}\{[0-9A-F]{6}\}", tikz)
    STEPS.equal(f"{name}: the colours", set(re.findall(r"\b(ring\d+)\b", tikz)), set(colours))
    STEPS.equal(f"{name}: no NaN", re.findall(r"NaN|undefined|null", tikz), [])
    texts = [element.text for element in ElementTree.fromstring(text).iter("{http://www.w3.org/2000/svg}text")]
    STEPS.equal(f"{name}: its texts", re.findall(r"\) \{(.*)\};$", tikz, re.MULTILINE), texts)


def histogram_taken(page):
    """The histogram has the channels and their counts by hand."""
    page.open(view="table", ids="8", ring="5,1,3,7", example="cv1.txt")
    page.wait("a histogram", "document.querySelectorAll('.histogram li').length === 6")
    text = taken(page, "picture.js", "svgText")
    stands_alone("a histogram", text)
    texts = [element.text for element in ElementTree.fromstring(text).iter("{http://www.w3.org/2000/svg}text")]
    channels = [line.split(" : ")[1] for line in nbhd(CV1, "table", "--ids", "8").splitlines() if " : " in line]
    counts = [(channel, channels.count(channel)) for channel in sorted(set(channels))]
    wanted = [part for channel, count in counts for part in (channel, str(count), f"{100 * count / len(channels):.1f} %")]
    STEPS.equal("its texts", texts, wanted)


def buttons(page):
    """The buttons save and copy, say so where nothing is drawn, and have no TikZ where there is no ring."""
    page.value("URL.createObjectURL = blob => (window.saved = blob, '#saved')")
    page.value("navigator.clipboard.writeText = async text => { window.copied = text; }")
    page.click("#save-picture")
    page.wait("a saved picture", "window.saved?.type === 'image/svg+xml'")
    STEPS.check("it is the picture", page.value("saved.text()").startswith("<svg "))
    STEPS.equal("no TikZ of a table", page.texts("#copy-tikz"), [])
    page.click("#tab-run")
    page.wait("a ring to copy", "document.querySelectorAll('#stage .disc').length === 4")
    page.click("#copy-tikz")
    page.wait("it says so", "document.querySelector('#copy-tikz').textContent === 'Copied'")
    STEPS.check("it is a tikzpicture", "\\begin{tikzpicture}" in page.value("copied"))
    page.fill("#ring", "")
    page.wait("no ring", "!document.querySelector('#stage svg')")
    page.click("#save-picture")
    page.wait("nothing is drawn", "document.querySelector('#save-picture').textContent === 'Nothing is drawn'")


def tool():
    """tools/picture refuses with a line and the status 2."""
    trace = nbhd(CV1, "trace", "--ids", "8", "--ring", "5,1,3,7").encode()
    no = nbhd(LDB, "judge", "--ids", "8").encode()
    for name, words, given in (
        ("nothing", ["run"], b""),
        ("blanks", ["no"], b" \n"),
        ("a no for a run", ["run"], no),
        ("a trace for a no", ["no"], trace),
        ("a trace without its end", ["run"], trace.rsplit(b"finish", 1)[0]),
        ("a trace with a short row", ["run"], trace.replace(b"left 0 0", b"left 0")),
        ("a trace without what is sent right", ["run"], trace.replace(b"round 1 right 5 1 3 7\n", b"")),
        ("a trace with its end twice", ["run"], trace + b"finish 2 4 3 5\n"),
        ("a trace with words", ["run"], trace.replace(b"finish", b"a finish\nfinish")),
        ("a no with another ring's trace", ["no"], no + trace),
        ("a place beyond the ring", ["no"], b"no: ring 0 1 2 3 place 7 channel 0\n"),
        ("a yes", ["no"], b"yes: 1680 tuples\n"),
        ("bytes", ["run"], bytes(range(256))),
        ("too much", ["run"], b"ring 0 " + b"1 " * 4_100_000),
        ("another word", ["graph"], trace),
        ("another problem", ["run", "--problem", "sinks"], trace),
    ):
        refused(name, subprocess.run([ROOT / "tools/picture", *words], input=given, capture_output=True))
    for name, command in (("a closed input", "tools/picture run <&-"), ("a closed output", "tools/picture run >&-")):
        refused(name, subprocess.run(["sh", "-c", command], input=trace, capture_output=True, cwd=ROOT))
    with open("/dev/full", "wb") as full:
        refused("a full disk", subprocess.run([ROOT / "tools/picture", "run"], input=trace, stdout=full, stderr=subprocess.PIPE))
    with tempfile.TemporaryDirectory() as empty:
        words = [sys.executable, ROOT / "tools/picture", "run"]
        refused("no node", subprocess.run(words, input=trace, capture_output=True, env={"PATH": empty}))
    alone = subprocess.run([ROOT / "tools/picture", "no"], input=no, capture_output=True)
    STEPS.check("a no without a trace", alone.returncode == 0 and b"0 = 0" in alone.stdout, alone.stderr)


def refused(name, ran):
    lines = ran.stderr.decode(errors="replace").splitlines()
    STEPS.check(f"tools/picture refuses {name}", ran.returncode == 2 and not ran.stdout, (ran.returncode, lines))
    STEPS.check(f"and says why: {name}", re.fullmatch(r"(usage: .*)?tools/picture:? .*", " ".join(lines)), lines)
    STEPS.check(f"in one line, but for wrong words: {name}", len(lines) == 1 or lines[0].startswith("usage: "), lines)
