"""The page under a finger, by keys and a screen reader, on small and on enlarged screens and on paper; its help and its colours."""

import json
import re
import shutil
import subprocess

from page_server.documents import converter
from steps import CV1, LDB, ROOT, STEPS, nbhd

START = {"view": "run", "ids": "8", "ring": "5,1,3,7", "example": "cv1.txt"}
INSIDE = "(e => { const r = e.getBoundingClientRect(); return r.top >= 0 && r.bottom <= innerHeight; })"
CLOSED = "!document.querySelector('#help').matches(':popover-open')"


def help_panel(page):
    """The help has the operations, whose examples are so, and links to pages; one can type beside it."""
    page.open(**START)
    page.click("[popovertarget=help]")
    STEPS.equal("the help is open", page.value(CLOSED), False)
    table = (ROOT / "docs/LANGUAGE.md").read_text(encoding="utf-8").split("| Operation | Value |")[1].split("\n\n")[0]
    named = [form for row in table.splitlines() for form in re.findall(r"`(\w+\([^`]*\))`", f"{row} | ".split(" | ")[0])]
    STEPS.equal("its operations", page.texts("#operations th code"), named)
    for example in page.texts("#operations td:last-child code"):
        expression, value = example.split(" = ")
        text = f"rounds 0 channels 1 registers 1 start r0 = {expression} finish 0"
        trace = nbhd(text, "trace", "--ids", "8", "--ring", "0,1")
        STEPS.equal(f"{example} is so", f"\n{trace}".split("\nstart r0 ")[1].split("\n")[0], f"{value} {value}")
    links = page.value("[...document.querySelectorAll('#help a')].map(a => a.href)")
    kind = "text/html; charset=utf-8" if converter() else "text/plain; charset=utf-8"
    for link in links:
        answer = page.value(f"fetch({json.dumps(link)}).then(r => [r.status, r.headers.get('content-type')])")
        STEPS.equal(f"the link {link}", answer, [200, kind])
    STEPS.check("there are links", len(links) >= 5, links)
    page.fill("#text", LDB)
    STEPS.equal("it stays while one types", page.value(CLOSED), False)
    page.browser.key("Escape")
    STEPS.equal("Escape closes it", page.value(CLOSED), True)


def documents(page):
    """The documents fit screens and phones, have the colours of the page, and open exercises on it."""
    if converter() is None:
        return
    for width, height in ((1280, 900), (390, 844), (320, 568)):
        page.browser.size(width, height)
        for name in ("README", "docs/TUTORIAL", "docs/LANGUAGE", "docs/LEAST", "docs/PROOFS"):
            page.browser.call("Page.navigate", url=f"{page.url}{name}.html")
            page.wait(f"{name} at {width}", "document.readyState === 'complete' && document.querySelector('main h1')")
            STEPS.check(f"{name} at {width}: nothing is too wide", page.value("document.documentElement.scrollWidth <= innerWidth"))
            STEPS.check(f"{name} at {width}: letters", page.value("parseFloat(getComputedStyle(document.querySelector('main p')).fontSize) >= 15"))
            if width < 600:
                wraps = "[...document.querySelectorAll('pre')].every(e => e.scrollWidth <= e.clientWidth)"
                STEPS.check(f"{name} at {width}: code wraps", page.value(wraps))
            STEPS.check(f"{name}: pictures", page.value("[...document.images].every(image => image.complete && image.naturalWidth > 0)"))
    page.browser.size(1280, 900)
    page.browser.call("Page.navigate", url=f"{page.url}docs/EXERCISES.html")
    page.wait("the exercises", "document.querySelectorAll('main details:not([open])').length === 14")
    light = page.value("getComputedStyle(document.body).backgroundColor")
    page.click("#theme")
    STEPS.check("a dark document", page.value("getComputedStyle(document.body).backgroundColor") != light)
    page.click("#theme")
    page.click("main a[href*='view=run&ids=8&text=rounds+1']")
    page.wait("an exercise opens on the page", "document.querySelector('.check.good')")


def colours(page):
    """The choice of light and dark is kept, and the button names it; the system's own is followed."""
    page.browser.size(1280, 900)
    looks = "[document.querySelector('#theme').textContent, getComputedStyle(document.body).backgroundColor]"
    page.open(**START)
    light = page.value(looks)
    STEPS.equal("light is named", light[0], "Colours: light")
    page.click("#theme")
    dark = page.value(looks)
    STEPS.check("dark is named and seen", dark[0] == "Colours: dark" and dark[1] != light[1], dark)
    page.open(**START)
    STEPS.equal("dark is kept over a new load", page.value(looks), dark)
    page.open(view="judge", ids="8", example="ldb.txt")
    STEPS.equal("dark is kept over a link", page.value(looks), dark)
    page.click("#theme")
    page.open(**START)
    STEPS.equal("light again", page.value(looks), light)
    page.browser.size(1280, 900, dark=True)
    page.wait("the system is followed", f"{looks}[0] === 'Colours: dark'")
    page.browser.size(1280, 900)


def touch(page):
    """A finger drags nodes and unused identifiers, and scrolls the page elsewhere."""
    page.browser.size(390, 844)
    page.browser.fingers(True)
    try:
        page.open(**START)
        page.wait_ring("the ring for a finger", "5,1,3,7")
        page.value("scrollTo(0, 300)")
        top, right, bottom = (page.middle(f".node[data-place='{place}'] .disc") for place in range(3))
        before = page.value("scrollY")
        between = ((top[0] + right[0]) / 2 + 12, (top[1] + right[1]) / 2 - 12)
        page.browser.swipe(bottom, (bottom[0] + 15, bottom[1] - 15), between)
        page.wait_ring("a node dragged by a finger", "5,3,1,7")
        STEPS.equal("the page has not scrolled", page.value("scrollY"), before)
        spot = page.middle(".node[data-place='2'] .disc")
        page.browser.swipe(spot)
        STEPS.equal("a node that is touched shows its window", page.count(".window.known"), 1)
        page.wait("it shows its value too", f"{ITEMS}.length")
        page.click("#why-close")
        chip = page.middle(".chip[aria-label='Add 6']")
        stage = page.middle("#stage svg")
        page.browser.swipe(chip, (chip[0], chip[1] - 20), (stage[0] + 60, stage[1] - 70))
        page.wait("an identifier dragged in", "/^5,6,3,1,7$/.test(document.querySelector('#ring').value)")
        centre = page.middle("#stage svg")
        page.browser.swipe(centre, *((centre[0], centre[1] - 20 * step) for step in range(1, 8)))
        page.wait("a finger between the nodes scrolls", f"scrollY > {before} + 40")
        STEPS.check("keys are not named to fingers", page.text(".hint").startswith("Touch a node"), page.texts(".hint"))
    finally:
        page.browser.fingers(False)
        page.browser.size(1280, 900)


def readers(page):
    """Refusals stand in live regions, and the nodes of a ring are one tab stop."""
    page.open(**START)
    page.wait_ring("the ring for a reader", "5,1,3,7")
    invalid = "document.querySelector('#ring').ariaInvalid"
    STEPS.equal("a ring is valid", page.value(invalid), "false")
    for ring, said in (("5,1,3", "ring fault G1"), ("5,x", "x is no identifier"), ("5,1,3,8", "ring fault G3")):
        page.fill("#ring", ring)
        page.wait(f"the ring {ring} is refused", f"document.querySelector('[role=status] #run-refused').textContent.startsWith('{said}')")
        STEPS.equal(f"the ring {ring} is invalid", page.value(invalid), "true")
    page.fill("#ring", "5,1,3,7")
    page.wait("it is valid again", f"{invalid} === 'false'")
    described = "document.querySelector('#ring').getAttribute('aria-describedby').split(' ').every(id => document.getElementById(id))"
    STEPS.check("the ring names its refusal", page.value(described))
    page.open(view="table", ids="33", example="cv1.txt")
    page.wait("a refused table", "document.querySelector('[role=status] #table-refused').textContent")
    ring = ",".join(str(i * 5 % 1024) for i in range(1024))
    page.open(view="run", ids="1024", ring=ring, example="identity.txt")
    page.wait("a ring of 1,024", "document.querySelectorAll('#stage .node').length === 1024")
    STEPS.equal("its tab stops", page.count("#stage .node[tabindex='0']"), 1)
    page.focus("#stage .node[tabindex='0']")
    for key, place in (("ArrowRight", "1"), ("ArrowDown", "2"), ("ArrowLeft", "1"), ("ArrowUp", "0"), ("ArrowLeft", "1023")):
        page.browser.key(key)
        STEPS.equal(f"{key} goes to the place {place}", page.value("document.activeElement.dataset.place"), place)
    stops = page.value("[...document.querySelectorAll('#stage .node[tabindex=\"0\"]')].map(e => e.dataset.place)")
    STEPS.equal("the tab stop goes along", stops, ["1023"])


def screens(page):
    """On a stage the rule and the ring are in view together; on a phone nothing is too wide, and the ring begins on the first screen."""
    for width, height, scale in ((1280, 800, 1), (853, 533, 1.5), (640, 400, 2)):
        page.browser.size(width, height, scale=scale)
        page.open(**START)
        page.wait_ring(f"the ring at {width}", "5,1,3,7")
        page.value("new Promise(done => setTimeout(done, 200))")
        rule = "/round$|send|r0 =|finish/.test(e.textContent.trim()) && !e.querySelector('.comment')"
        rows = f"[...document.querySelectorAll('.row')].filter(e => {rule})"
        box = "document.querySelector('#editor').getBoundingClientRect()"
        seen = f"{rows}.every(e => (r => r.top >= {box}.top && r.bottom <= {box}.bottom + 1)(e.getBoundingClientRect()))"
        STEPS.check(f"the rule is in view at {width}", page.value(f"{rows}.length > 4 && {seen} && {INSIDE}(document.querySelector('#editor'))"))
        discs = f"[...document.querySelectorAll('#stage .disc')].every({INSIDE})"
        STEPS.check(f"the ring is in view at {width}", page.value(discs))
    for width, height in ((600, 800), (640, 400), (720, 450), (720, 1000)):
        page.browser.size(width, height)
        for view in ("run", "judge", "table", "graph"):
            page.open(**{**START, "view": view, "step": "end"})
            page.wait(f"{view} at {width}", "document.querySelector('.stage svg, .windows li, #graph-say')")
            STEPS.check(f"{view} at {width}: nothing is too wide", page.value("document.documentElement.scrollWidth <= innerWidth"))
            if view == "table":
                STEPS.check(f"the prefix at {width}", page.value("document.querySelector('#prefix').clientWidth > 100"))
    for width, height in ((390, 844), (320, 568)):
        page.browser.size(width, height)
        for name, state in SMALL.items():
            page.open(**{**START, **state})
            page.wait(f"{name} at {width}", "document.querySelector('.stage svg, .windows li, .say.refused, .refused:not([hidden])')")
            STEPS.check(f"{name} at {width}: nothing is too wide", page.value("document.documentElement.scrollWidth <= innerWidth"))
        page.open(**START)
        page.wait_ring(f"the ring at {width}", "5,1,3,7")
        STEPS.check(f"the ring begins on the first screen at {width}", page.value(f"{INSIDE}(document.querySelector('.node .disc'))"))
        STEPS.check(f"the ring's field has room at {width}", page.value("document.querySelector('#ring').clientWidth > 150"))
        page.click("[popovertarget=help]")
        STEPS.check(f"the help at {width} is not too wide", page.value("(e => e.scrollWidth <= e.clientWidth)(document.querySelector('#help'))"))
    page.browser.size(1280, 900)


SMALL = {
    "run": {},
    "a refused ring": {"ring": "5,1,3"},
    "a large ring": {"ids": "32", "ring": ",".join(str(7 * i % 32) for i in range(24))},
    "yes": {"view": "judge"},
    "no": {"view": "judge", "example": "ldb.txt"},
    "distance two": {"view": "judge", "far": "1"},
    "a set": {"view": "judge", "ids": "12", "example": "mis_12.txt"},
    "a no of a set": {"view": "judge", "ids": "7", "example": "mis_7.txt"},
    "own patterns": {"view": "judge", "problem": "own", "forbid": "1,1 0,*,0 " * 20},
    "refused patterns": {"view": "judge", "problem": "own", "forbid": "1,,1"},
    "table": {"view": "table"},
    "a long table": {"view": "table", "ids": "32"},
    "graph": {"view": "graph", "ids": "5"},
    "too many windows": {"view": "graph"},
    "a fault": {"text": CV1.replace(", 1), bit", ", 1) bit")},
}


def loading(page):
    """The page says what it waits for, asks for its modules at once, and keeps what was typed over a reload; high contrast has its marks."""
    text = (ROOT / "page/index.html").read_text(encoding="utf-8")
    named = set(re.findall(r'rel="modulepreload" href="([^"]*)"', text))
    STEPS.equal("its modules", named, {file.name for file in (ROOT / "page").glob("*.js")} - {"theme.js", "main.js"})
    STEPS.check("it says what it needs", "<noscript>" in text and 'id="loading"' in text)
    page.open(**START)
    page.wait_ring("the ring before a reload", "5,1,3,7")
    STEPS.equal("nothing is said to load", page.count("#loading"), 0)
    page.fill("#text", LDB)
    page.browser.call("Page.reload")
    page.wait("what was typed is kept", f"document.querySelector('#check > *') && document.querySelector('#text').value === {json.dumps(LDB)}")
    page.open(**START)
    page.wait_ring("another link after it", "5,1,3,7")
    STEPS.equal("which has its own text", page.value("document.querySelector('#text').value"), CV1)
    page.browser.call("Emulation.setEmulatedMedia", features=[{"name": "forced-colors", "value": "active"}])
    for mark in ("#timeline [aria-current=step]", "#tab-run", ".row.now"):
        style = page.value(f"getComputedStyle(document.querySelector('{mark}')).outlineStyle")
        STEPS.equal(f"{mark} in forced colours", style, "solid")
    page.browser.size(1280, 900)


def numbers(page):
    """An emptied number says what is wanted, and a random ring has enough nodes."""
    page.open(**START)
    page.wait_ring("a ring before its number", "5,1,3,7")
    page.listen()
    page.fill("#ids", "")
    page.wait("no identifiers", "/^A number is wanted: how many identifiers/.test(document.querySelector('.check .note')?.textContent)")
    STEPS.equal("the field is invalid", page.value("document.querySelector('#ids').ariaInvalid"), "true")
    STEPS.equal("nbhd is not asked", page.asked("check", "ids"), [])
    page.fill("#ids", "8")
    page.wait("a number again", "document.querySelector('.check.good') && document.querySelector('#ids').ariaInvalid === 'false'")
    page.click("#tab-judge")
    page.choose("#problem", "distance")
    page.wait("near and far", "document.querySelector('#near').checkVisibility() && document.querySelector('#verdict .word')")
    for name in ("near", "far"):
        page.fill(f"#{name}", "")
        page.wait(f"no {name}", "/^A number is wanted: by how much/.test(document.querySelector('#verdict').textContent)")
        page.fill(f"#{name}", "1")
        page.wait(f"{name} again", "document.querySelector('#verdict .word')")
    page.open(view="run", ids="10", ring="0,1,2,3,4,5,6,7,8,9", example="cv_to_three.txt")
    page.wait("a run of four rounds", "document.querySelector('#stage .badge')")
    STEPS.equal("the least random ring", page.value("(e => [e.min, e.max, e.value])(document.querySelector('#random-size'))"), ["10"] * 3)
    page.fill("#random-size", "2")
    page.click("#random")
    page.wait("a random ring has enough nodes", "document.querySelectorAll('#stage .badge').length === 10")
    page.fill("#random-size", "")
    page.click("#random")
    page.wait("no size", "/^A number is wanted: how many nodes/.test(document.querySelector('#run-refused').textContent)")


def examples_by_name(page):
    """A link to an example that is not there says so, and Ctrl-Z takes the choice of an example back."""
    page.open(view="run", ids="8", ring="5,1,3,7", example="nosuch")
    page.wait("no such example", "document.querySelector('#missing').checkVisibility()")
    STEPS.equal("what it says", page.text("#missing"), "There is no example nosuch: this is cv1.txt.")
    page.fill("#text", LDB)
    STEPS.equal("it goes with the text", page.texts("#missing"), [])
    own = LDB + "# of my own\n"
    page.fill("#text", own)
    page.wait("the own text is accepted", "document.querySelector('.check.good')")
    page.click("#examples button:nth-of-type(1)")
    page.wait("an example", "document.querySelector('#examples-button').title.startsWith('cv1')")
    page.focus("#text")
    page.browser.key("z", control=True)
    page.wait("Ctrl-Z", f"document.querySelector('#text').value === {json.dumps(own)}")
    STEPS.equal("its identifiers too", page.value("document.querySelector('#ids').value"), "8")


def localhost(page):
    """The page asked for at localhost is that of the address, with the state of the link."""
    page.browser.open(page.url.replace("127.0.0.1", "localhost") + "#view=judge&ids=8&example=cv1.txt")
    page.wait("the address in place of localhost", f"location.href.startsWith('{page.url}#view=judge')")
    page.wait("its state", "document.querySelector('.verdict.yes')")


def graph_by_distance(page):
    """The graph asks how far apart neighbours' channels are to be, and mentions distance two."""
    page.open(view="graph", ids="4", example="cv1.txt", near="2", far="1")
    page.wait("a graph by near", "document.querySelectorAll('.graph .point').length === 24")
    lines = [line for line in nbhd(CV1, "table", "--ids", "4").splitlines() if " : " in line]
    channels = {window: int(channel) for window, channel in (line.split(" : ") for line in lines)}
    edges = [(w, " ".join((*w.split()[1:], str(x)))) for w in channels for x in range(4) if str(x) not in w.split()]
    close = [f"{a} → {b}" for a, b in edges if abs(channels[a] - channels[b]) < 2]
    STEPS.equal("its red edges", page.count(".graph .edges.close .edge"), len(close))
    STEPS.equal("their list", page.texts(".close-edges .code"), close[:24])
    said = f"24 windows, 24 edges. {len(close)} join windows whose channels differ by less than 2. Distance two is no edge here: the judge looks at it."
    STEPS.equal("its sentence", page.text("#graph-say"), said)
    page.fill("#graph-near", "1")
    page.wait("near 1", "/windows with equal channels/.test(document.querySelector('#graph-say').textContent)")
    page.click("#tab-judge")
    page.wait("the judge has the same near", "document.querySelector('#near').value === '1'")


def paper(page):
    """The printed page has the whole program, and the ring with its rounds or the judge's answer, and nothing to press."""
    reader = shutil.which("pdftotext")
    if reader is None:
        print("page-test: not run: the text of the printed page, as there is no pdftotext")
        return
    long = "rounds 0\nchannels 8\nregisters 1\nstart\n" + "".join(f"# line {n} {'and more ' * 20}\n" for n in range(150)) + "r0 = id\nfinish r0\n"
    # The table of a trace calls the identifiers nodes.
    trace = nbhd(CV1, "trace", "--ids", "8", "--ring", "5,1,3,7").replace("ring", "node", 1)
    runs = {"a run": ({}, CV1, trace), "a long program": ({"text": long}, long, "start r0 5 1 3 7")}
    runs["a no"] = ({"view": "judge", "example": "ldb.txt"}, LDB, "On the ring 0 1 2 3 the nodes 1 and 2 are neighbours and both have channel 0.")
    wrong = (ROOT / "examples/mis_7.txt").read_text(encoding="ascii")
    set_no = {"view": "judge", "example": "mis_7.txt", "ids": "7"}
    runs["a no of a set"] = (set_no, wrong, "On the ring 1 2 3 4 5 6 node 4 is not in the set, and neither is a neighbour.")
    runs["a yes"] = ({"view": "judge"}, CV1, "On every ring of 4 to 8 distinct identifiers below 8, neighbours’ channels differ.")
    for name, (state, text, shown) in runs.items():
        page.open(**{**START, **state})
        page.wait(f"{name} before it is printed", "document.querySelector('#stage .badge, .verdict .word')")
        made = subprocess.run([reader, "-layout", "-", "-"], input=page.browser.printed(), capture_output=True).stdout.decode()
        if name == "a run":
            whole = [sheet for sheet in made.split("\f") if "start r0" in sheet]
            STEPS.check("the trace stands on one sheet", len(whole) == 1 and whole[0].count("finish") >= 1 and "node" in whole[0], made[-600:])
        found = "".join(made.split())
        program = "".join(text.split())
        STEPS.check(f"{name}: the program", program in found.replace("\f", ""), made[:300])
        for line in shown.splitlines():
            STEPS.check(f"{name}: {line}", "".join(line.split()) in found, made[-600:])
        for word in ("Randomring", "Copylink", "Play", "Identifiers8", "Firststeps", "Runthisring", "arrowkeys", "Savetable", "decimal"):
            STEPS.check(f"{name}: no control {word}", word not in found, made)


def in_base_two(values):
    """Numbers in binary, all as wide as the widest and as the identifiers of 5,1,3,7."""
    width = max(3, *(len(f"{int(value):b}") for value in values))
    return [f"{int(value):0{width}b}" for value in values]


def binary(page):
    """Identifiers, registers, messages and channels in binary, which the link keeps."""
    page.open(**START, base="2")
    page.wait_ring("the ring in binary", "5,1,3,7")
    trace = {line.rsplit(" ", 4)[0]: line.split()[-4:] for line in nbhd(CV1, "trace", "--ids", "8", "--ring", "5,1,3,7").splitlines()}
    STEPS.equal("identifiers in binary", page.texts(".ring .identifier"), ["101", "001", "011", "111"])
    STEPS.equal("channels in binary", page.texts(".ring .badge-number"), in_base_two(trace["finish"]))
    rows = page.value("[...document.querySelectorAll('.trace tbody tr')].map(r => [...r.children].map(c => c.textContent))")
    for name, *values in rows:
        STEPS.equal(f"{name} in binary", values, in_base_two(trace[name]))
    page.focus("#stage")
    page.browser.key("ArrowLeft")
    STEPS.equal("registers in binary", page.texts(".ring .label"), [f"r0={value}" for value in in_base_two(trace["round 1 r0"])])
    page.browser.key("ArrowLeft")
    STEPS.equal("messages in binary", page.texts(".message.right text"), in_base_two(trace["round 1 right"]))
    page.choose("#base", "10")
    page.wait("decimal again", "document.querySelector('.message.right text').textContent === '5' && !location.hash.includes('base=')")


ITEMS = "[...document.querySelectorAll('[role=treeitem]')]"
# The word and the value of a part.
PART = "(e => [...e.querySelectorAll('code, b')].map(e => e.textContent).join(' '))"


def why(page):
    """The tree of a node, by mouse, finger and keys, in both bases and at each kind of step."""
    lines = nbhd(CV1, "explain", "--ids", "8", "--ring", "5,1,3,7", "--place", "1").splitlines()
    heads = [number for number, line in enumerate(lines) if not line.startswith(" ")]
    trees = {lines[a].split(",")[0]: lines[a + 1 : b] for a, b in zip(heads, [*heads[1:], len(lines)])}
    steps = {"": ["start r0"], "1": ["round 1 left", "round 1 right"], "2": ["round 1 r0"]}
    steps["end"] = ["finish", "round 1 r0"]
    for width, base, way in ((1280, "10", "mouse"), (1280, "2", "keys"), (390, "10", "finger"), (390, "2", "keys")):
        page.browser.size(width, 900)
        page.browser.fingers(way == "finger")
        for step, wanted in steps.items():
            page.open(**START, base=base, step=step)
            page.wait(f"a run for why at {step}", "document.querySelectorAll('#stage .label').length === 4")
            open_why(page, way)
            page.wait(f"why at {step} by {way}", f"{ITEMS}.length")
            found = page.value(f"{ITEMS}.map(e => [Number(e.ariaLevel), {PART}(e).split(' ')].flat())")
            parts = [[(len(line) - len(line.lstrip()), *line.split()) for line in trees[head]] for head in wanted]
            values = [in_base_two([part[2] for part in tree]) if base == "2" else [part[2] for part in tree] for tree in parts]
            shown = [[part[0], part[1], value] for tree, texts in zip(parts, values) for part, value in zip(tree, texts)]
            STEPS.equal(f"its trees at {step!r}, {width}, base {base}", found, shown)
            STEPS.check("it is not too wide", page.value("document.documentElement.scrollWidth <= innerWidth"))
    page.browser.fingers(False)
    page.browser.size(1280, 900)
    why_keys(page)


def open_why(page, way):
    """Opens the tree of the node at place 1."""
    node = ".node[data-place='1']"
    page.value("document.querySelector('#stage').scrollIntoView()")
    if way == "keys":
        page.focus(node)
        page.browser.key("Enter")
    elif way == "finger":
        page.browser.swipe(page.middle(f"{node} .disc"))
    else:
        page.browser.drag(*[page.middle(f"{node} .disc")] * 2)


# The nodes and the first two lines of the tree are in view, and nothing lies over them.
NEAR = """[...document.querySelectorAll('#stage .disc'), ...[...document.querySelectorAll('[role=treeitem] code')].slice(0, 2)].every(e => {
    const r = e.getBoundingClientRect(), [x, y] = [r.x + r.width / 2, r.y + r.height / 2];
    const seen = document.elementFromPoint(x, y)?.closest('#stage, #why');
    return r.top >= 0 && r.bottom <= innerHeight && seen && seen === e.closest('#stage, #why');
})"""


def why_in_view(page):
    """The ring and the tree are in view together, at once and after each step; a branch that is not taken is one line."""
    three = (ROOT / "examples/tutorial_three.txt").read_text()
    for width, height, way in ((1366, 768, "mouse"), (1280, 800, "mouse"), (820, 1180, "finger"), (390, 844, "finger"), (640, 400, "mouse")):
        page.browser.size(width, height)
        page.browser.fingers(way == "finger")
        page.open(**{**START, "ring": "5,1,3,7,0,2,6,4", "step": "", "example": "tutorial_three.txt"})
        page.wait("a run for what is in view", "document.querySelectorAll('#stage .label').length === 8")
        open_why(page, way)
        for number in range(8):
            page.wait(f"the ring and the tree at {width}, step {number}", f"{ITEMS}.length && {NEAR}")
            if number < 7:
                page.click("#forward")
    page.browser.fingers(False)
    page.browser.size(1280, 900)
    page.open(**{**START, "ring": "5,1,3,7,0,2,6,4", "step": "6", "why": "3", "text": three})
    page.wait("a link to why", f"{ITEMS}.length === 8")
    STEPS.equal("the branch that counts", page.texts("li.taken code"), ["min"])
    STEPS.equal("the other one", page.texts("li.other code"), ["if"])
    STEPS.equal("it says so", page.texts("li.other .branch"), ["not taken"])
    page.value("document.querySelector('li.taken').focus()")
    STEPS.equal("the word of the part behind it", page.texts(".ink .asked"), ["min"])
    at = three.index("ne(R, 1)") + 3
    page.value(f"(t => {{ t.focus(); t.setSelectionRange({at}, {at}); t.click(); }})(document.querySelector('#text'))")
    STEPS.equal("a word in it marks its line", page.texts("li.marked code"), ["if"])
    STEPS.check("that of the branch", page.count("li.other.marked") == 1)


def why_leads_on(page):
    """A value leads to the step that it comes from; the panel is in the link, and Back closes it and goes from tab to tab."""
    page.open(**START)
    page.wait_ring("a run that is asked why", "5,1,3,7")
    # By the mouse, as Back skips what a page adds without a press.
    page.browser.drag(*[page.middle("#tab-judge")] * 2)
    page.wait("the judge", "document.querySelector('#verdict .word')")
    page.browser.drag(*[page.middle("#tab-run")] * 2)
    page.wait_ring("the run again", "5,1,3,7")
    open_why(page, "mouse")
    page.wait("why at finish", "document.querySelector('.tree .source')")
    STEPS.check("it is in the link", "&why=1" in page.value("location.hash"), page.value("location.hash"))
    page.click(".tree .source")
    page.wait("the round that gave the register", "document.querySelector('.tree h4')?.textContent === 'round 1 r0'")
    STEPS.equal("the focus is there", page.value(f"{PART}(document.activeElement)"), "add 4")
    page.value(f"{ITEMS}.find(e => {PART}(e) === 'L 5').querySelector('.source').click()")
    page.wait("the neighbour that sent it", "document.querySelector('#why-heading').textContent === 'Why? Node 5 at place 0'")
    sent = page.texts(".tree h4")
    STEPS.equal("what it sent", (sent, page.value(f"{PART}(document.activeElement)")), (["round 1 left", "round 1 right"], "r0 5"))
    page.wait("the link follows", "location.hash.includes('step=1&why=0')")
    page.value("history.back()")
    page.wait("Back closes it", "document.querySelector('#why').hidden && !location.hash.includes('why=')")
    page.value("history.back()")
    page.wait("Back to the judge", "document.querySelector('#tab-judge').ariaSelected === 'true'")
    page.value("history.back()")
    page.wait("Back to the run", "document.querySelector('#tab-run').ariaSelected === 'true'")


# The height of the letters of an element on the screen.
HEIGHT = "(e => parseFloat(getComputedStyle(e).fontSize) * (e.ownerSVGElement?.getScreenCTM().a ?? 1))"
NUMBERS = ".ring .identifier, .ring .label, .ring .badge-number, .message text, .trace td, .trace .badge-number, .ink, .tree code, .tree b"


def large(page):
    """Large numbers are 20 px high or more at each step, also in binary, and nothing is too wide; the rows that a step does are marked."""
    rows = {0: ["r0 = id"], 1: ["send left 0", "send right r0"], 2: [CV1.split("send right r0\n")[1].split("\n")[0]], 3: ["finish r0"]}
    for width, height in ((1920, 1080), (1280, 800)):
        page.browser.size(width, height)
        for base in ("10", "2"):
            for ring in ("5,1,3,7", "5,1,3,7,0,2,6,4"):
                page.open(**{**START, "ring": ring, "step": "", "base": base, "large": "1", "why": "1"})
                for step, marked in rows.items():
                    page.wait(f"step {step} at {width}", f"document.querySelectorAll('#timeline button')[{step}]?.ariaCurrent === 'step' && {ITEMS}.length")
                    least = page.value(f"Math.min(...[...document.querySelectorAll('{NUMBERS}')].map({HEIGHT}))")
                    STEPS.check(f"numbers of {ring} to the base {base} at {width}, step {step}", least >= 20, least)
                    STEPS.equal(f"the rows of step {step}", [text.strip() for text in page.texts(".row.now")], marked)
                    inside = "(r => (b => r.top >= b.top && r.bottom <= b.bottom)(document.querySelector('#editor').getBoundingClientRect()))"
                    seen = f"{inside}(document.querySelector('.row.now').getBoundingClientRect())"
                    STEPS.check(f"they are in sight at {width}, step {step}", page.value(seen))
                    if height >= 1000:
                        STEPS.check(f"the sentence of step {step} is in sight", page.value(f"{INSIDE}(document.querySelector('#run-say'))"))
                    page.click("#forward")
                STEPS.check(f"large at {width}: nothing is too wide", page.value("document.documentElement.scrollWidth <= innerWidth"))
    page.browser.size(1280, 900)
    page.click("#tab-judge")
    STEPS.equal("no row is marked beside another view", page.count(".row.now"), 0)
    page.click("#large")
    STEPS.equal("as usual", page.value("document.body.className.includes('large')"), False)


def why_keys(page):
    """Arrows go along the tree, whose parts mark their words and the other way round; Escape closes it."""
    page.open(**START, step="2")
    page.wait("a run for the keys of why", "document.querySelectorAll('#stage .label').length === 4")
    open_why(page, "keys")
    page.wait("a tree", f"{ITEMS}.length === 11")
    asked = f"[{PART}(document.activeElement), document.querySelector('.ink .asked')?.textContent]"
    for key, part, word in (
        ("ArrowDown", "shl 4", "shl"),
        ("ArrowRight", "ldb 2", "ldb"),
        ("ArrowDown", "r0 1", "r0"),
        ("ArrowDown", "L 5", "L"),
        ("ArrowLeft", "ldb 2", "ldb"),
        ("ArrowLeft", "shl 4", "shl"),
        ("ArrowUp", "add 4", "add"),
    ):
        page.browser.key(key)
        STEPS.equal(f"{key} leads to {part}", page.value(asked), [part, word])
    STEPS.equal("one part of a tree is a tab stop", page.count("[role=treeitem][tabindex='0']"), 1)
    at = CV1.index("bit(r0, ldb") + 4
    page.value(f"(t => {{ t.focus(); t.setSelectionRange({at}, {at}); t.click(); }})(document.querySelector('#text'))")
    STEPS.equal("a word marks its part", page.value(f"{ITEMS}.map(e => e.matches('.marked')).indexOf(true)"), 7)
    page.focus("[role=treeitem]")
    page.browser.key("Escape")
    STEPS.equal("Escape closes it", page.count("[role=treeitem]"), 0)
    STEPS.equal("and returns to the node", page.value("document.activeElement.dataset.place"), "1")


SURFACES = [help_panel, documents, colours, touch, readers, screens, loading, numbers, examples_by_name, localhost, graph_by_distance]
SURFACES += [paper, binary, why, large, why_in_view, why_leads_on]
