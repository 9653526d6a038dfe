"""The five views, with CV1 and LDB: what they show is compared with what nbhd prints."""

import json
import math
import re
import time
from collections import Counter

from steps import CV1, LDB, ROOT, STEPS, kind_of, nbhd, note_of

IDS = ("--ids", "8")
NO_DRAWN = "document.querySelector('.verdict.no') && document.querySelector('#witness .badge')"

# The places whose link to the right is red.
RED = "[...document.querySelectorAll('{} .link')].flatMap((link, place) => link.matches('.equal') ? [place] : [])"
LABEL_TITLES = "[...document.querySelectorAll('.ring .label')].map(e => e.parentElement.querySelector('title').textContent)"


def nearest(spot, points):
    """The number of the point that is nearest."""
    return min(range(len(points)), key=lambda number: math.dist(spot, points[number]))


def check(page):
    page.open(view="run", example="cv1.txt", ids="8", ring="5,1,3,7")
    page.wait("CV1 is accepted", "document.querySelector('.check.good')")
    words = nbhd(CV1, "check", *IDS).split()
    facts = [value.replace(",", "") for value in page.texts(".facts dd")]
    STEPS.equal("its numbers", facts, [words[words.index(name) + 1] for name in ("rounds", "channels", "bound", "windows")])
    meant = "[...document.querySelectorAll('.facts dd')].slice(2).map(e => [e.ariaDescription, e.parentElement.title])"
    bound = "the largest channel that is possible by the rules for bounds"
    windows = "how many lists of 2t+1 = 3 distinct identifiers there are"
    STEPS.equal("what its numbers are", page.value(meant), [[bound, bound], [windows, windows]])
    page.value("(t => { t.focus(); t.setSelectionRange(0, t.value.length); })(document.querySelector('#text'))")
    faulty = CV1.replace("send left 0", "send lift 0")
    page.browser.type(faulty)
    page.wait("a fault while one types", "document.querySelector('.check.bad')")
    line = nbhd(faulty, "check", *IDS).strip()
    offset = int(line.split()[-1])
    row, column = faulty[:offset].count("\n") + 1, offset - faulty.rfind("\n", 0, offset)
    STEPS.equal("its kind", page.text(".check .line"), kind_of(line))
    STEPS.equal("its mark", page.texts(".ink .fault"), ["lift"])
    STEPS.equal("its row", page.value("[...document.querySelectorAll('.ink .faulty')].map(e => e.dataset.row)"), [str(row)])
    STEPS.equal("its place", page.text(".check .place"), f"line {row}, column {column}")
    shown_fault(page, "its note", faulty)
    page.click(".check .place")
    STEPS.equal("the cursor goes there", page.value("document.querySelector('#text').selectionStart"), offset)


def shown_fault(page, name, text, *options):
    """The page shows the kind of the fault, and the note of the program without its backquotes, and its place."""
    words = ("check", *(options or IDS))
    place, sentence = note_of(text, *words)
    wanted = [kind_of(nbhd(text, *words)), sentence.replace("`", ""), place]
    shown = "['.line', '.note', '.place'].map(part => document.querySelector(`.check ${part}`)?.textContent ?? '').join()"
    page.wait(name, f"{shown} === {json.dumps(','.join(wanted))}")


def faults(page):
    texts = {
        "the end": CV1[: CV1.index("finish")],
        "an empty text": "",
        "a letter with an accent": "# caf\u00e9\n" + CV1,
        "a character of two UTF-16 units": "# \U0001f642\n" + CV1,
        "a plus": CV1.replace("add(", "add+("),
        "a register that is not there": CV1.replace("finish r0", "finish r1"),
        "an identifier in a round": CV1.replace("bit(r0", "bit(id"),
        "a message in the start": CV1.replace("r0 = id", "r0 = L"),
        "too few channels": CV1.replace("channels 10", "channels 5"),
    }
    for name, text in texts.items():
        page.fill("#text", text)
        shown_fault(page, f"the fault at {name}", text)
        STEPS.equal(f"{name}: marks", page.count(".ink .fault"), 1 if note_of(text, "check", *IDS)[0] else 0)
        copy = page.value("document.querySelector('.ink').textContent")
        STEPS.equal(f"{name}: the coloured copy has the same text", copy, text + "\n")
    refused = "The program is refused; the reason stands under its text."
    for view, place in (("judge", "#verdict"), ("table", "#table-refused"), ("graph", "#graph-say"), ("run", "#run-refused")):
        page.click(f"#tab-{view}")
        page.wait(f"the {view} of a refused program", f"document.querySelector('{place}').textContent === '{refused}'")
    page.fill("#text", CV1)
    page.fill("#ids", "3")
    shown_fault(page, "a refusal without a place", CV1, "--ids", "3")
    STEPS.equal("its kind", page.text(".check .line"), "check fault X1")
    page.fill("#ids", "x")
    page.wait("no number", "document.querySelector('.check.bad strong')?.textContent === 'Refused'")
    page.fill("#ids", "4294967296")
    page.wait("refused words", "/invalid value '4294967296'/.test(document.querySelector('.check.bad .line')?.textContent)")
    page.browser.size(800, 900)
    page.open(view="run", ids="8", ring="5,1,3,7", text=CV1.replace("finish", "finnish"))
    page.wait("a fault of a link", "document.querySelector('.ink .fault')")
    inside = "(m, b) => m.top >= b.top && m.bottom <= b.bottom"
    rectangles = "['.ink .fault', '#editor'].map(s => document.querySelector(s).getBoundingClientRect())"
    STEPS.check("the editor scrolls to it", page.value(f"({inside})(...{rectangles})"))
    page.browser.size(1280, 900)


def run(page):
    ring = "5,1,3,7"
    page.open(view="run", example="cv1.txt", ids="8", ring=ring)
    page.wait_ring("the ring of CV1", ring)
    first, *trace = [line.split() for line in nbhd(CV1, "trace", *IDS, "--ring", ring).splitlines()]
    STEPS.equal("the first line of a trace", first, ["ring", *ring.split(",")])
    STEPS.equal("its identifiers", page.texts(".ring .identifier"), ring.split(","))
    STEPS.equal("its channels", page.texts(".ring .badge-number"), trace[-1][1:])
    rows = page.value("[...document.querySelectorAll('.trace tbody tr')].map(r => [...r.children].map(c => c.textContent))")
    STEPS.equal("its trace", [" ".join(row).split() for row in rows], trace)
    page.focus("#stage")
    page.browser.key("ArrowLeft")
    STEPS.equal("the registers after round 1", page.texts(".ring .label"), [f"r0={value}" for value in trace[3][3:]])
    STEPS.equal("their titles", page.value(LABEL_TITLES), [f"r0 = {value}" for value in trace[3][3:]])
    said = "What a node now holds depends only on its window: the 3 identifiers within distance 1."
    STEPS.check("the sentence on registers", page.text("#run-say").endswith(said), page.text("#run-say"))
    page.browser.key("ArrowLeft")
    STEPS.equal("what is sent left", page.texts(".message.left text"), trace[1][3:])
    STEPS.equal("what is sent right", page.texts(".message.right text"), trace[2][3:])
    sides = "its right neighbour (filled, outside the ring) and one to its left neighbour (hollow, inside)"
    STEPS.equal("the sentence on messages", page.text("#run-say"), f"Round 1: each node sends a value to {sides}.")
    fills = page.value("['right', 'left'].map(way => getComputedStyle(document.querySelector(`.message.${way} rect`)).fill)")
    sheet = page.value("getComputedStyle(document.querySelector('#ring')).backgroundColor")
    STEPS.equal("which messages are hollow", [fill == sheet for fill in fills], [False, True])
    message_places(page, len(ring.split(",")))
    page.browser.key("ArrowLeft")
    STEPS.equal("the registers at the start", page.texts(".ring .label"), [f"r0={value}" for value in trace[0][2:]])
    page.click("#play")
    page.wait("play goes to the end", "document.querySelector('#timeline li:last-child button').ariaCurrent === 'step'")
    two = "rounds 0 channels 8 registers 2 start r0 = id r1 = add(id, 10) finish r0"
    page.open(view="run", ids="8", ring=ring, text=two)
    page.wait_ring("a ring of two registers", ring)
    page.choose("#shown-register select", "1")
    STEPS.equal("the second register", page.texts(".ring .label"), ["15", "11", "13", "17"])
    STEPS.equal("its titles", page.value(LABEL_TITLES), ["r1 = 15", "r1 = 11", "r1 = 13", "r1 = 17"])


def message_places(page, count):
    """A message is between its sender and its receiver: the right ones outside the ring, the left ones inside."""
    nodes = [page.middle(f".node[data-place='{place}'] .disc") for place in range(count)]
    centre = [sum(values) / count for values in zip(*nodes)]
    radius = math.dist(centre, nodes[0])
    leads = [nearest(head, nodes) for head in page.middles(".ring .link path:last-child")]
    STEPS.equal("the arrows lead to the right neighbours", leads, [(place + 1) % count for place in range(count)])
    for way, step, outside in (("right", 1, True), ("left", -1, False)):
        spots = page.middles(f".message.{way}")
        for place, spot in enumerate(spots):
            near = sorted(range(count), key=lambda other: math.dist(spot, nodes[other]))[:2]
            STEPS.equal(f"the message {way} of place {place}", set(near), {place, (place + step) % count})
            STEPS.equal(f"the message {way} of place {place} is outside", math.dist(centre, spot) > radius, outside)


def large_rings(page):
    """All links of a ring have an arrowhead or none has, and the sentence says where the values of messages drawn as dots are."""
    for count in (8, 24):
        page.open(view="run", ids="32", ring=",".join(str(7 * i % 32) for i in range(count)), example="cv1.txt", step="1")
        page.wait(f"{count} messages to the right", f"document.querySelectorAll('.message.right').length === {count}")
        shown, dots = page.count(".message text"), page.count(".message circle")
        STEPS.equal(f"{count} nodes: values and dots", (shown, dots), (2 * count, 0) if count == 8 else (0, 2 * count))
        told = page.text("#run-say").endswith(" The values are in the table below.")
        STEPS.equal(f"{count} nodes: whether the sentence tells of the table", told, count == 24)
    STEPS.equal("values without a name", page.texts(".ring .label"), [str(7 * i % 32) for i in range(24)])
    STEPS.equal("the title of one", page.value(LABEL_TITLES)[2], "r0 = 14")
    radius = page.value("document.querySelector('.message circle').r.baseVal.value")
    STEPS.check("a dot can be seen", radius > 1, radius)
    heads = "m.drawRing({ ring: [...Array(k + 1).keys()], digits: 2 }).image.querySelectorAll('.link path:not(.link-line)').length"
    found = page.call("ring.js", f"Array.from({{ length: 64 }}, (_, k) => {heads})")
    STEPS.equal("arrowheads of rings of 1 to 64 nodes", found, [n if n <= 32 else 0 for n in range(1, 65)])


def strip_of_steps(page):
    """No step of the most rounds is cut, and neither is its outline."""
    wanted = ["start", *(f"{number} {part}" for number in range(1, 5) for part in ("send", "assign")), "finish"]
    cut = (
        "[...document.querySelectorAll('#timeline button')].filter(step => { const a = step.getBoundingClientRect();"
        " for (let box = step.parentElement; box !== document.body; box = box.parentElement) {"
        "  const b = box.getBoundingClientRect();"
        "  if (a.left < b.left || a.right > b.right || a.top < b.top || a.bottom > b.bottom) return true;"
        "  if (getComputedStyle(box).overflow !== 'visible') return true; }"
        " return false; }).map(step => step.textContent)"
    )
    for width in (1280, 800, 420):
        page.browser.size(width, 900)
        for step in ("0", ""):
            page.open(view="run", ids="10", ring="5,1,3,7,0,2,9,8,4,6", example="cv_to_three.txt", step=step)
            page.wait("a run of four rounds", "document.querySelector('#timeline [aria-current=step]')")
            STEPS.equal("its steps", page.texts("#timeline button"), wanted)
            STEPS.equal(f"steps that are cut at {width}", page.value(cut), [])
    page.browser.size(1280, 900)


def step_keys(page):
    """What the line below the ring says of keys is so: they step from the page, the ring and a step, and not from a node or a field."""
    current = "[...document.querySelectorAll('#timeline button')].findIndex(e => e.ariaCurrent === 'step')"
    page.open(view="run", ids="8", ring="5,1,3,7", example="cv1.txt")
    page.wait_ring("the ring for the keys", "5,1,3,7")
    hint = "Point at a node to see its window; press it, or a value of the trace, to see why it is so; "
    hint += "drag it to move it, off the ring to take it out; arrow and page keys step."
    STEPS.equal("the line below the ring", [" ".join(text.split()) for text in page.texts(".hint")], [hint])
    for place, key, step in (
        (None, "ArrowLeft", 2),
        ("#stage", "ArrowLeft", 1),
        (".node[data-place='1']", "ArrowLeft", 1),
        ("#timeline li:first-child button", "ArrowRight", 2),
        ("#ring", "ArrowLeft", 2),
        ("#trace", "ArrowLeft", 2),
        (None, "PageUp", 1),
        ("#tab-run", "PageDown", 2),
        (".node[data-place='1']", "PageDown", 3),
        ("#ring", "PageUp", 3),
        ("#text", "PageUp", 3),
        ("#trace", "PageUp", 3),
    ):
        page.focus(place) if place else page.value("document.activeElement.blur()")
        page.browser.key(key)
        STEPS.equal(f"the step after {key} at {place}", page.value(current), step)
    page.fill("#ring", "")
    page.wait("no line below no ring", "!document.querySelector('.hint').checkVisibility({ visibilityProperty: true })")


def windows_known(page):
    """The window that a node has heard of, as a band under the ring, grows by a node on each side in a round."""
    page.open(view="run", example="cv2.txt", ids="16", ring="5,1,3,7,0,2,9,8,4,6")
    page.wait_ring("a ring of two rounds", "5,1,3,7,0,2,9,8,4,6")
    for step, rounds in ((0, 0), (1, 0), (2, 1), (3, 1), (4, 2), (5, 2)):
        page.click(f"#timeline li:nth-child({step + 1}) button")
        page.focus(".node[data-place='3']")
        length, x, y = page.value(
            "(p => { const l = p.getTotalLength(), m = p.getPointAtLength(l / 2); return [l, m.x, m.y]; })"
            "(document.querySelector('.window.known path'))"
        )
        places = 10 * length / (2 * math.pi * math.hypot(x, y))
        STEPS.check(f"the window known in step {step}", abs(places - (2 * rounds + 0.6)) < 0.01, places)
        middle = 10 * math.atan2(x, -y) / (2 * math.pi)
        STEPS.check(f"its middle in step {step}", abs(middle - 3) < 0.01, middle)


def equal_channels(page):
    """Links of equal channels are red, and the sentence names the first ones."""
    for ring in ("0,1,2,3", "5,1,3,7", "0,1,3,4,2", "0,1,3,2,4"):
        page.open(view="run", ids="8", ring=ring, text=LDB)
        page.wait_ring(f"LDB on {ring}", ring)
        identifiers, channels = ring.split(","), nbhd(LDB, "run", *IDS, "--ring", ring).split()
        pairs = [(place, (place + 1) % len(channels)) for place in range(len(channels))]
        equal = [(a, b) for a, b in pairs if channels[a] == channels[b]]
        STEPS.equal(f"red links of {ring}", page.value(RED.format("#stage")), [a for a, _ in equal])
        said = "On this ring neighbours’ channels differ."
        for a, b in equal[:1]:
            others = {1: "", 2: "; so has 1 other pair"}.get(len(equal), f"; so have {len(equal) - 1} other pairs")
            said = f"Neighbours {identifiers[a]} and {identifiers[b]} have the same channel{others}."
        STEPS.equal(f"the sentence on {ring}", page.text("#run-say"), f"finish gives each node its channel. {said}")


def drag(page):
    page.open(view="run", example="cv1.txt", ids="8", ring="5,1,3,7")
    page.wait_ring("the ring before", "5,1,3,7")
    top, right, bottom = (page.middle(f".node[data-place='{place}'] .disc") for place in range(3))
    between = ((top[0] + right[0]) / 2 + 15, (top[1] + right[1]) / 2 - 15)
    page.browser.drag(bottom, (bottom[0] + 20, bottom[1] - 10), between)
    page.wait_ring("a node dragged along the ring", "5,3,1,7")
    STEPS.equal("its channels", page.texts(".ring .badge-number"), nbhd(CV1, "run", *IDS, "--ring", "5,3,1,7").split())
    page.browser.drag(page.middle(".node[data-place='0'] .disc"), (top[0] + 5, top[1] + 60), page.middle("#stage"))
    page.wait("a node dragged out", "document.querySelector('#ring').value === '3,1,7'")
    page.wait("the fault of the short ring", "document.querySelector('#run-refused').textContent.startsWith('ring fault G1')")
    page.click(".chip[aria-label='Add 6']")
    page.wait_ring("a node added by a click", "3,1,7,6")
    chip, stage = page.middle(".chip[aria-label='Add 5']"), page.middle("#stage")
    page.browser.drag(chip, (chip[0], chip[1] - 30), (stage[0] + 90, stage[1] - 90))
    page.wait_ring("a node dragged in", "3,5,1,7,6")


def edit_ring(page):
    page.open(view="run", example="cv1.txt", ids="8", ring="3,1,7,6")
    page.wait_ring("the ring to edit", "3,1,7,6")
    page.focus('.node[data-place="1"]')
    page.browser.key("ArrowRight", shift=True)
    page.wait_ring("a node moved by keys", "3,7,1,6")
    STEPS.equal("it keeps the focus", page.value("document.activeElement.dataset.place"), "2")
    page.focus('.node[data-place="0"]')
    page.browser.key("Delete")
    page.wait("a node deleted by a key", "document.querySelector('#ring').value === '7,1,6'")
    page.fill("#random-size", "8")
    page.click("#random")
    page.wait("a random ring", "document.querySelectorAll('.ring .badge').length === 8")
    STEPS.equal("its identifiers are distinct", sorted(page.texts(".ring .identifier")), list("01234567"))
    page.fill("#ring", "5,1,9,7")
    page.wait("a ring with an identifier that is too large", "document.querySelector('.node.faulty')?.dataset.place === '2'")
    # nbhd refuses a number that is too large for it.
    page.fill("#ring", "5,4294967296,9")
    page.wait("a number that is too large", "/ring/.test(document.querySelector('#run-refused').textContent)")


def typed_rings(page):
    """The field takes blanks in place of commas. Of a text that is no ring it tells why, and nbhd is not asked."""
    page.open(view="run", example="cv1.txt", ids="8", ring="6,0 2 4")
    page.wait("the ring of a link with blanks", "document.querySelector('#ring').value === '6,0,2,4'")
    page.listen()
    for typed in ("5 1 3 7", "5, 1, 3, 7,", " 5 ,1\t3  7 "):
        page.fill("#ring", "0,1,2,3")
        page.wait("the ring before", "document.querySelectorAll('#stage .badge').length === 4")
        page.fill("#ring", typed)
        page.wait(f"the ring {typed!r}", "document.querySelector('#stage .identifier')?.textContent === '5'")
        page.wait(f"the run of {typed!r}", "document.querySelectorAll('#stage .badge').length === 4")
        channels = nbhd(CV1, "run", *IDS, "--ring", "5,1,3,7").split()
        STEPS.equal(f"the channels of {typed!r}", page.texts(".ring .badge-number"), channels)
        page.wait(f"the address of {typed!r}", "location.hash.includes('ring=5,1,3,7&')")
        STEPS.equal(f"the field keeps {typed!r}", page.value("document.querySelector('#ring').value"), typed)
    STEPS.equal("the rings that nbhd was asked about", sorted(set(page.asked("trace", "ring"))), ["0,1,2,3", "5,1,3,7"])
    page.listen()
    for typed, part in (("", ""), (" , ", ""), ("5 x 9", "x"), ("5,-1", "-1"), ("5;1", "5;1")):
        said = f"{part} is no identifier: write numbers, as 5,1,3,7." if part else "Write a ring, or take a random one."
        page.fill("#ring", typed)
        page.wait(f"why {typed!r} is no ring", f"document.querySelector('#run-refused').textContent === {json.dumps(said)}")
    time.sleep(0.2)
    STEPS.equal("nbhd is not asked about them", page.asked("trace", "ring"), [])


def judge(page):
    page.open(view="run", ids="8", ring="5,1,3,7", text=LDB)
    page.wait_ring("a run of LDB", "5,1,3,7")
    page.click("#timeline li:nth-child(2) button")
    page.click("#tab-judge")
    page.wait("the no of LDB", NO_DRAWN)
    found = re.fullmatch(r"no: ring ([\d ]+) place (\d+) channel (\d+)\n", nbhd(LDB, "judge", *IDS))
    ring, place, channel = found[1].split(), int(found[2]), found[3]
    STEPS.equal("its ring", page.texts(".ring .identifier"), ring)
    STEPS.equal("the two nodes", page.texts(".node.chosen .identifier"), ring[place : place + 2])
    STEPS.equal("their channels", page.texts(".node.chosen .badge-number"), [channel] * 2)
    STEPS.equal("their windows", page.texts(".seen td.code"), [" ".join(ring[:3]), " ".join(ring[1:])])
    nodes = [page.middle(f"#witness .node[data-place='{number}'] .disc") for number in range(len(ring))]
    middles = [nearest(dot, nodes) for dot in page.middles(".ring .window-dot")]
    STEPS.equal("the middles of the windows' lines", middles, [place, place + 1])
    page.click("#run-this-ring")
    page.wait_ring("run this ring", ",".join(ring))
    STEPS.equal("it opens at its finish", page.texts("#timeline [aria-current=step]"), ["finish"])
    channels = nbhd(LDB, "run", *IDS, "--ring", ",".join(ring)).split()
    equal = sum(a == b for a, b in zip(channels, channels[1:] + channels[:1]))
    STEPS.equal("equal channels are red", page.count("#stage .link.equal"), equal)
    page.value("history.back()")
    page.wait("back to the judge", "!document.querySelector('#judge').hidden")


def judge_distances(page):
    page.open(view="judge", ids="8", ring="5,1,3,7", example="cv1.txt")
    page.wait("the yes of CV1", "document.querySelector('.verdict.yes')")
    tuples = int(nbhd(CV1, "judge", *IDS).split()[1])
    STEPS.check("its number of tuples", f"{tuples:,} tuples" in page.text(".verdict"), page.text(".verdict"))
    rings = "On every ring of 4 to 8 distinct identifiers below 8, neighbours’ channels differ."
    STEPS.check("its rings", rings in page.text(".verdict"), page.text(".verdict"))
    fewer = "Fewer channels? There is a table with 4 channels, and with 3 channels there is none. sperner_20_4.txt What is known"
    STEPS.equal("what is known of fewer channels", page.texts(".verdict .fewer"), [fewer])
    links = page.value("[...document.querySelectorAll('.fewer a')].map(e => e.getAttribute('href'))")
    STEPS.equal("its links", links, ["#view=judge&ids=8&example=sperner_20_4.txt", "docs/LEAST.html#what-is-known-of-channels"])
    for ids, far, said in (
        ("4", "0", "On every ring of 4 distinct identifiers below 4, neighbours’ channels differ."),
        ("4", "1", "No ring has 5 distinct identifiers below 4."),
    ):
        page.open(view="judge", ids=ids, far=far, ring="0,1,2,3", example="cv1.txt")
        page.wait(f"the yes for {ids} identifiers and far {far}", "document.querySelector('.verdict.yes')")
        STEPS.check("its sentence", said in page.text(".verdict"), page.text(".verdict"))
    STEPS.equal("nothing is known without a ring", page.count(".verdict .fewer"), 0)
    page.open(view="judge", ids="8", ring="5,1,3,7", example="cv1.txt")
    page.wait("the yes for 8 identifiers", "document.querySelector('.verdict.yes')")
    page.choose("#problem", "distance")
    page.wait("the no at distance two", NO_DRAWN)
    STEPS.equal("it is asked with 1 and 1", page.value("['near', 'far'].map(id => document.getElementById(id).value)"), ["1", "1"])
    line = nbhd(CV1, "judge", *IDS, "--near", "1", "--far", "1")
    found = re.fullmatch(r"no: ring ([\d ]+) places (\d+) (\d+) channels (\d+) (\d+)\n", line)
    ring = found[1].split()
    STEPS.equal("its nodes", page.texts(".node.chosen .identifier"), [ring[int(found[2])], ring[int(found[3])]])
    STEPS.equal("its channels", page.texts(".node.chosen .badge-number"), [found[4], found[5]])
    identity = (ROOT / "examples/identity.txt").read_text(encoding="ascii")
    for near, far in (("2", "1"), ("1", "2"), ("3", "3")):
        page.open(view="judge", ids="8", example="identity.txt", near=near, far=far)
        line = nbhd(identity, "judge", *IDS, "--near", near, "--far", far)
        found = re.fullmatch(r"no: ring ([\d ]+) places (\d+) (\d+) channels (\d+) (\d+)\n", line)
        page.wait(f"the no of {near} and {far}", NO_DRAWN)
        STEPS.equal(f"its ring for {near} and {far}", page.texts("#witness .identifier"), found[1].split())
        STEPS.equal(f"its channels for {near} and {far}", page.texts(".node.chosen .badge-number"), [found[4], found[5]])
        between = [place for place in range(int(found[2]), int(found[2]) + 2) if place < int(found[3])]
        STEPS.equal(f"its red links for {near} and {far}", page.value(RED.format("#witness")), between)
    page.fill("#near", "0")
    page.wait("near out of its range", "document.querySelector('.verdict .refused')")


def table(page):
    page.open(view="table", ids="8", example="cv1.txt")
    page.wait("the table of CV1", "document.querySelectorAll('.windows li').length")
    text = nbhd(CV1, "table", *IDS)
    lines = [line.split(" : ") for line in text.splitlines() if " : " in line]
    counts = sorted(Counter(int(channel) for _, channel in lines).items())
    bars = list(zip(page.texts(".histogram text"), page.texts(".histogram .count")))
    STEPS.equal("how often each channel occurs", bars, [(str(channel), str(count)) for channel, count in counts])
    STEPS.equal("its shares", page.texts(".histogram .share"), [f"{100 * count / len(lines):.1f} %" for _, count in counts])
    page.fill("#prefix", "1 6")
    wanted = [f"{window}:{channel}" for window, channel in lines if window.startswith("1 6 ")]
    page.wait("a search", f"document.querySelectorAll('.windows li').length === {len(wanted)}")
    windows = zip(page.texts(".windows .code"), page.texts(".windows text"))
    STEPS.equal("its windows", [f"{window.strip()}:{channel}" for window, channel in windows], wanted)
    page.value("window.saved = ''; URL.createObjectURL = (blob) => { blob.text().then(t => window.saved = t); return '#'; }")
    page.click("#save")
    page.wait("saving", "window.saved")
    STEPS.equal("the saved text", page.value("window.saved"), text)
    page.open(view="table", ids="16", example="cv1.txt", prefix="1")
    wanted = [line for line in nbhd(CV1, "table", "--ids", "16").splitlines() if line.startswith("1 ")]
    found = f"document.querySelector('#table-say').textContent.startsWith('{len(wanted)} of ')"
    page.wait("a search for a whole identifier", found)
    page.fill("#prefix", "1 6 15")
    one = "document.querySelector('#table-say').textContent === '1 of 3,360 windows begins with 1 6 15.'"
    page.wait("a search for one window", one)
    page.open(view="table", ids="100", text=LDB.replace("channels 3", "channels 10"))
    listed = "document.querySelector('#table-say').textContent.startsWith('970,200 windows')"
    page.wait("nearly as many windows as are listed", listed)
    page.open(view="table", ids="10", example="cv_to_three.txt")
    said = "3,628,800 windows are too many to list here; nbhd table prints them."
    page.wait("a table of four rounds", f"document.querySelector('#table-say').textContent === {json.dumps(said)}")
    three = (ROOT / "examples/cv_to_three.txt").read_text(encoding="ascii")
    report = json.loads(nbhd(three, "table", "--ids", "10", "--format", "json"))
    counts = [f"{count:,}" for _, count in sorted(Counter(report["entries"]).items())]
    STEPS.equal("its histogram", page.texts(".histogram .count"), counts)
    page.click("#save")
    said = "The table is not saved: the output is longer than 24 MB."
    page.wait("it is not saved", f"document.querySelector('#table-refused').textContent === {json.dumps(said)}")


def graph(page):
    for name, text, ids in (("CV1", CV1, 4), ("LDB", LDB, 5), ("CV1", CV1, 6)):
        page.open(view="graph", ids=str(ids), text=text)
        page.wait(f"the graph of {name}", "document.querySelectorAll('.graph .point').length")
        lines = nbhd(text, "table", "--ids", str(ids)).splitlines()
        channels = dict(line.split(" : ") for line in lines if " : " in line)
        edges = [(w, " ".join((*w.split()[1:], str(x)))) for w in channels for x in range(ids) if str(x) not in w.split()]
        equal = [f"{a} → {b}" for a, b in edges if channels[a] == channels[b]]
        STEPS.equal(f"its windows for {ids}", page.count(".graph .point"), len(channels))
        STEPS.equal(f"its edges for {ids}", page.count(".graph .edge"), len(edges))
        STEPS.equal(f"its red edges for {ids}", page.count(".graph .edges.close .edge"), len(equal))
        said = {0: "None joins", 1: "1 joins"}.get(len(equal), f"{len(equal)} join")
        STEPS.check(f"its sentence for {ids}", f" {said} windows with equal channels." in page.text("#graph-say"))
        STEPS.equal(f"their list for {ids}", page.texts(".close-edges .code"), equal[:24])
        named = page.value("[...document.querySelectorAll('.close-edges .badge-image')].every(e => e.ariaLabel === `channel ${e.textContent}`)")
        STEPS.check(f"their badges for {ids}", named)
    page.open(view="graph", ids="5", text=LDB)
    page.wait("the graph for the keys", "document.querySelectorAll('.graph .point').length")
    page.focus(".graph .point[tabindex='0']")
    page.browser.key("ArrowRight")
    STEPS.equal("an arrow key moves to the next window", page.texts(".graph .point:focus .window-name"), ["0 1 3"])
    STEPS.equal("its edges are set off", page.value("[...document.querySelectorAll('.edge.out, .edge.in')].length"), 4)
    STEPS.equal("one window is a tab stop", page.count(".graph .point[tabindex='0']"), 1)
    points, names = page.middles(".graph .point .badge"), page.texts(".graph .point .window-name")
    for way, windows in (("out", ["1 3 2", "1 3 4"]), ("in", ["0 1 3", "0 1 3"])):
        heads = page.middles(f".edge.{way} .edge-head")
        STEPS.equal(f"where the arrows {way} lead", sorted(names[nearest(head, points)] for head in heads), windows)
    page.open(view="graph", ids="8", example="cv1.txt")
    page.wait("too many windows", "/too many/.test(document.querySelector('#graph-say').textContent)")
    page.wait("their channels in a matrix", "document.querySelector('.matrix')")
    STEPS.equal("numbers of identifiers that are offered", page.texts("#graph-say button"), ["4", "5", "6"])
    cycle = "document.querySelector('#arrange [value=cycle]')"
    STEPS.equal("no cycles for 8 identifiers", page.value(f"{cycle}.disabled"), True)
    STEPS.check("when there are cycles", "2t+2 identifiers" in page.value(f"{cycle}.parentElement.title"))
    for ids, windows in (("4", 24), ("6", 120)):
        page.click(f"#graph-say button[aria-label='{ids} identifiers']")
        page.wait(f"the graph for {ids}", f"document.querySelectorAll('.graph .point').length === {windows}")
        STEPS.equal(f"the identifiers are {ids}", page.value("document.querySelector('#ids').value"), ids)
        STEPS.equal(f"cycles for {ids} identifiers", page.value(f"!{cycle}.disabled"), ids == "4")
        page.value("history.back()")
        page.wait("back to too many windows", "document.querySelector('#graph-say button')")
    for name, ids, offered in (("identity.txt", "200", ["4", "5", "6"]), ("cv2.txt", "16", [])):
        page.open(view="graph", ids=ids, example=name)
        page.wait(f"too many windows of {name}", "/too many/.test(document.querySelector('#graph-say').textContent)")
        STEPS.equal(f"numbers that are offered for {name}", page.texts("#graph-say button"), offered)


# The cells of the matrix, each as its two channels, its count and its class.
MATRIX = """(columns => [...document.querySelectorAll('.matrix tbody tr')].flatMap(row =>
  [...row.querySelectorAll('td')].map((cell, i) =>
    [`${row.querySelector('th').textContent} ${columns[i].textContent}`, cell.textContent, cell.className])
))(document.querySelectorAll('.matrix thead th'))"""


def matrix(page):
    """Which channel touches which, with counts, for graphs of all sizes; what the problem forbids is red."""
    cases = [("LDB", LDB, 5, {}), ("CV1", CV1, 8, {}), ("CV1, near 2", CV1, 6, {"near": "2"})]
    cases += [("LDB, a set", LDB, 8, {"problem": "mis"})]
    wrong = {"problem": lambda a, b: a == b == 1, "near": lambda a, b: abs(a - b) < 2, "": lambda a, b: a == b}
    for name, text, ids, asked in cases:
        page.open(view="graph", ids=str(ids), text=text, **asked)
        page.wait(f"the matrix of {name}", "document.querySelector('.matrix')")
        lines = nbhd(text, "table", "--ids", str(ids)).splitlines()
        channels = dict(line.split(" : ") for line in lines if " : " in line)
        after = lambda window: [str(x) for x in range(ids) if str(x) not in window.split()]
        edges = [(window, " ".join((*window.split()[1:], x))) for window in channels for x in after(window)]
        counts = Counter((int(channels[a]), int(channels[b])) for a, b in edges)
        all_channels = sorted({int(channel) for channel in channels.values()})
        is_wrong = wrong["".join(asked)]
        wanted = [
            [f"{a} {b}", f"{counts[a, b]:,}", "none" if not counts[a, b] else "wrong" if is_wrong(a, b) else ""]
            for a in all_channels
            for b in all_channels
        ]
        STEPS.equal(f"the counts of {name}", page.value(MATRIX), wanted)
    # Of the identity the first channels are shown.
    sizes = {"cv_to_three": (10, 3_628_800), "five_162": (162, 663_526_080), "identity": (100, 24 * 23)}
    for name, (ids, edges) in sizes.items():
        page.open(view="graph", ids=str(ids), example=f"{name}.txt")
        page.wait(f"the matrix of {name}", "document.querySelector('.matrix')")
        counts = [int(count.replace(",", "")) for _, count, _ in page.value(MATRIX)]
        STEPS.equal(f"the edges of {name}", sum(counts), edges)
    said = page.text("#matrix .aside")
    STEPS.check("more channels are named", said.endswith(", for the first 24 of 100 channels."), said)


def links(page):
    """The state is in the address's fragment."""
    page.open(view="judge", ids="8", ring="0,1,2,3", text=LDB)
    page.wait("a link with a text", "document.querySelector('.verdict.no')")
    STEPS.equal("its text", page.value("document.querySelector('#text').value"), LDB)
    text = "# a + b & c = d %41\n" + LDB
    page.fill("#text", text)
    page.wait("the address follows the text", "location.hash.includes('%25')")
    page.browser.open(page.value("location.href"))
    STEPS.equal("the address leads to the text", page.value("document.querySelector('#text').value"), text)
    first_steps = {
        1: (".ring .label", "cv1: Cole and Vishkin"),
        2: (".verdict.no", "ldb: LDB: "),
        3: (".check.bad", "Program of the link"),
        4: (".verdict.yes", "mis_12: A maximal independent set"),
    }
    for example, (shown, name) in first_steps.items():
        page.open(view="run", example="cv1.txt", ids="8", ring="5,1,3,7")
        page.wait("the page", "document.querySelector('.check.good')")
        page.click(f".steps a:nth-of-type({example})")
        page.wait(f"first step {example}", f"document.querySelector('{shown}')")
        STEPS.check(f"first step {example}: its name", page.text("#example-name").startswith(name), page.text("#example-name"))
        if example == 2:
            STEPS.equal("the rule that fails is LDB", page.value("document.querySelector('#text').value"), LDB)
    page.click("#tab-run")
    page.wait("the last one has a ring to run", "document.querySelector('#stage .label')")
    page.fill("#text", CV1 + "\n")
    STEPS.equal("the name of an edited text", page.text("#example-name"), "Own program")


def step_of_link(page):
    """The step of a run is in the address too, but for the last one."""
    current = "[...document.querySelectorAll('#timeline button')].findIndex(e => e.ariaCurrent === 'step')"
    page.open(view="run", ids="16", ring="5,1,3,7,0,2,4", example="cv2.txt", step="3")
    page.wait("a link to a step", f"{current} === 3")
    page.click("#timeline li:nth-child(3) button")
    page.wait("the address follows the step", "location.hash.includes('step=2&')")
    page.fill("#ring", "5,1,3,7,0,2")
    six = "document.querySelectorAll('#stage .label').length === 6"
    page.wait("the step stays after an edit of the ring", f"{six} && {current} === 2")
    page.value("navigator.clipboard.writeText = async (text) => { window.copied = text; }")
    page.click("#copy-link")
    copied = "document.querySelector('#copy-link').textContent === 'Copied: it opens where ./nbhd-page runs'"
    page.wait("the link is copied", copied)
    for width in (420, 1280):
        page.browser.size(width, 900)
        STEPS.check(f"what it says fits at {width}", page.value("document.documentElement.scrollWidth <= innerWidth"))
    page.browser.open(page.value("window.copied"))
    page.wait("the copied link leads to the step", f"{current} === 2")
    STEPS.equal("the copied link leads to the ring", page.texts(".ring .identifier"), list("513702"))
    page.value("location.hash = location.hash.replace('step=2', 'step=1')")
    page.wait("the step follows the address", f"{current} === 1")
    page.click("#timeline li:last-child button")
    page.wait("the address of the last step", "location.hash.includes('step=end&')")
    page.click("#timeline li:first-child button")
    page.wait("the address of the first step", "!location.hash.includes('step=')")
    page.browser.open(page.value("location.href"))
    page.wait("a link without a step opens at the start", f"{current} === 0")
    page.open(view="run", ids="8", ring="5,1,3,7", example="cv1.txt", step="1")
    page.wait("a step of CV1", f"{current} === 1")
    page.click("#examples button:nth-of-type(2)")
    page.wait("the same step of LDB", f"{current} === 1 && document.querySelector('#examples-button').title.startsWith('ldb')")
    take = "[...document.querySelectorAll('#examples button')].find(e => /^{}/.test(e.lastElementChild.textContent)).click()"
    page.value(take.format("cv2"))
    page.wait("the start of a program of two rounds", f"{current} === 0")
    page.click("#timeline li:last-child button")
    page.value(take.format("cv1"))
    page.wait("the end of a program of one round", f"{current} === 3 && document.querySelectorAll('#timeline li').length === 4")
    for step, shown in (("99", 3), ("end", 3), ("x", 0), ("", 0)):
        page.open(view="run", ids="8", ring="5,1,3,7", example="cv1.txt", step=step)
        page.wait(f"a link to step {step!r}", f"{current} === {shown}")


def exercises(page):
    """The links of the exercises lead to programs. Two are refused: one has too few channels, one too many rounds."""
    text = (ROOT / "docs/EXERCISES.md").read_text(encoding="utf-8")
    links = re.findall(r"^\[\d+\]: http://127\.0\.0\.1:8765/(#.*)$", text, re.MULTILINE)
    links += re.findall(r"\(http://127\.0\.0\.1:8765/(#[^)]*)\)", text)
    STEPS.equal("exercises with a link", len(links), len(re.findall(r"^\*\*\d+\.\*\* ", text, re.MULTILINE)))
    for number, fragment in enumerate(links, 1):
        page.browser.open(page.url + fragment)
        page.wait(f"exercise {number}", f"document.querySelector('.check.{'bad' if number in (3, 10) else 'good'}')")
        view = re.search(r"view=(\w+)", fragment)[1]
        STEPS.check(f"exercise {number}: no verdict is shown", view in ("run", "table"))
        STEPS.check(f"exercise {number}: its view", page.value(f"!document.querySelector('#{view}').hidden"))


def examples(page):
    page.open(view="run", ids="8", ring="5,1,3,7", example="cv1.txt")
    files = {"ldb.txt", *(file.name for file in (ROOT / "examples").glob("*.txt"))}
    facts = page.value("[...document.querySelectorAll('#examples .aside')].map(e => e.textContent)")
    options = [file.name for file in (ROOT / "examples").glob("*.txt") if re.search(r"#.* --\w", file.read_text())]
    STEPS.equal("examples that speak of the command line", options, [])
    heads = re.findall(r"^### (\w+)$", (ROOT / "docs/EXERCISES.md").read_text(encoding="utf-8"), re.MULTILINE)
    answers = {f"{name}.txt": f"docs/EXERCISES.html#{name}" for name in heads}
    names = [fact.split(" ")[0] for fact in facts]
    STEPS.equal("the list of examples", (sorted(names), names[:2]), (sorted(files), ["cv1.txt", "ldb.txt"]))
    gallery(page)
    count = len(names)
    for number in range(count):
        page.value(f"document.querySelectorAll('#examples button')[{number}].click()")
        page.wait(f"example {number + 1} is accepted", "document.querySelector('.check.good')")
        name = page.value("document.querySelector('#examples-button').title").split(":")[0]
        STEPS.equal(f"example {number + 1}: its name", name, names[number])
        size = "(t => t.scrollWidth <= t.clientWidth && t.scrollHeight <= t.clientHeight)(document.querySelector('#text'))"
        STEPS.check(f"example {number + 1}: the text area is as large as the coloured copy", page.value(size))
        answer = page.value("document.querySelector('#to-try').hidden ? null : document.querySelector('#answer').getAttribute('href')")
        STEPS.equal(f"example {number + 1}: its answer", answer, answers.get(names[number]))
    page.fill("#text", page.value("document.querySelector('#text').value") + "# of my own\n")
    page.wait("the answer is there while one tries", "document.querySelector('#to-try').checkVisibility()")
    page.fill("#text", LDB)
    page.wait("no answer without a question", "!document.querySelector('#to-try').checkVisibility()")
    fields = "[...document.querySelectorAll('input,select,textarea')]"
    STEPS.equal("fields without a label", page.value(f"{fields}.filter(e => !e.labels?.length && !e.ariaLabel).map(e => e.id)"), [])
    unnamed = "[...document.querySelectorAll('button')].filter(e => !(e.textContent.trim() || e.ariaLabel)).length"
    STEPS.equal("buttons without a name", page.value(unnamed), 0)


def gallery(page):
    """The examples stand under heads of the gallery, where it shows them."""
    _, *parts = re.split(r"^## (.*)\n", (ROOT / "docs/GALLERY.md").read_text(encoding="utf-8"), flags=re.MULTILINE)
    sections = dict(zip(parts[::2], parts[1::2]))
    head = ""
    parts = "[...document.querySelectorAll('#examples > *')]"
    for kind, text in page.value(f"{parts}.map(e => [e.localName, (e.lastElementChild ?? e).textContent])"):
        if kind == "h3":
            head = text
            STEPS.check(f"a head of the gallery: {head}", head in sections)
            continue
        name = text.split(".")[0]
        shown = [other for other, words in sections.items() if f"`{name}`" in words]
        STEPS.check(f"{name} stands under {head}", head in shown if shown else head, shown)


def typing(page):
    """The editor scrolls to the cursor, and wraps long lines."""
    page.open(view="run", ids="8", example="linial_poly.txt")
    page.value("(t => { t.focus(); t.setSelectionRange(t.value.length, t.value.length); })(document.querySelector('#text'))")
    page.browser.type("\n# " + "long " * 60)
    time.sleep(0.3)
    STEPS.check("the editor scrolls", page.value("document.querySelector('#editor').scrollTop > 100"))
    STEPS.check("its lines wrap", page.value("(e => e.scrollWidth <= e.clientWidth)(document.querySelector('#editor'))"))


def long_programs(page):
    """A key in a long program takes little time, and what is in sight has its colours, its numbers and its fault."""
    page.open(view="run", ids="8", example="cv1.txt")
    copied = "document.querySelector('.ink').textContent === document.querySelector('#text').value + '\\n'"
    for name, line, count in (("15,000 short lines", "r0=\n", 15000), ("3,900 lines", "r0 = add(r0, 1)\n", 3900)):
        page.fill("#text", line * count)
        page.wait(f"{name}: a fault", "document.querySelector('.check.bad')")
        for key in ("x", "\n"):
            page.value("document.querySelector('#text').setSelectionRange(3000, 3000)")
            # Also what is drawn after the key counts, and what the page does then is over before the next one.
            time.sleep(1)
            before = page.browser.spent()
            page.browser.type(key)
            page.value("document.querySelector('.ink').offsetHeight")
            spent = page.browser.spent() - before
            STEPS.check(f"{name}: the key {key!r} takes less than 0.3 s of the processor", spent < 300, spent)
        STEPS.check(f"{name}: the copy has the same text", page.value(copied))
        page.value("(e => { e.scrollTop = e.scrollHeight / 2; })(document.querySelector('#editor'))")
        sight = "document.elementsFromPoint(...(r => [r.x + 80, r.y + 100])(document.querySelector('#editor').getBoundingClientRect()))"
        rows = "[...document.querySelectorAll('.row')].filter(e => e.getBoundingClientRect().bottom > 200 && e.querySelector('.register'))"
        page.wait(f"{name}: rows in the middle have colours", f"{rows}.some(e => Number(e.dataset.row) > {count // 3})")
        STEPS.check(f"{name}: few rows are drawn", page.count(".row") < 1000, page.count(".row"))
        STEPS.check(f"{name}: the text area lies over them", page.value(f"{sight}[0].id") == "text")


def restart(page, server):
    """The page says that the server has gone, and goes on when it is back."""
    page.open(view="run", ids="8", ring="5,1,3,7", example="cv1.txt")
    page.wait_ring("the ring before the end", "5,1,3,7")
    STEPS.equal("the server ends", server.end(), 0)
    page.fill("#ring", "5,1,3,7,0")
    page.wait("the server has gone", "!document.querySelector('#gone').hidden")
    server.start()
    page.wait("the server is back", "document.querySelector('#gone').hidden")
    page.wait_ring("the ring after it", "5,1,3,7,0")


VIEWS = [check, faults, typing, long_programs, run, large_rings, strip_of_steps, step_keys, windows_known, equal_channels, drag, edit_ring]
VIEWS += [typed_rings, judge, judge_distances, table, graph, matrix, links, step_of_link, exercises]
VIEWS += [examples]
