"""Problems of forbidden patterns in all views: what they show is compared with what nbhd prints."""

import json
import re
from itertools import product

from patterns import KNOWN, matches, pattern
from patterns import text as text_of
from steps import CV1, LDB, PAIRS, ROOT, STEPS, nbhd, note_of

START = {"ids": "8", "ring": "5,1,3,7"}
# The colour of faults on a light page.
RED = "rgb(179, 38, 30)"
DRAWN = "document.querySelector('.verdict.{}') && document.querySelector('#witness svg')"
SHOWN = "[...document.querySelectorAll('#judge :is(input, textarea)')].filter(e => e.checkVisibility()).map(e => e.id)"
MEANING = "Channels that must not stand in a row, from left to right, as 1,1 or 0,*,0; * is any channel."


def example(name):
    return (ROOT / "examples" / name).read_text(encoding="ascii")


def options(problem, patterns=()):
    """The words by which nbhd is asked for a problem of the state."""
    return [word for it in patterns for word in ("--forbid", it)] if patterns else ["--problem", problem]


def state_of(problem, patterns=()):
    return {"problem": problem, **({"forbid": " ".join(patterns)} if patterns else {})}


def span(it):
    """The places that a pattern names, two or three."""
    return max(2, text_of(it).count(",") + 1)


def broken(words, channels):
    """The places of a ring that match a pattern, each with the first one."""
    patterns = [pattern(word) for word in words]
    found = []
    for place in range(len(channels)):
        row = [int(channels[(place + step) % len(channels)]) for step in range(3)]
        found += [(place, it) for it in patterns if matches(it, row)][:1]
    return found


def red_nodes(words, channels):
    places = broken(words, channels)
    return sorted({(place + step) % len(channels) for place, it in places for step in range(span(it))})


def marked(page, view, name):
    """The places whose nodes have a mark in a view."""
    found = f"[...document.querySelectorAll('{view} .node.{name}')].map(e => Number(e.dataset.place))"
    return sorted(page.value(found))


def problem_choice(page):
    """The choice shows the fields that belong to it, asks nbhd for it, and stays in the address."""
    program = example("local_min.txt")
    page.open(view="judge", **START, example="local_min.txt")
    page.wait("the no of local minima", DRAWN.format("no"))
    listed = page.value("[...document.querySelector('#problem').options].map(e => e.value)")
    STEPS.equal("the choice", listed, ["differ", "distance", *KNOWN, "own"])
    fields = {"distance": ["near", "far"], "own": ["forbid"]}
    words = {"differ": [], "distance": ["--near", "1", "--far", "1"], "own": ["--forbid", "1,1"]}
    for problem in ("distance", *KNOWN, "own", "differ"):
        page.choose("#problem", problem)
        STEPS.equal(f"the fields of {problem}", page.value(SHOWN), fields.get(problem, []))
        if problem == "own":
            page.wait("patterns are wanted", "/^Write patterns/.test(document.querySelector('#verdict').textContent)")
            STEPS.equal("what they are", page.text("#meaning"), MEANING)
            page.fill("#forbid", " 1,1 ")
        asked = nbhd(program, "judge", "--ids", "8", *words.get(problem, options(problem)))
        answer = asked.split(":")[0]
        page.wait(f"the answer to {problem}", DRAWN.format(answer))
        said = "" if problem in words and problem != "own" else " ".join(f"`{it}`" for it in KNOWN.get(problem, ["0,0,0"]))
        if problem in KNOWN:
            STEPS.check(f"the patterns of {problem}", page.text("#meaning").endswith(said.replace("`", "")), page.text("#meaning"))
        named = "!location.hash.includes('problem=')" if problem == "differ" else f"location.hash.includes('problem={problem}')"
        page.wait(f"the address of {problem}", named)
        page.browser.open(page.value("location.href"))
        page.wait(f"the link of {problem}", f"document.querySelector('#problem').value === '{problem}' && {DRAWN.format(answer)}")
    STEPS.equal("no meaning of differing neighbours", page.text("#meaning"), "")


def problem_links(page):
    """Old links with near and far ask for them; a link without a problem has that of its program; one that is not there is named."""
    chosen = "document.querySelector('#problem').value === '{}' && document.querySelector('.verdict.{}')"
    page.open(view="judge", **START, example="identity.txt", near="2", far="1")
    page.wait("an old link", chosen.format("distance", "no"))
    STEPS.equal("its numbers", page.value("['near', 'far'].map(id => document.getElementById(id).value)"), ["2", "1"])
    page.choose("#problem", "differ")
    page.wait("neighbours differ", chosen.format("differ", "yes"))
    page.wait("its address has no numbers", "!/near|far|problem/.test(location.hash)")
    page.choose("#problem", "distance")
    page.wait("the numbers are there again", "location.hash.includes('problem=distance&near=2&far=1')")
    page.open(view="judge", **START, example="cv1.txt", forbid="0,0")
    page.wait("a link with patterns", chosen.format("own", "yes"))
    page.open(view="judge", ids="12", example="greedy3_at_once.txt")
    page.wait("a link to a program that has patterns", chosen.format("own", "no"))
    page.open(view="judge", ids="12", example="mis_12.txt")
    page.wait("a link to a program that names its problem", chosen.format("mis", "yes"))
    page.choose("#problem", "differ")
    page.wait("another choice", chosen.format("differ", "no") + " && location.hash.includes('problem=differ')")
    page.browser.open(page.value("location.href"))
    page.wait("it is kept", chosen.format("differ", "no"))
    page.open(view="judge", **START, example="cv1.txt", problem="nosuch")
    page.wait("an unknown problem", chosen.format("differ", "yes"))
    STEPS.equal("it is named", page.text("#missing"), "There is no problem nosuch: the judge asks for “neighbours differ”.")


def problem_examples(page):
    """An example brings the problem that it names, which goes with it; a problem that was chosen stays beside others."""
    take = "[...document.querySelectorAll('#examples button')].find(e => e.lastElementChild.textContent.startsWith('{} ')).click()"
    chosen = "document.querySelector('#problem').value === '{}' && document.querySelector('#examples-button').title.startsWith('{}')"
    page.open(view="judge", **START, example="cv1.txt")
    page.wait("an example without a problem", "document.querySelector('.verdict.yes')")
    for name, problem in (("mis_7.txt", "mis"), ("cv1.txt", "differ"), ("mis_12.txt", "mis")):
        page.value(take.format(name))
        page.wait(f"{name} with {problem}", chosen.format(problem, name))
    page.value("history.back()")
    page.wait("Back takes the problem back", chosen.format("differ", "cv1.txt"))
    page.choose("#problem", "weak2")
    page.value(take.format("local_min.txt"))
    page.wait("a choice stays", chosen.format("weak2", "local_min.txt"))
    page.value(take.format("mis_7.txt"))
    page.wait("an example with a problem replaces it", chosen.format("mis", "mis_7.txt"))
    page.value(take.format("greedy3_12.txt"))
    page.wait("an example with patterns", chosen.format("own", "greedy3_12.txt") + " && document.querySelector('.verdict.yes')")
    patterns = asked_by(example("greedy3_12.txt"))
    STEPS.equal("its patterns", page.value("document.querySelector('#forbid').value.split(' ')"), patterns)
    page.wait("its address is short", "!/problem|forbid/.test(location.hash)")
    page.fill("#forbid", "1,1")
    page.wait("other patterns", "location.hash.includes('forbid=1,1&')")
    page.value(take.format("cv1.txt"))
    page.wait("they stay", chosen.format("own", "cv1.txt") + " && document.querySelector('#forbid').value === '1,1'")
    facts = page.value("[...document.querySelectorAll('#examples .aside')].map(e => e.textContent)")
    titles = dict(page.value("[...document.querySelector('#problem').options].map(e => [e.value, e.textContent])"))
    for fact in facts:
        name, *_, last = fact.split(" · ")
        folder = "programs" if name == "ldb.txt" else "examples"
        asked = asked_by((ROOT / folder / name).read_text(encoding="ascii"))
        wanted = titles[asked if isinstance(asked, str) else "own"] if asked else ""
        STEPS.check(f"{name} is listed with what it asks", last == wanted if wanted else last.endswith(" identifiers"), fact)


def asked_by(program):
    """The problem that a comment of a program names, or the list of its patterns, as docs/GALLERY.md reads them; else nothing."""
    name = re.search(r"^# Problem: ([a-z0-9]*)", program, re.MULTILINE)
    words = re.search(r"^# Forbid: (.*)", program, re.MULTILINE)
    return name[1] if name else words[1].split() if words else ""


# Programs with a problem, their identifiers, and rings to run. Each ring is that of a no too.
RUNS = [
    ("mis", (), example("mis_7.txt"), "7", ["1,2,3,4,5,6", "0,1,2,3,4,5,6", "6,2,0,4,1,3"]),
    ("mis", (), example("mis_12.txt"), "12", ["3,1,4,0,5,9,2,6", "0,2,4,6,8,10,1,3,5"]),
    ("mis", (), CV1, "8", ["0,1,2,3", "5,1,3,7"]),
    ("matching", (), PAIRS, "8", ["0,1,2,3", "5,1,3,7", "7,0,6,1,5,2"]),
    ("weak2", (), example("weak2.txt"), "8", ["0,2,4,1", "5,1,3,7,0", "6,4,2,0"]),
    ("own", ("1,*,1", "0,0"), LDB, "8", ["0,1,2,3", "5,1,3,7", "0,4,1,5,2"]),
    ("own", ("*,*,2", "9"), CV1, "8", ["0,1,2,3,4", "5,1,3,7"]),
]


def problem_runs(page):
    """Run marks the nodes of each place that matches a pattern, and the sentence says what is wrong at the first one."""
    for problem, patterns, program, ids, rings in RUNS:
        words = list(patterns) or KNOWN[problem]
        for ring in rings:
            name = f"{problem} on {ring}"
            page.open(view="run", ids=ids, ring=ring, text=program, **state_of(problem, patterns))
            page.wait_ring(name, ring)
            channels = nbhd(program, "run", "--ids", ids, "--ring", ring).split()
            STEPS.equal(f"{name}: red nodes", marked(page, "#stage", "broken"), red_nodes(words, channels))
            STEPS.equal(f"{name}: no link is red for equal channels", page.count("#stage .link.equal"), 0)
            strokes = "[...document.querySelectorAll('#stage .broken :is(.disc, .link-line)')].map(e => getComputedStyle(e).stroke)"
            STEPS.check(f"{name}: they are red", set(page.value(strokes)) <= {RED}, page.value(strokes))
            told = page.value("[...document.querySelectorAll('#stage .node')].map(e => e.ariaLabel.includes('in a forbidden pattern'))")
            STEPS.equal(f"{name}: what a reader hears", [place for place, is_red in enumerate(told) if is_red], red_nodes(words, channels))
            count = len(broken(words, channels))
            said = page.text("#run-say")
            others = {0: "", 1: ".", 2: "; another place is wrong too."}.get(count, f"; {count - 1} other places are wrong too.")
            STEPS.check(f"{name}: its sentence", said.endswith(others) and ("On this ring" in said) == (count == 0), said)
    page.focus("#stage")
    page.browser.key("ArrowLeft")
    STEPS.equal("nothing is red before the finish", page.count("#stage .node.broken"), 0)
    page.open(view="run", **START, example="cv1.txt", problem="own", forbid="1,,1")
    page.wait("refused patterns", "/Judge says why/.test(document.querySelector('#run-say').textContent)")
    STEPS.equal("they mark nothing", page.count("#stage .broken, #stage .equal"), 0)


def problem_sentences(page):
    """What the page says of one ring is what the note of nbhd says, for all channels of two or three nodes."""
    finish = "rounds 0 channels 3 registers 1 start r0 = id finish if(eq(r0, 0), {}, if(eq(r0, 1), {}, {}))"
    lists = [("own", ("0,0", "1,2")), ("own", ("0,1,2",)), ("own", ("0,*,1", "2")), ("own", ("1,1,1", "*,2,*"))]
    cases, wanted = [], []
    for problem, patterns in [*((name, ()) for name in KNOWN), *lists]:
        for channels in product("012", repeat=2):
            found = note_after(finish.format(*channels, 0), "2", options(problem, patterns))
            cases.append((state_of(problem, patterns), channels))
            wanted.append(found)
    # On a ring of three nodes the three places are different ones.
    for patterns in ("0,1,2",), ("2,*,1",), ("1,2,0",):
        program = finish.format(0, 1, 2)
        cases.append((state_of("own", patterns), ("0", "1", "2")))
        wanted.append(note_after(program, "3", options("own", patterns)))
    asked = "{ problem, forbid = '', channels }"
    shown = "channels.map(Number), channels.map((_, i) => String(i)), channels"
    bodies = json.dumps([{**state, "channels": channels} for state, channels in cases])
    found = page.call("demand.js", f"{bodies}.map(({asked}) => m.sentenceOn(m.demandOf({{ problem, forbid }}), {shown}))")
    for (state, channels), said, note in zip(cases, found, wanted):
        head = said.split("; another")[0].split(" other places")[0].rstrip(".")
        same = said.startswith("On this ring") if note is None else re.sub(r"; \d+$", "", head) == note
        STEPS.check(f"the sentence on {state} with {' '.join(channels)}", same, f"{said!r} and {note!r}")


def note_after(program, ids, words):
    """What the note on a no says behind the ring, as the beginning of a sentence; `None` without a no."""
    line = nbhd(program, "judge", "--ids", ids, *words)
    if not line.startswith("no: "):
        return None
    sentence = re.sub(r"^on the ring [\d,]+ ", "", first_note(program, ids, words))
    return sentence[0].upper() + sentence[1:]


def first_note(program, ids, words):
    return note_of(program, "judge", "--ids", ids, *words)[1].split(" – ")[0]


NOS = [
    ("mis", (), example("mis_7.txt"), "7"),
    ("mis", (), LDB, "8"),
    ("matching", (), PAIRS, "8"),
    ("weak2", (), example("weak2.txt"), "8"),
    ("own", ("1,*,1", "0,0"), LDB, "8"),
    ("own", ("77,77", "*,*,2"), CV1, "8"),
    ("own", ("0,1,0",), "rounds 0 channels 2 registers 1 start r0 = id finish and(r0, 1)", "8"),
]


def problem_no(page):
    """A no has the ring, the nodes of the pattern, their windows, and the sentence of the note."""
    for problem, patterns, program, ids in NOS:
        name = f"the no of {problem} {' '.join(patterns)}".strip()
        words = options(problem, patterns)
        page.open(view="judge", ids=ids, text=program, **state_of(problem, patterns))
        page.wait(name, DRAWN.format("no"))
        line = nbhd(program, "judge", "--ids", ids, *words)
        ring, places, channels = (found.split() for found in re.fullmatch(r"no: ring (.*) places (.*) channels (.*)\n", line).groups())
        seen = sorted({int(place) for place in places})
        rounds = int(re.search(r"rounds (\d)", program)[1])
        STEPS.equal(f"{name}: its ring", page.texts("#witness .identifier"), ring)
        STEPS.equal(f"{name}: its nodes", marked(page, "#witness", "chosen"), seen)
        STEPS.equal(f"{name}: they are red", marked(page, "#witness", "broken"), seen)
        badges = [channels[places.index(str(place))] for place in seen]
        STEPS.equal(f"{name}: their channels", page.texts("#witness .node.chosen .badge-number"), badges)
        order = list(dict.fromkeys(int(place) for place in places))
        windows = [" ".join(ring[(place + step) % len(ring)] for step in range(-rounds, rounds + 1)) for place in order]
        STEPS.equal(f"{name}: their windows", page.texts(".seen td.code"), windows)
        STEPS.equal(f"{name}: whose they are", page.texts(".seen th"), [f"node {ring[place]}" for place in order])
        STEPS.equal(f"{name}: their lines", page.count("#witness .window-dot"), len(order))
        note = first_note(program, ids, words)
        said = f"{note.replace(','.join(ring), ' '.join(ring), 1)}."
        STEPS.equal(f"{name}: its sentence", page.texts("#verdict p")[1], said[0].upper() + said[1:])
        others = [f"{other[0].upper()}{other[1:]}." for other in note_of(program, "judge", "--ids", ids, *words)[1].split(" – ")[1:]]
        STEPS.equal(f"{name}: its other notes", [text for text in page.texts("#verdict .aside") if "never matches" in text], others)
        STEPS.check(f"{name}: it is not too wide", page.value("document.documentElement.scrollWidth <= innerWidth"))
    page.click("#run-this-ring")
    page.wait_ring("run the ring of a no", ",".join(ring))
    STEPS.check("its nodes are red there too", set(seen) <= set(marked(page, "#stage", "broken")))


def problem_yes(page):
    """A yes says what holds, how many tuples were looked at, and what is known; a pattern that never matches is named."""
    page.open(view="judge", ids="12", example="mis_12.txt")
    page.wait("the yes of mis_12", DRAWN.format("yes"))
    program = example("mis_12.txt")
    tuples = int(nbhd(program, "judge", "--ids", "12", "--problem", "mis").split()[1])
    said = page.texts("#verdict p")
    rings = "On every ring of 8 to 12 distinct identifiers below 12"
    STEPS.equal("what holds", said[1], f"{rings}, the nodes with channel 1 are a maximal independent set.")
    STEPS.equal("its tuples", said[2], f"{tuples:,} tuples were looked at.")
    STEPS.equal("its windows", page.texts("#witness .window text"), ["what x₄ sees", "what x₅ sees", "what x₆ sees"])
    STEPS.equal("its identifiers", page.count("#witness .place"), 9)
    known = "Fewer rounds? For 12 identifiers there is a table of 3 rounds, and none of 2 rounds. What is known"
    STEPS.equal("what is known", page.texts("#verdict .fewer"), [known])
    theorem = "(Chang, Studený and Suomela 2021; not proved here)"
    kind = f"On long rings of n nodes it takes about log* n rounds: a constant number is not enough {theorem}."
    STEPS.equal("its class", page.texts("#verdict .kind"), [kind])
    page.open(view="judge", ids="8", example="greedy3_12.txt", problem="own", forbid="1,1 2,2 0,0")
    page.wait("the yes of a colouring", DRAWN.format("yes"))
    known = "Fewer rounds? For 8 identifiers there is a table of 2 rounds, and none of one round. three_23.txt What is known"
    STEPS.equal("what is known of it", page.texts("#verdict .fewer"), [known])
    linked = page.value("[...document.querySelectorAll('.fewer a')].map(e => e.getAttribute('href'))")
    asked = "#view=judge&ids=8&problem=own&forbid=1,1+2,2+0,0&example=three_23.txt"
    STEPS.equal("its links", linked, [asked, "docs/LEAST.html#what-is-known-of-rounds"])
    page.open(view="judge", **START, example="cv1.txt", problem="own", forbid="99,99 0,0")
    page.wait("a yes to own patterns", DRAWN.format("yes"))
    words = options("own", ("99,99", "0,0"))
    note = note_of(CV1, "judge", "--ids", "8", *words)[1]
    STEPS.equal("a pattern that never matches", page.texts("#verdict p")[3], f"{note[0].upper()}{note[1:]}.")
    STEPS.equal("a short pattern compares two windows", page.count("#witness .window"), 2)
    page.open(view="judge", **START, text="rounds 0 channels 3 registers 1 start r0 = id finish 2", problem="mis")
    page.wait("a yes by another channel", DRAWN.format("yes"))
    said = page.texts("#verdict p")[1]
    STEPS.check("it speaks of no set", said.endswith(", no channels in a row match a forbidden pattern, 0,0,0 1,1."), said)
    STEPS.equal("it says why", page.texts("#verdict .more"), ["The program may have channels above 1, which no pattern names."])
    STEPS.equal("nothing is known of it", page.count("#verdict :is(.fewer, .kind)"), 0)


def problem_sets(page):
    """Members of a set are filled and the others hollow; partners of a matching have a thick link; a colouring has two fills."""
    fills = "[...document.querySelectorAll('{} .disc')].map(e => getComputedStyle(e).fill)"
    a_run = {"view": "run", "ids": "12", "ring": "3,1,4,0,5,9,2,6", "example": "mis_12.txt"}
    a_no = {"view": "judge", "ids": "8", "example": "local_min.txt", "problem": "mis"}
    for view, state in (("#stage", a_run), ("#witness", a_no)):
        page.open(**state)
        page.wait(f"a set in {view}", f"document.querySelectorAll('{view} .node .badge').length > 3")
        channels = page.texts(f"{view} .badge-number")
        sheet = page.value("getComputedStyle(document.querySelector('#ring')).backgroundColor")
        found = page.value(fills.format(view))
        STEPS.equal(f"{view}: which nodes are hollow", [fill == sheet for fill in found], [channel == "0" for channel in channels])
        texts = page.value(f"[...document.querySelectorAll('{view} .identifier')].map(e => getComputedStyle(e).fill)")
        STEPS.check(f"{view}: identifiers are seen", all(fill != letters for fill, letters in zip(found, texts)), texts)
    pairs = "[...document.querySelectorAll('#stage .link')].flatMap((link, place) => link.querySelector('.pair-line') ? [place] : [])"
    for ring in ("0,1,2,3", "7,0,6,1,5,2"):
        page.open(view="run", ids="8", ring=ring, text=PAIRS, problem="matching")
        page.wait_ring(f"a matching on {ring}", ring)
        channels = nbhd(PAIRS, "run", "--ids", "8", "--ring", ring).split()
        partners = [place for place, channel in enumerate(channels) if channel == "1" and channels[(place + 1) % len(channels)] == "2"]
        STEPS.equal(f"its pairs on {ring}", page.value(pairs), partners)
    width = page.value("parseFloat(getComputedStyle(document.querySelector('.pair-line')).strokeWidth)")
    STEPS.check("their links are thick", width >= 6, width)
    page.open(view="run", ids="8", ring="5,1,3,7,0", example="weak2.txt", problem="weak2")
    page.wait_ring("a colouring", "5,1,3,7,0")
    found = dict(zip(page.value(fills.format("#stage")), page.texts("#stage .badge-number")))
    STEPS.equal("two fills", sorted(found.values()), ["0", "1"])


def problem_refused(page):
    """Refused patterns are told in the words of nbhd, which is not asked without any."""
    page.open(view="judge", **START, example="cv1.txt", problem="own")
    page.wait("patterns are wanted", "/^Write patterns/.test(document.querySelector('#verdict').textContent)")
    invalid = "document.querySelector('#forbid').ariaInvalid"
    STEPS.equal("an empty field is not wrong", page.value(invalid), "false")
    page.listen()
    for typed in ("1,,1", "1,1 a", "1,2,3,4", "-h", "--help", "4294967296", "1 1,", " ".join(["1,1"] * 257)):
        page.fill("#forbid", typed)
        note = note_of(CV1, "judge", "--ids", "8", *(f"--forbid={word}" for word in typed.split()))[1].replace("`", "")
        shown = f"document.querySelector('#verdict .refused')?.textContent === {json.dumps(note)}"
        page.wait(f"the refusal of {typed[:20]!r}", shown)
        STEPS.check(f"{typed[:20]!r} is refused", note != "", note)
        # Of too many patterns each is one.
        STEPS.equal(f"{typed[:20]!r}: the field", page.value(invalid), "false" if "1,1 1,1" in typed else "true")
    page.fill("#forbid", "0,0\n1,1\t 2,2  ")
    page.wait("line breaks and blanks", "document.querySelector('#verdict .word')")
    STEPS.equal("the patterns that nbhd was asked", page.asked("judge", "forbid")[-1], ["0,0", "1,1", "2,2"])
    STEPS.equal("the field keeps its text", page.value("document.querySelector('#forbid').value"), "0,0\n1,1\t 2,2  ")
    page.wait("they are in the address", "location.hash.includes('problem=own&forbid=0,0+1,1+2,2')")
    page.listen()
    page.fill("#forbid", " \n")
    page.wait("no patterns again", "/^Write patterns/.test(document.querySelector('#verdict').textContent)")
    page.fill("#forbid", "1,1 " * 2000)
    page.wait("too many characters", "/more than 7000 characters/.test(document.querySelector('#verdict').textContent)")
    STEPS.equal("nbhd is not asked", page.asked("judge", "ids"), [])


def problem_graph(page):
    """The graph marks the paths of windows whose channels match a pattern."""
    weak = example("weak2.txt")
    cases = [("mis", (), LDB, 5), ("own", ("2", "0,1"), CV1, 4), ("weak2", (), weak, 4), ("mis", (), PAIRS, 4)]
    for problem, patterns, program, ids in cases:
        name = f"the graph of {problem} {' '.join(patterns)}"
        page.open(view="graph", ids=str(ids), text=program, **state_of(problem, patterns))
        page.wait(name, "document.querySelectorAll('.graph .point').length")
        words = list(patterns) or KNOWN[problem]
        lines = nbhd(program, "table", "--ids", str(ids)).splitlines()
        channels = {window: int(channel) for window, channel in (line.split(" : ") for line in lines if " : " in line)}
        after = {w: [v for v in channels if v.split()[:-1] == w.split()[1:] and v.split()[-1] not in w.split()] for w in channels}
        paths = [path for w in channels for v in after[w] for path in [(w, v), *((w, v, u) for u in after[v])]]
        rows = {path: [channels[window] for window in path] for path in paths}
        wrong = [path for path in paths if any(span(it) == len(path) and matches(it, rows[path]) for it in map(pattern, words))]
        red = {pair for path in wrong for pair in zip(path, path[1:])}
        STEPS.equal(f"{name}: its red edges", page.count(".graph .edges.close .edge"), len(red))
        listed = [" → ".join(path) for path in sorted(wrong, key=len)]
        STEPS.equal(f"{name}: its paths", sorted(page.texts(".close-edges .code")), sorted(listed[:24]))
        count = {0: "No path of windows has", 1: "1 path of windows has"}.get(len(wrong), f"{len(wrong)} paths of windows have")
        said = page.text("#graph-say")
        STEPS.check(f"{name}: its sentence", said.endswith(f" {count} channels that are forbidden in a row: {' '.join(words)}."), said)
        STEPS.equal(f"{name}: no field for near", page.value("document.querySelector('#graph-near').checkVisibility()"), False)
    page.open(view="judge", ids="4", text=LDB, near="1", far="3")
    page.wait("distance two before the graph", "document.querySelector('#far').checkVisibility()")
    page.choose("#problem", "differ")
    page.click("#tab-graph")
    page.wait("the graph of neighbours that differ", "document.querySelector('#graph-near').value === '1'")
    page.fill("#graph-near", "2")
    page.wait("closer windows", "/differ by less than 2\\.$/.test(document.querySelector('#graph-say').textContent)")
    page.click("#tab-judge")
    asked = "['problem', 'near', 'far'].map(id => document.getElementById(id).value).join()"
    page.wait("the judge is asked the same", f"{asked} === 'distance,2,0'")
    page.open(view="graph", ids="4", text=LDB, problem="own", forbid="1,,1")
    page.wait("refused patterns", "/Judge says why/.test(document.querySelector('#graph-say').textContent)")


PROBLEM_VIEWS = [problem_choice, problem_links, problem_examples, problem_runs, problem_sentences, problem_no, problem_yes]
PROBLEM_VIEWS += [problem_sets, problem_refused, problem_graph]
