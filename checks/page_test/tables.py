"""A table in place of the program, in all views: kept, pasted and of a file."""

import json
from collections import Counter

from problem_views import DRAWN, KNOWN, marked, red_nodes
from steps import CV1, LDB, ROOT, STEPS, nbhd

SHOWN = "document.querySelector('#table-facts').textContent.startsWith('{}')"


def kept(name):
    return (ROOT / "examples" / name).read_text(encoding="ascii")


def entries_of(text):
    return [line.split(" : ") for line in text.splitlines() if " : " in line]


def kept_tables(page):
    """A kept table is chosen by its name, which is in the link, and all views show it."""
    files = [file for folder in ("least", "problems") for file in sorted((ROOT / "examples" / folder).glob("*.table"))]
    names = [f"{file.parent.name}/{file.name}" for file in files]
    page.open(view="run", ids="8", ring="5,1,3,0", example="cv1.txt")
    page.wait_ring("a program", "5,1,3,0")
    listed = page.value("[...document.querySelectorAll('#table-choice option')].map(e => e.value)")
    STEPS.equal("the kept tables", listed, ["", "own", *names])
    name = "least/rounds1_ids6_channels8_near2_far1.table"
    page.choose("#table-choice", name)
    page.wait("what it is", SHOWN.format("Rounds 1, identifiers 6, channels 8, windows 120, near 2, far 1."))
    page.wait("it is in the link", f"location.hash.includes('&table={name}')")
    page.browser.open(page.value("location.href"))
    page.wait("the link leads to it", SHOWN.format("Rounds 1"))
    text = kept(name)
    STEPS.equal("its text", page.value("document.querySelector('#table-text').value"), text)
    STEPS.equal("no editor beside it", page.texts("#editor, #check, #ids"), [])
    page.wait_ring("its ring", "5,1,3,0")
    channels = [line.split()[2] for line in nbhd(text, "apply", "--ring", "5,1,3,0").splitlines()]
    STEPS.equal("its channels", page.texts("#stage .badge-number"), channels)
    said = "The table gives each node its channel. On this ring neighbours’ channels differ."
    STEPS.equal("its sentence", page.text("#run-say"), said)
    STEPS.equal("no steps", page.texts("#timeline button, .trace td, .hint"), [])
    page.focus(".node[data-place='1']")
    page.browser.key("Enter")
    STEPS.equal("no tree", page.texts("#why"), [])
    page.fill("#ring", "5,1,3")
    refused = "document.querySelector('#run-refused').textContent"
    page.wait("a ring that is too short", f"{refused}.startsWith('ring fault G1')")
    page.click("#tab-judge")
    page.wait("its verdict", DRAWN.format("yes"))
    rings = "On every ring of 5 to 6 distinct identifiers below 6, neighbours’ channels differ by at least 2, "
    rings += "and those at distance two differ."
    tuples = nbhd(text, "audit").split()[1]
    STEPS.equal("what it says", page.texts("#verdict p")[1:3], [rings, f"{int(tuples):,} tuples were looked at."])
    page.click("#tab-table")
    page.wait("its histogram", "document.querySelector('.histogram li')")
    counts = Counter(int(channel) for _, channel in entries_of(text))
    STEPS.equal("its counts", page.texts(".histogram .count"), [str(counts[channel]) for channel in sorted(counts)])
    windows = zip(page.texts(".windows .code"), page.texts(".windows text"))
    STEPS.equal("its windows", [[window.strip(), channel] for window, channel in windows], entries_of(text))
    page.click("#tab-graph")
    points = "document.querySelectorAll('.graph .point').length"
    page.wait("its graph", f"{points} === 120 && document.querySelector('.matrix')")
    STEPS.equal("no edge is red", page.count(".graph .close .edge"), 0)
    page.choose("#table-choice", "")
    good = "document.querySelector('.check.good')?.checkVisibility()"
    page.wait("the program again", f"{good} && !location.hash.includes('table=')")
    page.open(view="run", ids="8", ring="5,1,3,0", table="least/none.table")
    page.wait("no such table", SHOWN.format("There is no kept table least/none.table."))


def problem_tables(page):
    """A kept table of a problem is asked it; on a ring and in the graph it looks as the problem does."""
    page.open(view="judge", ids="8", ring="3,0,6,2,1,5,4", example="cv1.txt")
    page.wait("a verdict on a program", DRAWN.format("yes"))
    for name, problem, verdict in (
        ("problems/mis_rounds2_ids7_channels2.table", "mis", "yes"),
        ("problems/0-0_1-1_2-2_0-2-0_1-2-1_2-1-2_rounds1_ids4_channels3.table", "own", "yes"),
        ("least/rounds1_ids6_channels3_near1_far0.table", "differ", "yes"),
    ):
        page.choose("#table-choice", name)
        chosen = f"document.querySelector('#problem').value === '{problem}'"
        page.wait(f"the problem of {name}", f"{chosen} && {DRAWN.format(verdict)}")
    ring, name = "3,0,6,2,1,5,4", "problems/mis_rounds2_ids7_channels2.table"
    text = kept(name)
    channels = [line.split()[2] for line in nbhd(text, "apply", "--ring", ring).splitlines()]
    page.open(view="run", ring=ring, table=name, problem="mis")
    page.wait_ring("its ring", ring)
    hollow = [place for place, channel in enumerate(channels) if channel == "0"]
    STEPS.equal("its hollow nodes", marked(page, "#stage", "outside"), hollow)
    STEPS.equal("nothing is red", page.count("#stage :is(.equal, .broken)"), 0)
    page.open(view="run", ring=ring, table=name, problem="own", forbid="0,*,0")
    page.wait_ring("its ring by patterns", ring)
    STEPS.equal("its red nodes", marked(page, "#stage", "broken"), red_nodes(["0,*,0"], channels))
    page.open(view="judge", ring=ring, table=name, problem="matching")
    page.wait("another problem", DRAWN.format("no"))
    words = [word for it in KNOWN["matching"] for word in ("--forbid", it)]
    found = nbhd(text, "audit", *words).split(" places ")[0].removeprefix("no: ring ").split()
    STEPS.equal("the ring of its no", page.texts("#witness .identifier"), found)
    all_channels = [line.split()[2] for line in nbhd(text, "apply", "--ring", ",".join(found)).splitlines()]
    STEPS.equal("its channels", page.texts("#witness .badge-number"), all_channels)
    STEPS.equal("no tree of a table", page.texts(".seen button, .seen code"), [])


def pasted_tables(page):
    """A pasted table is judged, also one of 2 MB; each refusal is shown."""
    page.open(view="judge", ids="8", ring="5,1,3,7", example="cv1.txt")
    page.wait("a verdict on a program", DRAWN.format("yes"))
    page.click("#table-source summary")
    page.fill("#table-text", nbhd(LDB, "table", "--ids", "6"))
    page.wait("a bad table", DRAWN.format("no"))
    ring = nbhd(LDB, "judge", "--ids", "6").split(" place")[0].removeprefix("no: ring ").split()
    STEPS.equal("its ring", page.texts("#witness .identifier"), ring)
    page.click("#run-this-ring")
    page.wait_ring("its ring in the run", ",".join(ring))
    link = page.value("location.hash")
    STEPS.check("a pasted table is in no link", "table=" not in link, link)
    page.click("#tab-table")
    wide = CV1.replace("channels 10", "channels 12")
    long = nbhd(wide, "table", "--ids", "55")
    STEPS.check("nearly 2 MB", 1_700_000 < len(long) < 2_000_000, len(long))
    page.fill("#table-text", long)
    page.wait("a table of 2 MB", "document.querySelector('#table-say').textContent.startsWith('157,410 windows')")
    page.click("#tab-judge")
    tuples = "/8,185,320 tuples/.test(document.querySelector('#verdict').textContent)"
    page.wait("its verdict", f"{DRAWN.format('yes')} && {tuples}")
    for name, text, words in (
        ("a program", CV1, "table fault A1"),
        ("a table that is cut", long[:40], "table fault A"),
        ("a table that is too long", long + " " * 300_000, "A table has at most 2 MB here; nbhd audit takes more."),
        ("nothing", "", "Paste the text of a table, or take one that is kept."),
    ):
        page.fill("#table-text", text)
        page.wait(f"what is said of {name}", SHOWN.format(words))
        refused = "There is no table to show; the reason stands below its text."
        page.wait(f"the judge of {name}", f"document.querySelector('#verdict').textContent === {json.dumps(refused)}")
    five = json.dumps(nbhd(CV1, "table", "--ids", "5"))
    page.value(f"window.chosen = new DataTransfer(), chosen.items.add(new File([{five}], 'five.table')), 0")
    choose = "(e => { e.files = chosen.files; e.dispatchEvent(new Event('change')); })"
    page.value(f"{choose}(document.querySelector('#table-file'))")
    page.wait("the table of a file", SHOWN.format("Rounds 1, identifiers 5, channels 10, windows 60."))


TABLES = [kept_tables, problem_tables, pasted_tables]
