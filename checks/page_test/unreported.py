"""A run of nbhd that a signal ends, or that prints no report: the page says so in the place of a refusal."""

import json
from pathlib import Path

from server import Server
from steps import CV1, LDB, PROGRAM, STEPS

UNSTEADY = Path(__file__).resolve().parent / "unsteady"
KILLED = "nbhd was ended by signal 9; memory may have run out"
# What is said of each way to print no report.
WAYS = {
    "dies": KILLED,
    "babbles": "nbhd printed no report",
    "ends": "nbhd printed no report: write failed",
    "starves": "nbhd printed no report: out of memory",
}
# Where the page says so, for each command, and the state in which it asks for it.
PLACES = {
    "check": (".check .line", {"view": "run"}),
    "trace": ("#run-refused", {"view": "run"}),
    "explain": ("#why-trees .refused", {"view": "run", "why": "1"}),
    "judge": ("#verdict .refused", {"view": "judge"}),
    "table": ("#table-refused", {"view": "table"}),
}
START = {"ids": "8", "ring": "5,1,3,7"}


def unreported(page):
    usual = page.url
    server = Server(UNSTEADY, REAL=str(PROGRAM))
    page.url = f"http://{server.own}/"
    try:
        for parts in (in_each_view, of_a_graph, of_a_table_text, of_a_check, of_a_witness, of_a_saved_table):
            STEPS.run(parts, page)
    finally:
        page.url = usual
        STEPS.equal("the server of a program that dies", server.end(), 0)


def said(page, name, place, words):
    """A step that passes when a place has these words."""
    page.wait(name, f"document.querySelector('{place}')?.checkVisibility() && document.querySelector('{place}').textContent === {json.dumps(words)}")


def in_each_view(page):
    for command, (place, state) in PLACES.items():
        for way, words in WAYS.items():
            page.open(**START, **state, text=f"# {command} {way}\n{CV1}")
            said(page, f"{command} {way}", place, words)
    page.fill("#text", CV1)
    page.wait("the table of another run", "document.querySelectorAll('.windows li').length")
    STEPS.equal("nothing is refused then", page.texts("#table-refused"), [])


def of_a_graph(page):
    for way, words in WAYS.items():
        page.open(view="graph", ids="4", text=f"# table {way}\n{CV1}")
        said(page, f"a graph whose table {way}", "#graph-say", words)


def of_a_table_text(page):
    page.open(**START, view="table", text=CV1)
    page.wait("a table to show another one", "document.querySelectorAll('.windows li').length")
    for way, words in WAYS.items():
        page.fill("#table-text", f"# migrate {way}")
        said(page, f"a table text that {way}", "#table-facts", words)


def of_a_check(page):
    """Without a check no view has a result, and no fault is marked."""
    page.open(**START, view="run", text=f"# check dies\n{CV1}")
    said(page, "a check that dies", ".check strong", "Not checked")
    STEPS.equal("no mark", page.count(".ink .fault"), 0)
    not_checked = "The program could not be checked; the reason stands under its text."
    for view, place in (("run", "#run-refused"), ("judge", "#verdict"), ("table", "#table-refused"), ("graph", "#graph-say")):
        page.click(f"#tab-{view}")
        said(page, f"the {view} without a check", place, not_checked)


def of_a_witness(page):
    """A no without the run of its ring is shown without the channels of all nodes."""
    page.open(**START, view="judge", text=f"# trace dies\n{LDB}")
    page.wait("a no without a run", "document.querySelector('.verdict.no') && document.querySelectorAll('#witness .node').length === 4")
    STEPS.equal("it has no channels", page.count("#witness .badge"), 0)


def of_a_saved_table(page):
    page.open(**START, view="table", text=f"# table saves\n{CV1}")
    page.wait("a table to save", "document.querySelectorAll('.windows li').length")
    page.click("#save")
    said(page, "a table that is not saved", "#table-refused", f"The table is not saved: {KILLED}.")
