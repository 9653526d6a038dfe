"""What a class looks at on the page: a no beside its ring, the trace, the editor's lines, and paper."""

from steps import CV1, STEPS
from surfaces import INSIDE, ITEMS, START

RING = START["ring"]
CURRENT = "document.querySelector('#timeline [aria-current=step]')?.textContent"
BOX = "document.querySelector('{}').getBoundingClientRect()"
WHY = "document.querySelector('#why-heading').textContent"


def no_beside_its_ring(page):
    """The ring of a no, its windows and the button to run it are seen together, with what each channel comes from."""
    nos = {
        "LDB": {"ids": "8", "example": "ldb.txt"},
        "a set": {"ids": "12", "example": "mis_minima.txt"},
        "distance two": {"ids": "8", "example": "cv1.txt", "problem": "distance", "far": "1"},
        "eight nodes": {"ids": "12", "example": "greedy3_at_once.txt"},
    }
    for width, height in ((1280, 800), (1366, 768), (1920, 1080)):
        page.browser.size(width, height)
        for name, state in nos.items():
            page.open(view="judge", **state)
            page.wait(f"the no of {name} at {width}", "document.querySelector('.verdict.no ~ * #run-this-ring')")
            for part in ("#run-this-ring", "#witness svg", ".seen"):
                STEPS.check(f"{part} of {name} at {width}", page.value(f"{INSIDE}(document.querySelector('{part}'))"))
            left, right = page.value(f"[{BOX.format('.seen')}.left, {BOX.format('#witness svg')}.right]")
            STEPS.check(f"{name} at {width}: the windows stand beside the ring", left >= right, (left, right))
    page.browser.size(1280, 900)
    # A node of LDB reads its identifier and its left neighbour's.
    page.open(view="judge", **nos["LDB"])
    page.wait("the no of LDB", "document.querySelector('#run-this-ring')")
    reads = ["round 1 r0 reads r0 = 1, L = 0", "round 1 r0 reads r0 = 2, L = 1"]
    STEPS.equal("what its nodes read", page.texts(".seen .reads"), reads)
    page.click(".seen tr:nth-of-type(3) button")
    page.wait("why leads to the run", f"{ITEMS}.length && {WHY} === 'Why? Node 2 at place 2'")
    shown = page.value(f"[{CURRENT}, document.querySelector('#ring').value]")
    STEPS.equal("at its finish", shown, ["finish", "0,1,2,3"])
    page.open(view="judge", ids="8", text="rounds 0 channels 1 registers 1 start r0 = 0 finish r0")
    page.wait("the no of a constant", "document.querySelector('#run-this-ring')")
    STEPS.equal("what it reads", page.texts(".seen .reads"), ["start r0 reads nothing"] * 2)


def trace_pressed(page):
    """A value of the trace that is pressed opens its tree in its step."""
    page.open(**START, step="")
    page.wait("a trace", "document.querySelectorAll('.trace td').length === 20")
    rows = [("start r0", "start"), ("round 1 right", "1 send"), ("round 1 r0", "1 assign"), ("finish", "finish")]
    for row, step in [*rows, ("round 1 left", "1 send")]:
        for place, identifier in enumerate(RING.split(",")):
            line = f"[...document.querySelectorAll('.trace tr')].find(e => e.firstElementChild.textContent === '{row}')"
            page.value(f"{line}.children[{place + 1}].click()")
            node = f"{WHY} === 'Why? Node {identifier} at place {place}'"
            page.wait(f"{row} at {place}", f"{CURRENT} === '{step}' && {node}")
            shown = f"document.activeElement.closest('[role=tree]')?.ariaLabel === '{row}'"
            page.wait(f"the tree of {row} at {place}", shown)


# Whether a line of the editor begins at its top, but for a pixel or two.
LINES = """(box => {
  const { lineHeight, paddingTop } = getComputedStyle(box.querySelector('.ink'));
  const line = parseFloat(lineHeight), over = (box.scrollTop - parseFloat(paddingTop) + line) % line;
  return box.scrollTop === 0 || over < 2 || over > line - 2.5;
})(document.querySelector('#editor'))"""


def whole_lines(page):
    """The editor has a whole line at its top; on a large page comments are folded until one edits."""
    for width, height in ((1280, 800), (1366, 768), (1920, 1080), (390, 844)):
        page.browser.size(width, height)
        for name in ("cv1.txt", "mis_12.txt", "linial_poly.txt"):
            for view, step in (("judge", ""), ("run", "end"), ("run", "2")):
                page.open(view=view, ids="12", ring="5,1,3,7,0,2,9,8,4,6", example=name, step=step)
                page.wait(f"{name} at {width}", "document.querySelector('.verdict .word, #stage .label')")
                seen = page.value("document.querySelector('#editor').scrollTop")
                STEPS.check(f"a whole line of {name} at {width}, {view} {step}", page.value(LINES), seen)
    page.browser.size(1280, 800)
    page.open(**START, large="1", step="")
    page.wait("a large run", "document.querySelector('#stage .label')")
    remarks = "[...document.querySelectorAll('.row.remark')].filter(e => e.checkVisibility()).length"
    STEPS.equal("no comment", (page.value(remarks), page.texts(".row")[0].strip()), (0, "rounds 1"))
    number = CV1.split("\n").index("finish r0")
    page.browser.drag(*[page.middle(f".row[data-row='{number + 1}']")] * 2)
    cursor = page.value("document.querySelector('#text').selectionStart")
    STEPS.equal("the cursor is where the text is pressed", cursor, CV1.index("finish r0"))
    STEPS.equal("all comments then", page.value(remarks), sum(line.startswith("#") for line in CV1.split("\n")))
    page.browser.type("# mine\n")
    typed = page.value("document.querySelector('#text').value")
    STEPS.equal("what is typed there", typed, CV1.replace("finish r0", "# mine\nfinish r0"))
    page.browser.size(1280, 900)


def trace_on_paper(page):
    """On paper the trace of a short ring stands beside it."""
    page.browser.size(718, 1000)
    page.open(**START)
    page.wait_ring("the ring on paper", RING)
    page.browser.call("Emulation.setEmulatedMedia", media="print")
    ring, trace = BOX.format("#stage svg"), BOX.format(".trace table")
    left, right, top, bottom = page.value(f"[{trace}.left, {ring}.right, {trace}.top, {ring}.bottom]")
    STEPS.check("the trace stands beside the ring", left >= right and top < bottom, (left, right, top, bottom))
    page.browser.call("Emulation.setEmulatedMedia", media="")
    page.browser.size(1280, 900)


TEACHING = [no_beside_its_ring, trace_pressed, whole_lines, trace_on_paper]
