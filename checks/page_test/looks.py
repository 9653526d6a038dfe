"""The look of the views: widths, light and dark, texts that overlap, contrast; and screenshots."""

import re
import time
from pathlib import Path

from steps import CV1, LDB, PAIRS, ROOT, STEPS

# Pairs of visible texts of a drawing that overlap. Rotated texts are left out: their rectangles are larger than they are.
OVERLAPS = """(() => {
  const drawn = [...document.querySelectorAll('.stage svg text')].filter(t => t.checkVisibility() && t.textContent);
  const texts = drawn.filter(t => !/rotate/.test(t.getAttribute('transform') || ''));
  const boxes = texts.map(t => [t.textContent, t.getBoundingClientRect()]);
  const pairs = boxes.flatMap((a, i) => boxes.slice(i + 1).map(b => [a, b]));
  return pairs.filter(([[, a], [, b]]) => {
    const width = Math.min(a.right, b.right) - Math.max(a.left, b.left);
    return width > 1.5 && Math.min(a.bottom, b.bottom) - Math.max(a.top, b.top) > 4;
  }).map(([a, b]) => a[0] + '/' + b[0]);
})()"""
EIGHT = (
    "rounds 3 channels 4096 registers 8\nstart\n"
    + "".join(f"r{i} = {'id' if i < 4 else 'not(id)'}\n" for i in range(8))
    + 3 * ("round\nsend left r4\nsend right r7\n" + "".join(f"r{i} = {'add(r0, L)' if i == 3 else f'r{i}'}\n" for i in range(8)))
    + "finish min(r0, 4095)\n"
)
RING = "5,1,3,7"
LOOKS = {
    "run": {"view": "run", "ids": "8", "ring": RING, "example": "cv1.txt"},
    "run-short": {"view": "run", "ids": "8", "ring": RING, "text": (ROOT / "programs/cv1.txt").read_text(encoding="ascii")},
    "run-send": {"view": "run", "ids": "8", "ring": "6,2,7,4,1", "example": "cv1.txt", "step": "1"},
    "run-64": {"view": "run", "ids": "102", "ring": ",".join(str((7 + 37 * i) % 101) for i in range(64)), "example": "linial_poly.txt"},
    "run-eight": {"view": "run", "ids": "10", "ring": "5,1,3,7,0,2,9,8,4,6", "text": EIGHT, "step": "3"},
    "run-300": {"view": "run", "ids": "1024", "ring": ",".join(str(i * 5 % 1024) for i in range(300)), "example": "identity.txt"},
    "judge-no": {"view": "judge", "ids": "8", "ring": RING, "text": LDB},
    "judge-far": {"view": "judge", "ids": "8", "ring": RING, "example": "cv1.txt", "far": "1"},
    "judge-yes": {"view": "judge", "ids": "8", "ring": RING, "example": "cv1.txt"},
    "judge-set": {"view": "judge", "ids": "12", "ring": RING, "example": "mis_12.txt"},
    "judge-set-no": {"view": "judge", "ids": "7", "ring": RING, "example": "mis_7.txt"},
    "judge-matching-no": {"view": "judge", "ids": "8", "ring": RING, "text": PAIRS, "problem": "matching"},
    "judge-own": {"view": "judge", "ids": "8", "ring": RING, "example": "cv1.txt", "problem": "own", "forbid": "1,1 0,*,0"},
    "run-set": {"view": "run", "ids": "12", "ring": "3,1,4,0,5,9,2,6,10,8,7,11", "example": "mis_12.txt"},
    "run-set-no": {"view": "run", "ids": "7", "ring": "1,2,3,4,5,6", "example": "mis_7.txt"},
    "run-matching": {"view": "run", "ids": "8", "ring": "7,0,6,1,5,2", "text": PAIRS, "problem": "matching"},
    "graph-set": {"view": "graph", "ids": "5", "ring": RING, "text": LDB, "problem": "mis"},
    "table": {"view": "table", "ids": "8", "ring": RING, "example": "cv1.txt", "prefix": "1"},
    "graph": {"view": "graph", "ids": "5", "ring": RING, "text": LDB},
    "graph-120": {"view": "graph", "ids": "6", "ring": RING, "example": "cv1.txt"},
    "graph-cycle": {"view": "graph", "ids": "4", "ring": RING, "text": LDB, "arrange": "cycle"},
    "fault": {"view": "run", "ids": "8", "ring": RING, "text": CV1.replace(", 1), bit", ", 1) bit")},
}

# What a class looks at, on a projector and on phones.
TWELVE = "5,1,11,3,7,0,9,2,10,4,8,6"
LESSON = {
    f"{view} of {name}": {"view": view, "ids": ids, "ring": ring, **more}
    for name, ids, ring, more in (
        ("cv1", "8", RING, {"example": "cv1.txt"}),
        ("ldb", "8", RING, {"example": "ldb.txt"}),
        ("mis_7", "7", "1,2,3,4,5,6", {"example": "mis_7.txt", "problem": "mis"}),
        ("cv1 on twelve", "12", TWELVE, {"example": "cv1.txt"}),
    )
    for view in ("run", "judge", "table")
} | {
    "graph of cv1": {"view": "graph", "ids": "6", "ring": RING, "example": "cv1.txt"},
    "graph of ldb": {"view": "graph", "ids": "4", "ring": RING, "example": "ldb.txt"},
    "own patterns": LOOKS["judge-own"],
}
# Items with a part that leaves them, and text fields in which less than a short ring can be read.
LEFT = """[...document.querySelectorAll('.windows li, .histogram li, .close-edges li, .timeline li, .seen td, .player')].filter(item => {
  const room = item.getBoundingClientRect();
  const parts = [...item.querySelectorAll(':not(option)')].filter(part => part.checkVisibility());
  return item.checkVisibility() && parts.some(part => {
    const box = part.getBoundingClientRect();
    return box.left < room.left - 1 || box.right > room.right + 1 || box.top < room.top - 1 || box.bottom > room.bottom + 1;
  });
}).map(item => item.textContent)"""
NARROW = """[...document.querySelectorAll('input[type=text], textarea')].filter(e => e.checkVisibility() && e.clientWidth < 120).map(e => e.id)"""
# What is to be in the window where the page is large, and what is not: the text, or else the class of each.
DRAWN = "#run :is(.node, .player, .say), #witness :is(.node, .window, circle), #reading *, #drawing .point"
OUTSIDE = f"""[...document.querySelectorAll('{DRAWN}')].filter(e => e.checkVisibility()).filter(e => {{
  const box = e.getBoundingClientRect();
  return box.left < 0 || box.top < 0 || box.right > innerWidth || box.bottom > innerHeight;
}}).map(e => e.textContent || e.getAttribute('class'))"""


def lesson(page):
    """On a projector with large numbers, and on a phone: all that a class is to see is in the window, and nothing leaves its item."""
    for width, height in ((1280, 800), (1366, 768), (1920, 1080), (390, 844)):
        page.browser.size(width, height)
        large = {"large": "1"} if width > 390 else {}
        for name, state in LESSON.items():
            show(page, {**state, **large})
            label = f"{name} at {width}"
            STEPS.check(f"{label}: it fits the width", page.value("document.documentElement.scrollWidth <= innerWidth"))
            STEPS.equal(f"{label}: items with a part that leaves them", page.value(LEFT), [])
            STEPS.equal(f"{label}: narrow fields", page.value(NARROW), [])
            STEPS.equal(f"{label}: texts that overlap", page.value(OVERLAPS), [])
            if large:
                STEPS.equal(f"{label}: what is outside the window", page.value(OUTSIDE), [])
    page.browser.size(1280, 900)


def show(page, look):
    """Opens a look and waits until it is drawn."""
    state = dict(look)
    step = state.pop("step", None)
    page.open(**state)
    page.browser.until("document.querySelector('.stage svg, .windows li')")
    page.browser.until("!document.querySelector('.pending')")
    if step:
        page.click(f"#timeline li:nth-child({int(step) + 1}) button")
    time.sleep(0.15)


def looks(page, folder):
    """Each look at two widths, light and dark; with a folder, a screenshot of each."""
    for width in (1280, 800):
        for mode in ("light", "dark"):
            page.browser.size(width, 900, mode == "dark")
            for name in LOOKS:
                show(page, LOOKS[name])
                label = f"{name} at {width}, {mode}"
                STEPS.check(f"{label}: it fits the width", page.value("document.documentElement.scrollWidth <= innerWidth"))
                STEPS.equal(f"{label}: texts that overlap", page.value(OVERLAPS), [])
                if folder:
                    page.browser.shot(Path(folder) / f"{name}-{width}-{mode}.png", whole=True)


def pictures(page):
    """Draws the screenshots of the documents."""
    page.browser.size(1200, 924, scale=0.75)
    for picture, name in (("page_run.png", "run-short"), ("page_judge.png", "judge-no")):
        show(page, LOOKS[name])
        page.browser.shot(ROOT / "docs/pictures" / picture)


def luminance(colour):
    parts = [int(colour[i : i + 2], 16) / 255 for i in (1, 3, 5)]
    red, green, blue = (part / 12.92 if part <= 0.04045 else ((part + 0.055) / 1.055) ** 2.4 for part in parts)
    return 0.2126 * red + 0.7152 * green + 0.0722 * blue


def contrast():
    """Each colour of texts on each ground has the contrast that WCAG 2 asks for, light and dark."""
    style = (ROOT / "page/style.css").read_text(encoding="utf-8")
    pairs = re.findall(r"--([\w-]+): light-dark\((#\w{6}), (#\w{6})\)", style)
    colours = {name: (luminance(light), luminance(dark)) for name, light, dark in pairs}
    grounds = {"ink": ("paper", "sheet", "wash", "accent-wash", "fault-wash")}
    for text in ("ink", "soft", "accent", "fault", "good"):
        for ground in grounds.get(text, ("paper", "sheet", "wash")):
            for mode in range(2):
                dark, light = sorted((colours[text][mode], colours[ground][mode]))
                ratio = (light + 0.05) / (dark + 0.05)
                STEPS.check(f"the contrast of {text} on {ground}", ratio >= 4.5, ratio)
