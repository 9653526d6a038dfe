"""The pages of tools/grade in HTML: one for each program, with its text and the place of a fault in it, or with the ring of a no as a
picture, and an index of them. A page needs no other file."""

import html
import math
import re

# The colours of channels on the page to teach with (page/channels.js).
COLOURS = ["#77aadd", "#ee8866", "#eedd88", "#44bb99", "#ffaabb", "#bbcc33", "#99ddff", "#aaaa00", "#dddddd"]
LAYOUT = """\
<!doctype html>
<html lang="en">
<meta charset="utf-8">
<meta name="viewport" content="width=device-width, initial-scale=1">
<title>{title}</title>
<style>
:root {{ color-scheme: light dark; --fault: light-dark(#b3261e, #ff8f86); --line: light-dark(#e2dfd6, #33373e); }}
body {{ max-width: 900px; margin: 24px auto; padding: 0 16px; font: 16px/1.5 system-ui, sans-serif; overflow-wrap: break-word; }}
pre {{ padding: 10px 14px; border: 1px solid var(--line); font-size: 14px; white-space: pre-wrap; overflow-wrap: anywhere; }}
mark {{ background: #ffb4ab; color: #1e2024; }}
.number {{ opacity: 0.6; user-select: none; }}
svg {{ max-width: 100%; height: auto; }}
svg text {{ font: 15px system-ui, sans-serif; text-anchor: middle; dominant-baseline: central; fill: #1e2024; }}
svg .link {{ fill: none; stroke: currentColor; stroke-width: 1.5; }}
svg .bad {{ stroke: var(--fault); stroke-width: 3; }}
body:has(table) {{ max-width: none; }}
table {{ border-collapse: collapse; }}
th, td {{ padding: 4px 14px 4px 0; text-align: left; vertical-align: top; border-top: 1px solid var(--line); }}
</style>
<h1>{title}</h1>
{body}</html>
"""
NODE, BADGE = 22, 11
WORD = re.compile(rb"[A-Za-z0-9]+|.|$", re.DOTALL)


def printable(data):
    """The bytes of a text: those that are no printable ASCII as nbhd's notes show them."""
    return "".join(chr(byte) if 32 <= byte < 127 or byte == 9 else f"\\x{byte:02x}" for byte in data)


def listing(text, line, column):
    """The lines of a text with their numbers, and the word at a place marked, if one is given."""
    shown = []
    for number, data in enumerate(text.replace(b"\r\n", b"\n").split(b"\n"), 1):
        said = html.escape(printable(data))
        if number == line:
            start, end = WORD.match(data, column - 1).span() if column <= len(data) else (len(data), len(data))
            before, word, after = (html.escape(printable(part)) for part in (data[:start], data[start:end], data[end:]))
            said = f"{before}<mark>{word or '&nbsp;'}</mark>{after}"
        shown.append(f'<span class="number">{number:3}</span>  {said}\n')
    return f"<pre>{''.join(shown)}</pre>\n"


def point(turn, radius):
    """The point of a circle, clockwise from the top."""
    return f"{radius * math.sin(2 * math.pi * turn):.1f} {-radius * math.cos(2 * math.pi * turn):.1f}"


def node(turn, radius, identifier, channel, is_bad):
    """A node with its identifier, and its channel beside it towards the centre."""
    colour = COLOURS[channel % len(COLOURS)]
    wide = max(BADGE, 5 * len(str(channel)) + 4)
    disc = f'<circle r="{NODE}" class="{"bad" if is_bad else "disc"}" fill="{colour}"/>'
    badge = f'<rect x="{-wide}" y="{-BADGE}" width="{2 * wide}" height="{2 * BADGE}" rx="{BADGE}" fill="{colour}"/>'
    return (
        f'<g transform="translate({point(turn, radius)})">{disc}<text>{identifier}</text></g>'
        f'<g transform="translate({point(turn, radius - NODE - 20)})">{badge}<text>{channel}</text></g>'
    )


def picture(ring, channels, places):
    """The ring with its channels as SVG; the right neighbour of a node is the next one clockwise. The places are those of a no."""
    count = len(ring)
    radius = max(100, count * 100 / (2 * math.pi))
    side, off = radius + NODE + 10, (NODE + 6) / radius / (2 * math.pi)
    parts = ['<defs><marker id="head" orient="auto" refX="6" refY="4" markerWidth="8" markerHeight="8" '
             'markerUnits="userSpaceOnUse">'
             '<path d="M0 0L8 4L0 8Z" fill="context-stroke"/></marker></defs>']
    for place in range(count):
        is_bad = any({place, (place + 1) % count} == {*pair} for pair in zip(places, places[1:]))
        start, end = point(place / count + off, radius), point((place + 1) / count - off, radius)
        kind = "link bad" if is_bad else "link"
        parts.append(f'<path class="{kind}" marker-end="url(#head)" d="M{start}A{radius:.1f} {radius:.1f} 0 0 1 {end}"/>')
    parts += [node(place / count, radius, ring[place], channels[place], place in places) for place in range(count)]
    said = f"The ring {' '.join(map(str, ring))} with the channels {' '.join(map(str, channels))}"
    box = f"{-side:.0f} {-side:.0f} {2 * side:.0f} {2 * side:.0f}"
    return f'<svg viewBox="{box}" width="{2 * side:.0f}" height="{2 * side:.0f}" role="img" aria-label="{said}">{"".join(parts)}</svg>\n'


def page(row, asked):
    """The page of a program, without a word on the others."""
    body = f"<p>{html.escape(row.sentence(asked))}</p>\n"
    if row.cause:
        body += f"<p>{html.escape(row.cause)}</p>\n"
    if row.ring_channels:
        body += picture(row.ring, row.ring_channels, row.places)
    if row.text:
        body += listing(row.text, row.line, row.column)
    return LAYOUT.format(title=html.escape(row.name), body=body)


def index(head, rows, names):
    """The index of the pages, with what stands in the table of tools/grade."""
    lines = ["<tr>" + "".join(f"<th>{html.escape(it.replace('_', ' '))}</th>" for it in head) + "</tr>"]
    for cells, name in zip(rows, names):
        first, *others = (html.escape(str(it)) for it in cells)
        lines.append(f'<tr><td><a href="{name}">{first}</a></td>' + "".join(f"<td>{it}</td>" for it in others) + "</tr>")
    return LAYOUT.format(title="Grades", body="<table>\n" + "\n".join(lines) + "\n</table>\n")


def page_names(names):
    """A name for the page of each file: that of the file without its ending, of letters, digits, - and _, and each once."""
    taken, found = {"index"}, []
    for name in names:
        stem = re.sub(r"[^A-Za-z0-9_-]+", "_", name.removesuffix(".txt"))[:100]
        number = 1
        while (own := stem if number == 1 else f"{stem}_{number}").lower() in taken:
            number += 1
        taken.add(own.lower())
        found.append(f"{own}.html")
    return found
