"""Programs with one slip each: a token or a line that is left out, doubled or exchanged with the next one, a word with other letters
small, two words without the blank between them. What the advice of a note makes of such a text is the program before the slip, for nearly
all of them; each edit that a note names makes a program, or a text with its first fault on a later line."""

import re
from pathlib import Path

ROOT = Path(__file__).resolve().parent.parent
# Longer programs are left out: they have the same slips once more.
LONGEST = 4000
# How many of a hundred slips are mended, at least.
MENDED = 93
TOKENS = re.compile(r"#[^\n]*|([A-Za-z0-9]+|[^\sA-Za-z0-9#])")
WORD = re.compile("[A-Za-z0-9]+")
# An expression or a number that a note leaves to the reader.
HOLE = "HOLE"
PLACE = re.compile(r"text fault N\d at (\d+)\n")
# What an edit tells one to do, behind the cause and a fact.
TOLD = re.compile(
    r"[^\n]*; (?:leave out `(?P<out>[^\n]*)`"
    r"|write (?:`(?P<put>[^\n]*?)`|an expression|a number)(?: (?:before it|at the end)| in the place of `(?P<old>[^\n]*)`))\n"
)


def programs():
    """The program texts of the folders programs/ and examples/ that are not too long."""
    for folder in ["programs", "examples"]:
        for path in sorted((ROOT / folder).glob("*.txt")):
            text = path.read_text()
            if len(text) <= LONGEST:
                yield text


def tokens_of(text):
    """The tokens of a text, each with its place."""
    return [(found[1], *found.span()) for found in TOKENS.finditer(text) if found[1]]


def capitals(token):
    """A token with capitals where it has none, and without them where it has."""
    return {token.lower(), token.upper(), token.capitalize()} - {token}


def slips_of_tokens(text):
    """Texts with one slip at a token."""
    tokens = tokens_of(text)
    for token, start, end in tokens:
        yield text[:start] + " " + text[end:]
        yield text[:end] + " " + text[start:]
        for other in capitals(token):
            yield text[:start] + other + text[end:]
    for (token, start, end), (other, begin, stop) in zip(tokens, tokens[1:]):
        if token != other:
            yield f"{text[:start]} {other} {text[end:begin]} {token} {text[stop:]}"
        if WORD.fullmatch(token) and WORD.fullmatch(other) and text[end:begin].isspace():
            yield text[:end] + text[begin:]


def slips_of_lines(text):
    """Texts with one slip at a line that has tokens."""
    lines = text.splitlines(keepends=True)
    for number, line in enumerate(lines):
        if not tokens_of(line):
            continue
        before, after = "".join(lines[:number]), "".join(lines[number + 1 :])
        yield before + after
        yield before + 2 * line + after
        following = lines[number + 1] if number + 1 < len(lines) else line
        if following != line and tokens_of(following):
            yield before + following + line + "".join(lines[number + 2 :])


def slips():
    """Texts with one slip each, and the program before it."""
    for text in programs():
        for slip in [*slips_of_tokens(text), *slips_of_lines(text)]:
            yield slip, text


def part_at(text, place, shown):
    """Where the part stands that a note shows, the nearest to a place."""
    pattern = re.compile("(?=(" + re.escape(shown).replace(r"\ ", r"\s") + "))")
    spans = [found.span(1) for found in pattern.finditer(text)]
    return min(spans, key=lambda span: max(span[0] - place, place - span[1], 0), default=None)


def done(text, answer):
    """What the advice of an answer makes of a text, and what follows, None of a long part that is shown by its beginning; None if it
    tells of no edit."""
    _, out, note = answer
    found, told = PLACE.fullmatch(out), TOLD.match(note)
    if not found or not told:
        return None
    place = int(found[1])
    old = told["out"] if told["out"] is not None else told["old"]
    span = (place, place) if old is None else part_at(text, place, old.removesuffix(" .."))
    put = "" if told["out"] is not None else HOLE if told["put"] is None else told["put"].replace("..", HOLE)
    is_long = old is not None and old.endswith(" ..")
    return span and (f"{text[:span[0]]} {put} ", None if is_long else text[span[1] :])


def spelled(text):
    """The tokens of a text, each with a blank behind."""
    return "".join(token + " " for token, *_ in tokens_of(text))


def is_mended(text, front, back, program):
    """Whether both parts have the tokens of a program, where they may leave expressions and numbers to the reader."""
    if back is None:
        return spelled(program).startswith(spelled(front)) and spelled(text).endswith(spelled(program)[len(spelled(front)) :])
    pattern = re.escape(spelled(front + back)).replace(re.escape(HOLE + " "), ".+")
    return re.fullmatch(pattern, spelled(program)) is not None


def filled(text):
    """A text with the numbers in the places that were left to the reader that a note tried there."""
    return re.sub(HOLE, "0", re.sub(rf"\b(rounds|channels|registers)\s+{HOLE}", r"\1 1", text))


def goes_on(text, answer, edited, new_answer):
    """Whether an edited text is a program, or has its first fault on a later line, counted from the end."""
    if new_answer[0] == 0:
        return True
    old, new = (PLACE.fullmatch(it[1]) for it in (answer, new_answer))
    return bool(old and new) and edited.count("\n", int(new[1])) < text.count("\n", int(old[1]))
