"""Calls whose report in JSON is compared with that in lines, each with its words and its input: on programs at random, and of the rows of
other modules; calls with their object, written by hand from docs/LANGUAGE.md; and objects that are wrong."""

import re
from itertools import islice
from random import Random

import damaged
import formulas
import problems
import refutations
import reports
import tables
import trees
import verdicts
from programs import CV1, FOLDER, ID0, LDB

COMMANDS = ["check", "print", "table", "judge", "run", "plan", "trace", "explain"]
ON_PROGRAMS, OF_EACH = 300, 80
# The most identifiers by rounds.
MOST = [40, 16, 7, 8, 10]
EXAMPLES = FOLDER.parent / "examples"
REFUTATION = (EXAMPLES / "least/rounds0_ids3_channels2_near1_far0.lrat").read_bytes()
OF_SETS = (EXAMPLES / "problems/mis_rounds0_ids3_channels2.lrat").read_bytes()
OF_THREE = "refute --ids 3 --rounds 0 --channels 2"
RING = "--ids 8 --ring 5,1,3,7"
BRANCHES = ID0.replace(b"r0 = id", b"r0 = if(id, 1, id)")


def some_ring(numbers, rounds, ids):
    """A ring, one in five of any length with any identifiers."""
    if numbers.random() < 0.2:
        return [numbers.randrange(ids + 1) for _ in range(numbers.randrange(1, ids + 2))]
    return numbers.sample(range(ids), numbers.randrange(2 * rounds + 2, min(ids, 2 * rounds + 7) + 1))


def demand(numbers):
    """The options of a judge: near and far, patterns, a problem, or none."""
    return numbers.choice(
        [
            "",
            f"--near {numbers.randrange(1, 4)} --far {numbers.randrange(3)}",
            problems.options(problems.some_patterns(numbers, 3)),
            f"--problem {numbers.choice([*problems.KNOWN])}",
        ]
    )


def on_program(numbers, text, ids):
    """A call on a program."""
    rounds = int(re.search(r"^rounds (\d)", text, re.M)[1])
    command = numbers.choice(COMMANDS if rounds < 4 else [it for it in COMMANDS if it != "table"])
    ids = numbers.randrange(2 * rounds + 2, min(ids, MOST[rounds]) + 1)
    ring = some_ring(numbers, rounds, ids)
    on_ring = f"--ring {','.join(map(str, ring))}"
    base, workers = f"--base {numbers.randrange(2, 11)}", f"--workers {numbers.choice([1, 2, 4, 64])}"
    options = {
        "table": f"{workers} --near {numbers.randrange(1, 4)} --far {numbers.randrange(3)}",
        "judge": f"{workers} {demand(numbers)}".rstrip(),
        "run": f"{on_ring} --segments {numbers.randrange(1, 8)}",
        "plan": f"{on_ring} {workers}",
        "trace": f"{on_ring} {base}",
        "explain": f"{on_ring} --place {numbers.randrange(len(ring) + 1)} {base}",
    }
    words = [command] if command == "print" else [command, f"--ids {ids}", *options.get(command, "").split()]
    text = text.encode()
    return " ".join(words), numbers.choice(refutations.DAMAGES)(text, numbers) if numbers.random() < 0.2 else text


def on_programs():
    numbers = Random(20261201)
    pool = [*trees.texts(numbers)]
    return [on_program(numbers, *numbers.choice(pool)) for _ in range(ON_PROGRAMS)]


def calls():
    """Calls of all commands, refused ones for each fault too."""
    yield from on_programs()
    for options, _ in formulas.FAULTS:
        yield f"refute {options}", b""
    for text in [*refutations.small_texts(), " " * (refutations.MAX_BYTES + 1)]:
        yield OF_THREE, text.encode("latin-1")
    some = [islice(verdicts.random_tables(), 0, None, 4), problems.audited(), problems.judged(), problems.refuted(), damaged.rows(), trees.rows()]
    of_tables = (row for row in tables.rows() if len(row[1]) < 1 << 20)
    for rows in [reports.refused(), reports.RINGS_REFUSED, of_tables, *(islice(rows, OF_EACH) for rows in some)]:
        yield from ((line, text) for line, text, *_ in rows)


# Calls, and what they print in JSON.
WRITTEN = [
    ("check --ids 8", CV1, r'{"kind":"accepted","ids":8,"rounds":1,"channels":6,"bound":5,"windows":336}'),
    ("print", ID0, r'{"kind":"program","text":"rounds 0\nchannels 2\nregisters 1\nstart\nr0 = id\nfinish r0\n"}'),
    ("judge --ids 8 --workers 2", CV1, r'{"kind":"yes","tuples":1680}'),
    (
        "judge --ids 2 --far 1",
        ID0,
        r'{"kind":"yes","tuples":0,"note":"nbhd: no ring was judged: 2 identifiers are too few for a ring of at least 3 nodes\n"}',
    ),
    (
        "judge --ids 8",
        LDB,
        r'{"kind":"no","near":1,"far":0,"ring":[0,1,2,3],"places":[1,2],"channels":[0,0],"note":"nbhd: on the ring 0,1,2,3 the '
        r'neighbours 1 and 2 (places 1 and 2) have channel 0; their windows are 0 1 2 and 1 2 3\n"}',
    ),
    ("run " + RING, CV1, r'{"kind":"channels","channels":[2,4,3,5]}'),
    (
        f"trace {RING} --base 2",
        CV1,
        r'{"kind":"trace","ring":[5,1,3,7],"start":[[5,1,3,7]],'
        r'"rounds":[{"left":[0,0,0,0],"right":[5,1,3,7],"registers":[[2,4,3,5]]}],"finish":[2,4,3,5]}',
    ),
    (
        "explain --ids 2 --ring 0,1 --place 0 --base 2",
        BRANCHES,
        r'{"kind":"explanation","place":0,"trees":[{"round":0,"gives":"r0","parts":[{"depth":0,"word":"if","value":0,"taken":true},'
        r'{"depth":1,"word":"id","value":0,"taken":true},{"depth":1,"word":"1","value":1,"taken":false},'
        r'{"depth":1,"word":"id","value":0,"taken":true}]},'
        r'{"round":0,"gives":"finish","parts":[{"depth":0,"word":"r0","value":0,"taken":true}]}]}',
    ),
    (f"plan {RING} --workers 2", CV1, r'{"kind":"places","ring":[5,1,3,7],"channels":[2,4,3,5]}'),
    ("apply --ring 02,0,1", tables.NEW_OF_3, r'{"kind":"places","ring":[2,0,1],"channels":[0,9,4095]}'),
    (
        "table --ids 2 --near 3 --far 2",
        ID0,
        r'{"kind":"table","ids":2,"rounds":0,"channels":2,"near":3,"far":2,"entries":[0,1]}',
    ),
    ("migrate", tables.OLD, r'{"kind":"table","ids":2,"rounds":0,"channels":2,"near":1,"far":0,"entries":[0,1]}'),
    (OF_THREE, REFUTATION, r'{"kind":"refuted","ids":3,"rounds":0,"channels":2,"near":1,"far":0}'),
    (
        f"{OF_THREE} --problem mis",
        OF_SETS,
        r'{"kind":"refuted","ids":3,"rounds":0,"channels":2,"forbid":[[0,0,0],[1,1,null]]}',
    ),
    (
        "check --ids 8",
        CV1.replace(b"left", b"lift"),
        r'{"kind":"fault","of":"text","code":"N3","at":57,"line":7,"column":6,"note":"nbhd: line 7, column 6: unknown word `lift`; '
        r'expected `left`; write `left` in the place of `lift`\n  send lift 0\n       ^\n"}',
    ),
    (
        "table --ids 8",
        CV1.replace(b"finish r0", b"finish r1"),
        r'{"kind":"fault","of":"check","code":"C1","register":1,"line":10,"column":8,"note":"nbhd: line 10, column 8: there is no '
        r'register r1; `registers` says how many there are, from r0 to at most r7\n  finish r1\n         ^\n"}',
    ),
    (
        "run --ids 8 --ring 5,1,3,7,5",
        CV1,
        r'{"kind":"fault","of":"ring","code":"G4","places":[0,4],"note":"nbhd: places 0 and 4 have the same identifier 5; '
        r'a ring closes by itself\n"}',
    ),
    (
        f"run {RING} --segments 5",
        CV1,
        r'{"kind":"fault","of":"segments","code":"E1","note":"nbhd: 5 segments are more than the 4 places of the ring\n"}',
    ),
    (
        "refute --ids 40 --rounds 1 --channels 10",
        b"",
        r'{"kind":"fault","of":"formula","code":"V2","note":"nbhd: a formula has at most 16777216 clauses, and a table of this size '
        r'would need more; take fewer identifiers or channels\n"}',
    ),
]


def wrong(value):
    """Values that differ in one place from that of a report: a member or an element left out, exchanged with the next or changed."""
    if isinstance(value, dict):
        yield from ({name: value[name] for name in value if name != left_out} for left_out in value)
        yield from (value | {name: other} for name in value for other in wrong(value[name]))
        yield dict(reversed(value.items()))
    elif isinstance(value, list):
        yield from (value[:place] + value[place + 1 :] for place in range(len(value)))
        yield from (value[:place] + [other] + value[place + 1 :] for place in range(len(value)) for other in wrong(value[place]))
        pairs = [place for place in range(1, len(value)) if value[place - 1] != value[place]]
        yield from (value[: place - 1] + [value[place], value[place - 1]] + value[place + 1 :] for place in pairs)
    elif isinstance(value, str):
        yield re.sub(r"\d?$", lambda digit: str(int(digit[0] or 0) + 1), value, count=1)
    elif isinstance(value, bool):
        yield not value
    else:
        yield (value or 0) + 1
