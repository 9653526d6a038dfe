"""Words of the command line: help texts, words that are refused, and words that are the same command. The texts of help (usage.txt),
of refusals and of advice are the program's own output, read by a person; the exit statuses follow from the rules. Words that are the same
command compare the program with itself."""

from pathlib import Path

from programs import CV1, cv1_of

# Words, and the whole text that they print: a help text, or that `clap` refuses them.
USAGE = [part.split("\n", 1) for part in Path(__file__).with_name("usage.txt").read_text().split("$ nbhd ")[1:]]

# The commands, each of which has three ways to ask for its help.
COMMANDS = "check print table judge run trace explain plan audit apply migrate formula refute".split()

# Other words that ask for help.
HELP_WORDS = [
    "--help", "-h", "help", "help run", "help audit", "help apply", "help migrate", "help print", "help trace", "help explain",
    "run --help", "run -h", "audit --help", "print --help", "trace -h", "run --ids 8 --help", "check --ids 8 -h",
]

# Words that are no command. An empty line has no words, and a blank two empty ones.
NO_COMMANDS = [
    # no command
    "", " ", "walk --ids 8", "RUN --ids 8 --ring 5,1,3,7", "chek --ids 8", "--ids 8", "8", "nbhd run --ids 8 --ring 5,1,3,7", "--version",
    "-V", "help strange",
    # a missing option
    "check", "table", "judge", "run", "trace", "explain", "plan", "apply", "run --ids 8", "trace --ids 8", "explain --ids 8 --ring 5,1,3,7",
    "explain --ids 8 --place 0", "explain --ids 8 --ring 5,1,3,7 --place", "trace --ids 8 --ring 5,1,3,7 --base", "check --ids 8 --format",
    "plan --ring 5,1,3,7", "apply --ring", "check --ids", "run --ids --ring 5,1,3,7", "run --ids 8 --ring", "table --ids 8 --workers",
    "run --ids 8 --ring 5,1,3,7 --segments",
    # a stray word
    "check 8", "check --ids 8 8", "audit 8", "audit audit", "migrate audit", "print 8", "run --ids 8 5,1,3,7", "trace --ids 8 5,1,3,7",
    "check --idz 8", "check -ids 8", "table --ids 8 --worker 1",
    # an option of another command
    "check --ids 8 --workers 2", "check --ids 8 --ring 5,1,3,7", "table --ids 8 --ring 5,1,3,7", "judge --ids 8 --segments 1",
    "run --ids 8 --ring 5,1,3,7 --workers 1", "plan --ids 8 --ring 5 --segments 1", "trace --ids 8 --ring 5 --segments 1",
    "trace --ids 8 --ring 5 --workers 1", "trace --ids 8 --ring 5 --far 0", "trace --ids 8 --ring 5 --place 0",
    "explain --ids 8 --ring 5 --place 0 --segments 1", "run --ids 8 --ring 5 --base 2", "plan --ids 8 --ring 5 --place 0", "audit --ids 8",
    "audit --workers 1", "apply --ids 8 --ring 5,1,3,7", "apply --ring 5,1,3,7 --workers 2", "apply --ring 5,1,3,7 --near 2",
    "apply --ring 5,1,3,7 --segments 1", "apply --ring 5,1,3,7 --ring 5,1,3,7", "apply 5,1,3,7", "audit --ring 5,1,3,7", "migrate --ids 8",
    "migrate --near 1", "print --ids 8",
    # an option given twice
    "check --ids 8 --ids 8", "run --ring 5,1 --ring 5,1 --ids 8", "table --ids 8 --workers 1 --workers 1",
    "run --ids 8 --ring 5,1,3,7 --segments 1 --segments=1", "explain --ids 8 --ring 5 --place 0 --place 0",
    "trace --ids 8 --ring 5 --base 2 --base 2", "print --format json --format json",
    # forms of a report that there are not
    "check --ids 8 --format xml", "print --format JSON", "print --format=", "print --format json,lines",
    # numbers out of their range
    "explain --ids 8 --ring 5,1,3,7 --place 4294967296", "explain --ids 8 --ring 5,1,3,7 --place -1",
    "explain --ids 8 --ring 5,1,3,7 --place 0 --base 1", "explain --ids 8 --ring 5,1,3,7 --place 0 --base 11",
    "trace --ids 8 --ring 5,1,3,7 --base 1", "trace --ids 8 --ring 5,1,3,7 --base 11", "trace --ids 8 --ring 5,1,3,7 --base two",
    "run --ids 4294967296 --ring 0", "check --ids 4294967296", "check --ids=-1", "check --ids -8", "check --ids eight", "check --ids=",
    "check --ids ", "table --ids 8 --workers 0", "table --ids 8 --workers 65", "judge --ids 8 --workers 0", "judge --ids 8 --workers 65",
    "judge --ids 8 --near 0", "judge --ids 8 --near 4097", "judge --ids 8 --far 4097", "table --ids 8 --near 0",
    "table --ids 8 --near 4097", "table --ids 8 --far 4097", "plan --ids 8 --ring 5 --near 1",
    # patterns and problems
    "judge --ids 8 --forbid", "judge --ids 8 --forbid 1 1", "judge --ids 8 --forbid -1,1", "judge --forbid 1,1", "judge --ids 8 --problem",
    "judge --ids 8 --problem mis --problem mis", "judge --ids 8 mis", "audit --problem mis --problem matching", "audit --near 1",
    "check --ids 8 --forbid 1,1", "table --ids 8 --problem mis", "migrate --forbid 1,1", "run --ids 8 --ring 5,1,3,7 --problem mis",
    "judge --ids 8 --near 1 --near 1", "judge --ids 8 --far -1", "plan --ids 8 --ring 5 --workers 0", "plan --ids 8 --ring 5 --workers 65",
    "run --ids 8 --ring 5 --segments 0", "run --ids 8 --ring 5 --segments 65", "run --ids 8 --ring 5 --segments 4294967297",
    "table --ids 8 --workers x",
    # the options of a formula
    *(
        f"{command} {options}".strip()
        for command in ["formula", "refute"]
        for options in [
            "", "--ids 8", "--ids 8 --rounds 1", "--ids 8 --channels 3", "--rounds 1 --channels 3", "--ids 8 --rounds 1 --channels",
            "--ids 8 --rounds 5 --channels 3", "--ids 8 --rounds -1 --channels 3", "--ids 8 --rounds 1 --channels 0",
            "--ids 8 --rounds 1 --channels 4097", "--ids 4294967296 --rounds 1 --channels 3", "--ids 8 --rounds 1 --channels 3 --near 0",
            "--ids 8 --rounds 1 --channels 3 --near 4097", "--ids 8 --rounds 1 --channels 3 --far 4097", "--ids 8 --rounds 1 --channels 3 --far -1",
            "--ids 8 --rounds 1 --rounds 1 --channels 3", "--ids 8 --rounds 1 --channels 3 --channels 3",
            "--ids 8 --rounds 1 --channels 3 --workers 1", "--ids 8 --rounds 1 --channels 3 --ring 5,1,3,7", "--ids 8 --rounds 1 --channels 3 3",
            "--ids 8 --rounds one --channels 3", "--ids 8 --rounds 1 --channels 3 --format dimacs",
        ]
    ),
    *(f"formula --ids 8 --rounds 1 --channels 3 --format {name}" for name in ["lines", "json"]),
    "judge --ids 8 --rounds 1", "table --ids 8 --channels 3",
    # these faults come before a bad ring or a bad pattern
    "judge --ids eight --forbid 5,,1", "judge --ids 8 --far 4097 --problem none", "run --ids eight --ring 5,,1",
    "run --ids 8 --ring 5,,1 --segments 0", "run --ids 8 --ring 5,,1 --format xml", "judge --ids 8 --problem none --format xml",
    "run --ring 5,,1",
]

# Words whose ring text is none.
BAD_RINGS = [
    "run --ids 8 --ring 5,,1", "plan --ring 5,,1 --ids 8", "run --ids 8 --ring=", "run --ids 8 --ring=-5", "trace --ids 8 --ring 5,",
    "explain --ids 8 --ring 5, --place 0", "plan --ids 8 --ring 5,a", "apply --ring 5,,1", "apply --ring=", "apply --ring 5,1,3,7,",
    *(["run", "--ids", "8", f"--ring={text}"] for text in ["5,,1", "4294967296", ",", "5,", ",5", "5, 1", "+5", "0x5", "5;1"]),
]

# Texts that are no pattern, and what is wrong with them.
MANY_ENTRIES, NO_ENTRY, BLANK = "it has more than three entries", "an entry is empty", "it has a blank"
NO_CHANNEL, LARGE_CHANNEL = "an entry is neither a number nor `*`", "a channel is above 4294967295"
BAD_PATTERNS = [
    *((text, MANY_ENTRIES) for text in ["0,0,0,0", "*,*,*,*", ",,,", "a,b,c,d", "1,2,3,"]),
    *((text, NO_ENTRY) for text in ["", ",", "1,", ",1", "1,,1", "0,0,", "1,,a"]),
    *((text, BLANK) for text in [" ", "1, 1", " 1", "1 ", "1 1", "* ", "0,1 ,a", "1, *"]),
    *((text, NO_CHANNEL) for text in ["a", "mis", "1,a", "+1", "1,-1", "**", "1*", "*1", "0x1", "1.0", "1;1", "?", "_", "a,4294967296"]),
    *((text, LARGE_CHANNEL) for text in ["4294967296", "0,4294967296", "1,00004294967296", "9" * 40, "4294967296,a"]),
]

# Words whose options are no demand, and the standard error.
PATTERN_END = "; a pattern is one to three channels, or `*` for any, with single commas, as 1,1 or '0,*,0'\n"
TWO_DEMANDS = (
    "nbhd: options that exclude one another\nnbhd: patterns by `--forbid`, a problem by `--problem`, or differences by `--near` and"
    " `--far`: one of these three is given\n"
)
UNKNOWN_PROBLEM = (
    "nbhd: unknown problem\nnbhd: `--problem` takes mis, matching or weak2; another problem is given by its patterns, as in"
    " `--forbid 1,1`\n"
)
MANY_PATTERNS = "nbhd: too many patterns\nnbhd: `--forbid` is given at most 256 times\n"
FORMULA, REFUTE = "formula --ids 4 --rounds 0 --channels 2", "refute --ids 4 --rounds 0 --channels 2"


def bad_pattern(text, cause, mended=None):
    """The standard error on a text that is no pattern, with the words to write."""
    written = f"nbhd: write `nbhd {mended}`\n" if mended else ""
    return f"nbhd: bad pattern\nnbhd: `{text}` is no pattern: {cause}{PATTERN_END}{written}"


# The texts of these that were probably meant to be patterns, as they are written.
MEANT = {
    **{text: "1,1" for text in ["1,,1", "1, 1", "1 1", "1;1"]},
    **{text: "1" for text in ["1,", ",1", " 1", "1 ", "+1"]},
    **{"1,2,3,": "1,2,3", "0,0,": "0,0", "* ": "'*'", "1, *": "'1,*'"},
}


def mended_judge(text):
    """What is to be written in place of a judgement by a text that is no pattern, if it is known."""
    return f"judge --ids 8 --forbid {MEANT[text]}" if text in MEANT else None



BAD_DEMANDS = [
    *((["judge", "--ids", "8", f"--forbid={text}"], bad_pattern(text, cause, mended_judge(text))) for text, cause in BAD_PATTERNS),
    (["judge", "--ids", "8", "--forbid=-1"], bad_pattern("-1", NO_CHANNEL) + "nbhd: numbers are written in digits, without a sign\n"),
    # the first value that is no pattern counts
    (["judge", "--ids", "8", "--forbid", "1,1", "--forbid", "1,,1", "--forbid", "a"], bad_pattern("1,,1", NO_ENTRY)),
    (["judge", "--ids", "8", "--forbid", "a", "--forbid=1,,1"], bad_pattern("a", NO_CHANNEL)),
    *((f"{line} --forbid 1,,1", bad_pattern("1,,1", NO_ENTRY, f"{line} --forbid 1,1")) for line in ["audit", FORMULA, REFUTE]),
    (["judge", "--ids", "8", "--forbid", "1,\x1b[31m1"], bad_pattern("1,\\x1b[31m1", NO_CHANNEL)),
    *(
        (f"{line} --problem {name}", UNKNOWN_PROBLEM)
        for line in ["judge --ids 8", "audit", FORMULA, REFUTE]
        for name in ["none", "mi", "mis,matching", "weak", "1,1"]
    ),
    ("audit --problem MIS", UNKNOWN_PROBLEM + "nbhd: write `nbhd audit --problem mis`\n"),
    (["judge", "--ids", "8", "--problem", ""], UNKNOWN_PROBLEM + "nbhd: a word is empty, as of a variable without a value\n"),
    *(
        (f"judge --ids 8 {line}", TWO_DEMANDS)
        for line in [
            "--forbid 1,1 --problem mis",
            "--problem mis --forbid 1,1",
            "--forbid 1,1 --near 1",
            "--forbid 1,1 --far 0",
            "--near 2 --far 1 --forbid 1,1",
            "--problem mis --near 1",
            "--problem mis --far 1",
            "--problem mis --forbid 1,1 --near 1",
        ]
    ),
    ("audit --forbid 1,1 --problem weak2", TWO_DEMANDS),
    *((f"{line} --problem mis --near 1", TWO_DEMANDS) for line in [FORMULA, REFUTE]),
    # two demands come before an unknown problem and bad patterns, and too many patterns before bad ones
    ("judge --ids 8 --forbid 1,,1 --problem none", TWO_DEMANDS),
    ("judge --ids 8 --forbid 1,,1 --near 1", TWO_DEMANDS),
    *((f"{line}{' --forbid 1,1' * 257}", MANY_PATTERNS) for line in ["judge --ids 8", "audit"]),
    (f"judge --ids 8{' --forbid 1,,1' * 257}", MANY_PATTERNS),
    (f"judge --ids 8{' --forbid 1,1' * 255} --forbid 1,,1", bad_pattern("1,,1", NO_ENTRY)),
]

# What there is to know of refused words, or `-`, and below it such words, with those that are to be written if they are known. Each row
# was read by a person.
ADVICE = r"""\
-
  run --ids 8 --ring 5 1 3 7 => run --ids 8 --ring 5,1,3,7
  run --ids 8 --ring 5, 1, 3, 7 => run --ids 8 --ring 5,1,3,7
  run -ring 5,1,3,7 --ids 8 => run --ring 5,1,3,7 --ids 8
  judge —ids 8 => judge --ids 8
  judge –ids 8 => judge --ids 8
  judge --IDS 8 => judge --ids 8
  judge --ids --near =>
  judge --ids=8, => judge --ids 8
  judge --near=2,1 --ids 8 => judge --near 2 --far 1 --ids 8
  judge --ids= 8 => judge --ids 8
  judge --ids =8 => judge --ids 8
  judge --ids = 8 => judge --ids 8
  judge --ids 8 --near =2,1 => judge --ids 8 --near 2 --far 1
  judge --ids 8 --forbid 1 1 => judge --ids 8 --forbid 1,1
  judge --ids 8 -problem mis => judge --ids 8 --problem mis
  judge --Near=2 --ids 8 => judge --near 2 --ids 8
  print --FORMAT json => print --format json
  print format json => print --format json
  RUN --ids 8 --ring 5,1,3,7 => run --ids 8 --ring 5,1,3,7
  check 8 => check --ids 8
  judge ids=8 => judge --ids 8
  judge -- ids 8 => judge --ids 8
  judge --ids 8 # mine.txt =>
  judge --ids 8 \ =>
  table --ids 8 [--workers 4] => table --ids 8 --workers 4
  --judge --ids 8 => judge --ids 8
  audit --strict =>
  chek --ids 8 =>
  table --ids 8 --worker 1 => table --ids 8 --workers 1
numbers are written in digits, without a sign
  check --ids -8 => check --ids 8
  run --ids 8 --ring -1,2,3,4 =>
a text is read from standard input
  judge --ids 8 programs/cv1.txt => judge --ids 8 < programs/cv1.txt
  judge cv1.txt --ids 8 => judge --ids 8 < cv1.txt
  judge --file=cv1.txt =>
`--ids` takes a number in digits
  run --ids 5,1,3,7 =>
  judge --ids 1.5 =>
  judge --ids eight =>
  judge --ids=eight =>
`--workers` takes a number in digits, from 1 to 64
  table --ids=8 --workers=all =>
  table --ids 8 --workers all =>
`--near` takes a number in digits, from 1 to 4096
  judge --ids 8 --near none =>
`--place` takes a number in digits
  explain --ids 8 --ring 5,1,3,7 --place first =>
`--base` takes a number in digits, from 2 to 10
  trace --ids 8 --ring 5,1,3,7 --base two =>
`--rounds` takes a number in digits, from 0 to 4
  formula --ids 8 --rounds one --channels 3 =>
`--channels` takes a number in digits, from 1 to 4096
  refute --ids 8 --rounds 1 --channels three =>
the number of identifiers is given by `--ids`
  judge --n 8 => judge --ids 8
  judge --identifiers 8 => judge --ids 8
  judge --nodes=8 => judge --ids 8
`--far` takes a number in digits, from 0 to 4096
  judge --ids 8 --far 1.5 =>
`--segments` takes a number in digits, from 1 to 64
  run --ids 8 --ring 5,1,3,7 --segments two =>
`nbhd formula` reads no file
  formula --ids 3 --rounds 0 --channels 2 out.cnf => formula --ids 3 --rounds 0 --channels 2
the number of threads is given by `--workers`, of `table`, `judge` and `plan`
  judge --ids 8 -w 4 => judge --ids 8 --workers 4
  judge --ids 8 -j 4 => judge --ids 8 --workers 4
  judge --ids 8 --threads 4 => judge --ids 8 --workers 4
a run has a thread for each segment
  run --ids 8 --ring 5,1,3,7 -j 4 => run --ids 8 --ring 5,1,3,7 --segments 4
  run --ids 8 --ring 5,1,3,7 --workers 4 => run --ids 8 --ring 5,1,3,7 --segments 4
numbers are printed in another base by `--base`
  trace --ids 8 --ring 5,1,3,7 --bits => trace --ids 8 --ring 5,1,3,7 --base 2
  trace --ids 8 --ring 5,1,3,7 --binary => trace --ids 8 --ring 5,1,3,7 --base 2
the node that is explained is given by its place in the ring, as in `--place 0`
  explain --ids 8 --ring 5,1,3,7 --node 0 =>
the node that is explained is given by its place in the ring
  explain --ids 8 --ring 5,1,3,7 --pos 0 => explain --ids 8 --ring 5,1,3,7 --place 0
  explain --ids 8 --ring 5,1,3,7 --position 0 => explain --ids 8 --ring 5,1,3,7 --place 0
the first line of `nbhd --help` has the version
  -V =>
  --version =>
a report is on the standard output, a note on the standard error; there is no option for more or less
  judge --ids 8 -v => judge --ids 8
  judge --ids 8 -q => judge --ids 8
the answer is on the standard output
  table --ids 8 -o out => table --ids 8 > out
  table --ids 8 --output out => table --ids 8 > out
  formula --ids 3 --rounds 0 --channels 2 out => formula --ids 3 --rounds 0 --channels 2 > FILE
a report is in JSON by `--format json`
  judge --ids 8 --json => judge --ids 8 --format json
  judge --ids 8 --fmt =>
`nbhd formula` prints DIMACS, which solvers read, and has no other form
  formula --ids 4 --rounds 0 --channels 2 --format json => formula --ids 4 --rounds 0 --channels 2
  formula --ids 4 --rounds 0 --channels 2 --format=lines => formula --ids 4 --rounds 0 --channels 2
`--workers` is an option of `table`, `judge` and `plan`
  check --ids 8 --workers 2 =>
  audit --workers 4 =>
`--near` is an option of `table`, `judge`, `formula` and `refute`
  run --ids 8 --ring 5,1,3,7 --near 2 =>
`--ring` is an option of `run`, `trace`, `explain`, `plan` and `apply`
  judge --ids 8 --ring 5,1,3,7 =>
  audit --ring 5,1,3,7 =>
a program says its rounds and channels; those of a formula are given by `--rounds` and `--channels`
  judge --ids 8 --rounds 1 => judge --ids 8
the numbers of a table are in its text
  audit --ids 8 => audit
  apply --ids 8 --ring 5,1,3,7 => apply --ring 5,1,3,7
`--forbid` is an option of `judge`, `audit`, `formula` and `refute`
  check --ids 8 --forbid 1,1 =>
  migrate --forbid 1,1 =>
`--problem` is an option of `judge`, `audit`, `formula` and `refute`
  run --ids 8 --ring 5,1,3,7 --problem mis =>
  print --problem mis =>
a table does not say what its channels have to be but for near and far; `nbhd audit --problem mis` judges it
  table --ids 8 --forbid 1,1 => table --ids 8
  table --ids 8 --problem mis => table --ids 8
a problem is given by its name, as in `--problem mis`, or by its patterns, as in `--forbid 1,1`
  judge --ids 8 --mis => judge --ids 8 --problem mis
  judge --ids 8 mis => judge --ids 8 --problem mis
  judge --ids 8 --matching => judge --ids 8 --problem matching
`nbhd check` tells whether a program is accepted for M identifiers
  print --ids 8 => print
`nbhd run` runs a program on a ring, and `nbhd trace` prints each round
  simulate --ids 8 =>
  exec --ids 8 =>
`nbhd judge` judges a program on every ring, and `nbhd audit` a table
  verify --ids 8 => judge --ids 8
  validate --ids 8 => judge --ids 8
`nbhd --help` tells of the program, and `nbhd run --help` of a command
  man =>
  info =>
`nbhd table` prints the table of a program
  compile --ids 8 => table --ids 8
`nbhd formula` prints a formula for a solver
  solve --ids 8 =>
the name of the program stands twice
  nbhd run --ids 8 --ring 5,1,3,7 => run --ids 8 --ring 5,1,3,7
the name of a command comes first, as in `nbhd check --ids 8`
  --ids 8 =>
  8 =>
a ring is given by `--ring`
  run --ids 8 5,1,3,7 => run --ids 8 --ring 5,1,3,7
  apply 5,1,3,7 => apply --ring 5,1,3,7
each number is the value of an option, as in `--ids 8`
  migrate 2 => migrate
  print 8 => print
a pattern of channels is given by `--forbid`
  judge --ids 8 1,1 => judge --ids 8 --forbid 1,1
  audit 1,1 => audit --forbid 1,1
  audit --pattern 1,1 => audit --forbid 1,1
  audit --forbidden 1,1 => audit --forbid 1,1
  judge --ids 8 --forbid 1,1 0,0,0 => judge --ids 8 --forbid 1,1 --forbid 0,0,0
a word is empty, as of a variable without a value
  check --ids 8  => check --ids 8
one command is given at a time
  audit migrate => audit
`<` and `>` are read by the shell, outside of quotes
  judge --ids 8 < mine => judge --ids 8 < mine
  judge --ids 8 > out.txt => judge --ids 8 > out.txt
`|`, `;` and `&` are read by the shell, outside of quotes
  judge --ids 8 | less => judge --ids 8
  judge --ids 8 || less => judge --ids 8
  judge --ids 8 ; less => judge --ids 8
`nbhd migrate` writes the newest version only
  migrate --to 1 => migrate
  migrate --version 2 => migrate
the number of threads is given by `--workers`
  table --ids 8 --segments 2 => table --ids 8 --workers 2
  judge --ids 8 --segments 2 => judge --ids 8 --workers 2
`--segments` is an option of `run`
  check --ids 8 --segments 2 =>
"""


def advice():
    """The words of each row of `ADVICE`, and the last line of the standard error."""
    fact = ""
    for row in ADVICE.splitlines():
        if not row.startswith("  "):
            fact = row.removeprefix("-")
            continue
        line, _, mended = row[2:].partition(" =>")
        parts = [fact] * bool(fact) + [f"write `nbhd{mended}`"] * bool(mended)
        yield line.split(" "), f"nbhd: {'; '.join(parts)}\n" if parts else "For more information, try '--help'.\n"


# Words with bytes that are not printable, and the standard error.
CARRIAGE = "nbhd: a word ends with a carriage return: save the script with line feeds alone\n"
ESCAPED = [
    (
        ["check", "--ids", "8\r"],
        "error: invalid value '8\\x0d' for '--ids <M>': invalid digit found in string\n\n"
        f"For more information, try '--help'.\nnbhd: write `nbhd check --ids 8`\n{CARRIAGE}",
    ),
    (
        ["run", "--ids", "8", "--ring", "5,1,3,7\r"],
        "nbhd: bad ring\nnbhd: part 4 of the ring text, `7\\x0d`, is not a number from 0 to 4294967295"
        f"; a ring is numbers with single commas, as 5,1,3,7\nnbhd: write `nbhd run --ids 8 --ring 5,1,3,7`\n{CARRIAGE}",
    ),
    (
        ["run", "--ids", "8", "--ring", "5,\x1b[31m1"],
        "nbhd: bad ring\nnbhd: part 2 of the ring text, `\\x1b[31m1`, is not a number from 0 to 4294967295"
        "; a ring is numbers with single commas, as 5,1,3,7\n",
    ),
    (
        ["\x1b[31m"],
        "error: unrecognized subcommand '\\x1b[31m'\n\nUsage: nbhd <COMMAND>\n\nFor more information, try '--help'.\n",
    ),
]

# Words of the command line, and the words that the note has (tests/notes.py). The input is `CV1`.
NOTED = [
    ("run --ids 8 --ring 5,1,3", ("at least 4", "4 or more", "4 places", "four", "4 identifiers")),
    ("explain --ids 8 --ring 5,1,3,7 --place 4", ("0 to 3", "below 4", "from 0", "at most 3", "last place", "place 3")),
    ("run --ids 8 --ring 5,1,3,7 --segments 5", ("at most 4", "4 places", "1 to 4", "--segments 4")),
    ("check -ids 8", "--ids"),
    ("check --id 8", "--ids"),
    (["run", "--ids", "8", "--ring", "5, 1, 3, 7"], ("blank", "space", "5,1,3,7")),
    (["run", "--ids", "8", "--ring", "5 1 3 7"], ("comma", "5,1,3,7")),
    ("run --ids 8 --ring 5-1-3-7", ("comma", "5,1,3,7")),
    ("trace --ids 8 --ring 5,1,3,7 --base 16", ("2 to 10", "at most 10", "to 10", "2..=10")),
    ("check --ids 8 --ids 8", ("twice", "once", "multiple times", "again")),
    ("check --ids 8 -o out.txt", ("> out.txt", ">out.txt", "standard output")),
    ("check --ids 8 --workers 2", ("table", "judge", "plan", "not take", "takes", "no option")),
    ("check --ids 8 -", "standard input"),
    (["check", "--ids", ""], ("empty", "digit", "number", "integer", "whole")),
    ("run --ids 8 --ring 5,1,3,7 --place 1", "explain"),
    ("table --ids 8 -j 4", "--workers"),
    ("check", "--ids"),
    ("simulate --ids 8 --ring 5,1,3,7", ("`run`", "nbhd run", "'run'")),
    ("format", ("`print`", "'print'", "nbhd print")),
    ("convert", ("`migrate`", "'migrate'", "nbhd migrate", "migrate", "table", "print")),
    ("judge --ids 8 --near two", ("digit", "number", "integer", "whole")),
    ("check --ids 8 -v", ("--help", "verbose", "trace", "no option")),
    ("check --ids 8k", ("digit", "number", "integer", "whole")),
    ("check --ids 8\r", "carriage return"),
    ("check --ids -8", ("negative", "minus", "at least", "1024", "1,024", "digit", "number", "integer", "whole")),
    ("check --ids", ("value", "digit", "number", "integer", "whole")),
    ("table --ids 8 --workers 4k", ("digit", "number", "integer", "whole")),
    ("trace --ids 8 --ring 5,1,3,7 --bits 3", "--base"),
    ("explain --ids 8 --ring 5,1,3,7 --node 1", "--place"),
    ("explain --ids 8 --ring 5,1,3,7 --pos 1", "--place"),
    ("-V", ("--help", "changelog", "no version", "help")),
    ("verify --ids 8", ("`judge`", "'judge'", "nbhd judge", "`check`", "'check'", "nbhd check", "judge")),
    ("man", ("--help", "release/manual")),
    ("compile --ids 8", ("`table`", "'table'", "nbhd table")),
    ("solve --ids 8", "formula"),
    ("jugde --ids 8", ("`judge`", "'judge'", "nbhd judge")),
    ("cv1.txt", ("< cv1.txt", "<cv1.txt", "standard input")),
    ("print --ids 8", ("not take", "takes", "no option", "check", "without")),
    ("audit --near 2", ("second line", "judge", "not take", "takes", "text")),
    ("check check --ids 8", ("twice", "one command", "second", "once", "again")),
    ("", "command"),
    ("run --ids 8 --ring 0,1,2,3,4,5,6,7,8", "8"),
    ("run --ids 8 --ring 5,1,3,8", "7"),
    ("run --ids 8 --ring 5,1,3,5", "same"),
    ("check --ids 8 --near 2", "judge"),
    ("judge --ids 8 --segments 2", "write `nbhd judge --ids 8 --workers 2`"),
    ("judge --ids 8 --near2", "--near"),
    ("explain --ids 8 --ring 5,1,3,7 --place 1,2", "place"),
    ("trace --ids 8 --ring 5,1,3,7 --base hex", "10"),
    ("run --ids 8 --ring 5,1,3,7 --base 2", "trace"),
    ("execute --ids 8", "run"),
    ("show --ids 8", "print"),
    ("formula --ids 8 --rounds 1 --channels 3 cv1.txt", "reads"),
    ("check --ids 8 < cv1.txt", "shell"),
    ("./nbhd judge --ids 8", "twice"),
    ("trace --ids 8 --ring 5,1,3,7 2", "each number is the value of an option"),
    ("explain --ids 8 --ring 5,1,3,7 --place 1 --round 1", "print every round"),
    ("table [OPTIONS] --ids 8", "write `nbhd table --ids 8`"),
    ("judge --ids 8 | mine.txt", "read by the shell, outside of quotes"),
    ("migrate --to 1", "write `nbhd migrate`"),
]

# Words of which `clap` says that they are like others, which is not shown.
UNLIKE = ["man", "simulate --ids 8", "simulat", "check --bits --ids 8"]

# Ring texts, the number of the first part that is none, and this part.
PARTS = [("5, 1", 2, " 1"), ("", 1, ""), ("5,1,3,7,", 5, ""), ("4294967296", 1, "4294967296")]

# Inputs, and words that have one answer.
SAME_COMMANDS = [
    (CV1, ["check --ids 8", "check --format lines --ids 8", "check --ids 8 --format=lines"]),
    (CV1, ["print", "print --format lines"]),
    (cv1_of(12), ["check --ids 64", "check --ids=64", "check --ids +64"]),
    (CV1, ["check --ids 0", "check --ids=-0"]),
    (CV1, ["check --ids 4294967295", "check --ids 0004294967295"]),
    *(
        (CV1, [f"{command} {options}" for options in same])
        for command in ["table", "judge"]
        for same in [
            ["--ids 8", "--ids 8 --workers 1", "--workers 64 --ids 8", "--workers=02 --ids 008", "--ids +8 --workers +3"],
            ["--ids 8 --near 2 --far 1", "--far 1 --near 2 --ids 8"],
            ["--ids 8 --near 4096 --far 4096", "--far 4096 --ids 8 --near 4096"],
            ["--ids 8 --near 3", "--far=00 --near=+3 --ids=8"],
        ]
    ),
    (
        CV1,
        [
            "run --ids 8 --ring 5,1,3,7",
            "run --ring 5,1,3,7 --ids 8",
            "run --ring=5,1,3,7 --segments=1 --ids=8",
            "run --segments 003 --ids 0008 --ring 05,01,3,7",
            "run --ids 8 --segments 4 --ring 005,1,3,7",
        ],
    ),
    (CV1, ["trace --ids 8 --ring 5,1,3,7", "trace --ring=05,01,3,7 --ids=+8", "trace --base 10 --ids 8 --ring 5,1,3,7"]),
    (CV1, ["trace --ids 8 --ring 5,1,3,7 --base 2", "trace --base=02 --ring=05,01,3,7 --ids=+8"]),
    (
        CV1,
        [
            "explain --ids 8 --ring 5,1,3,7 --place 3",
            "explain --place=03 --ring=05,01,3,7 --ids=+8",
            "explain --base 10 --place +3 --ids 8 --ring 5,1,3,7",
        ],
    ),
    (CV1, ["plan --ids 8 --ring 5,1,3,7", "plan --ring 5,1,3,7 --ids 8", "plan --workers 64 --ring 5,1,3,7 --ids 8"]),
    (b"", ["formula --ids 5 --rounds 1 --channels 3", "formula --channels=03 --rounds=+1 --ids 005 --far=00 --near 1"]),
    (b"5 0 1 2 3 0", ["refute --ids 2 --rounds 0 --channels 1", "refute --channels=1 --near=01 --rounds 00 --ids 2"]),
    (CV1, ["judge --ids 8 --forbid 1,1", "judge --forbid=01,0001 --ids 8", "judge --ids 8 --forbid 1,1,*"]),
    (CV1, ["judge --ids 8 --forbid 0,*,0 --forbid 1", "judge --forbid=00,*,00 --ids 8 --forbid 1,*,* --workers 2"]),
    *((b"", [f"help {command}", f"{command} --help", f"{command} -h"]) for command in COMMANDS),
]
