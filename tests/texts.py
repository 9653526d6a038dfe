"""Mistakes in tables and refutations, and texts in place of others, each with words that the note on it has (tests/notes.py)."""

from itertools import product
from pathlib import Path

from notes import edited
from programs import CV1
from tables import ONE_CHANNEL

TABLE = b"nbhd-table 2\nrounds 0 ids 3 channels 3 near 1 far 0\n0 : 0\n1 : 1\n2 : 2\nend\n"
LRAT = b"16 -1 0 4 6 2 3 11 0\n17 0 16 1 5 7 2 3 10 0\n"
REFUTE = "refute --ids 3 --rounds 0 --channels 2"

# Parts of `TABLE`, what stands in their place, and the words.
TABLES = [
    ("nbhd-table 2", "\ufeffnbhd-table 2", ("byte order mark", "bom")),
    ("1 : 1", "1\t:\t1", ("a tab", "byte 9", "blank", "space", "tabulator")),
    ("rounds 0", "rounds 1", ("at least 4", "4 to 162", "ids 4")),
    ("1 : 1", "# c\n1 : 1", ("comment", "window 1", "1 :")),
    ("\n2 : 2", " \n2 : 2", ("blank", "space")),
    ("1 : 1", "1 : -1", "digit"),
    ("end\n", "", ("`end`", "'end'", "line end", "word end", "end is missing")),
    ("end\n", "end", "end"),
    ("end\n", "end\n\n", "the line is blank"),
    ("nbhd-table 2", "nbhd-table 3", ("nbhd-table 2", "version")),
    ("nbhd-table 2", "nbhd-table", ("nbhd-table 2", "version")),
    ("nbhd-table 2\n", "", "nbhd-table 2"),
    ("rounds 0 ids 3", "ids 3 rounds 0", "rounds"),
    ("ids 3", "ids three", ("number", "digit")),
    ("channels 3 ", "", "channels"),
    (" ids 3", ", ids 3", "comma"),
    ("channels 3", "channels 0", "1"),
    ("rounds 0", "rounds 5", "4"),
    ("nbhd-table 2", "nbhd-table 1", ("nbhd-table 2", "version 1", "version 2")),
    (" near 1 far 0", "", "near", "far"),
    ("near 1", "near 0", ("at least 1", "1 to 4", "from 1")),
    ("far 0", "far 5000", "4096"),
    ("near 1 far 0", "far 0 near 1", "near"),
    ("1 : 1", "1: 1", "` :"),
    ("1 : 1", "1 1", ":"),
    ("end", "End", "`end`"),
    ("end\n", "end\nmore\n", ("behind", "after", "follow", "remove")),
    ("2 : 2\n", "", ("2 :", "window 2", "missing")),
    ("1 : 1", "1 :", "channel"),
    ("1 : 1", "1 : 01", "zero"),
    ("0 : 0\n1 : 1", "1 : 1\n0 : 0", "0"),
    ("channels 3", "channels 2", "channels"),
    ("rounds 0", "# mine\nrounds 0", "a table has no comments"),
    ("ids 3", "ids 2", "line 2", "as many windows as there are before", "`end`", "`ids`"),
    ("1 : 1\n", "", ("1 :", "window 1", "missing")),
    ("1 : 1\n2 : 2", "2 : 2\n1 : 1", ("order", "window 1", "1 :")),
    ("2 : 2", "1 : 1\n2 : 2", ("2 :", "window 2", "twice", "doubl", "again")),
    ("2 : 2", "3 : 2", "window 2"),
    ("\n2 : 2", " : 1\n2 : 2", ":"),
    ("1 : 1", "1 : x", "a line is the identifiers of a window"),
    ("1 : 1", "1 : b", "channel"),
    ("far 0", "far", "far"),
    (" far 0", "", "`far` and a number come last"),
    ("1 : 1", "1 : 4294967296", "4294967295"),
    ("1 : 1", "1  : 1", ("blank", "space")),
    ("1 : 1", "1 2 : 1", "a window has 1, 3, 5, 7 or 9 identifiers"),
    ("2 : 2", "2 : 1,000", "without commas"),
    ("2 : 2", "end\n2 : 2", "lines are missing before it"),
    ("nbhd-table 2", "$ ./nbhd table --ids 3 < id0.txt\nnbhd-table 2", "a command of the shell"),
]

# Parts of `ONE_CHANNEL`, a table of one round.
WINDOWS = [
    ("0 1 2 : 0", "0,1,2 : 0", "blank"),
    ("0 1 2 : 0", "0 1 1 : 0", "window 0 1 2"),
    ("0 1 2 : 0", "0 1 : 0", "identifiers"),
    ("0 1 2 : 0", "0 1 2 3 : 0", "identifiers"),
]

# Parts of `LRAT`.
STEPS = [
    ("17 0 16 1 5 7 2 3 10 0", "17 0 16 1 5 7 2 3 10", ("ends with 0", "ends with a 0", "final 0", "0 at the end", "a 0", "0 is missing", "missing 0", "by 0", "`0`", "by a 0", "without 0", "without its 0", "closing 0", "last 0")),
    ("16 -1 0 4 6 2 3 11 0", "16 -1 0 4 6 2 3 11", ("ends with 0", "ends with a 0", "final 0", "0 at the end", "a 0", "0 is missing", "missing 0", "by 0", "`0`", "by a 0", "without 0", "without its 0", "closing 0", "last 0")),
    ("16 -1 0 4 6 2 3 11 0", "16 -1 0 4  6 2 3 11 0", ("blank", "space")),
    ("17 0 16 1 5 7 2 3 10 0", "16 0 16 1 5 7 2 3 10 0", ("ascend", "greater", "above", "17", "larger", "increas")),
    ("16 -1 0 4 6 2 3 11 0", "15 -1 0 4 6 2 3 11 0", ("ascend", "greater", "above", "16", "larger", "increas")),
    ("16 -1 0 4 6 2 3 11 0", "1 -1 0 4 6 2 3 11 0", ("ascend", "greater", "above", "16", "larger", "increas")),
    ("16 -1 0 4 6 2 3 11 0", "16 -1 4 6 2 3 11 0", ("ends with 0", "ends with a 0", "final 0", "0 at the end", "a 0", "0 is missing", "missing 0", "by 0", "`0`", "by a 0", "without 0", "without its 0", "closing 0", "last 0")),
    ("17 0 16 1 5 7 2 3 10 0\n", "", "empty clause"),
    ("16 -1 0 4 6 2 3 11 0", "\ufeff16 -1 0 4 6 2 3 11 0", ("byte order mark", "bom")),
    ("\n17 0 16 1 5 7 2 3 10 0", " x\n17 0 16 1 5 7 2 3 10 0", ("behind", "after", "follow", "remove")),
    ("\n17 0 16 1 5 7 2 3 10 0", " 5\n17 0 16 1 5 7 2 3 10 0", ("behind", "after", "follow", "remove")),
    ("16 -1 0 4 6 2 3 11 0", "16 -99999999999 0 4 6 2 3 11 0", ("2147483648", "2,147,483,648", "2^31", "6 variables", "too large", "variable")),
    ("16 -1 0 4 6 2 3 11 0", "16 -1 0 4 -6 2 3 11 0", ("number", "minus", "negative", "rat")),
    ("16 -1 0 4 6 2 3 11 0", "16 -1 0 6 2 3 11 0", ("not known", "two", "unit", "exactly one", "missing", "order", "not false", "more than one")),
    ("16 -1 0 4 6 2 3 11 0", "16 -1 0 2 4 6 3 11 0", ("not known", "two", "unit", "exactly one", "missing", "order", "not false", "more than one")),
    ("\n17 0 16 1 5 7 2 3 10 0", "\r\n17 0 16 1 5 7 2 3 10 0\r", "carriage return"),
    ("17 0 16 1 5 7 2 3 10 0", "17 d -16 0", "behind `d`"),
    ("17 0 16 1 5 7 2 3 10 0", "17d 16 0", "behind `d`"),
    ("17 0 16 1 5 7 2 3 10 0", "17 d", "behind `d`"),
    ("\n17 0 16 1 5 7 2 3 10 0\n", "\r17 0 16 1 5 7 2 3 10 0\r", "carriage return"),
    ("16 -1 0 4 6 2 3 11 0", "16 -1 0 4 6 2 3 99 0", ("no clause", "there is no", "does not exist", "unknown", "1 to 15", "names none", "no such", "not a clause")),
    ("16 -1 0 4 6 2 3 11 0", "16 -1 0 40 6 2 3 11 0", ("no clause", "there is no", "does not exist", "unknown", "1 to 15", "names none", "no such", "not a clause")),
    ("16 -1 0 4 6 2 3 11 0", "16 -1 0 4 6 2 11 0", ("conflict", "last", "missing", "not known", "not false")),
    ("16 -1 0 4 6 2 3 11 0", "16 -1 0 11 3 2 6 4 0", ("not known", "two", "unit", "exactly one", "missing", "order", "not false", "more than one")),
    ("16 -1 0 4 6 2 3 11 0", "16 -1 0 4 6 2 3 11 5 0", ("conflict", "last", "superfluous", "too many", "already", "behind", "after", "needless")),
    ("16 -1 0 4 6 2 3 11 0", "16 -7 0 4 6 2 3 11 0", ("6 variables", "variable", "1 to 6", "not known", "two", "more than one")),
]

# Words of the command line, and their input.
WHOLE = [
    ("audit", CV1, ("judge", "check", "table --ids")),
    ("audit", "yes: 6 tuples\n", "table"),
    ("audit", "check fault C4 bound 7\n", "nbhd: line 1, column 1: this line does not have the form that `nbhd table` writes; this is output of `nbhd`, not a text that it reads"),
    ("audit", "", ("empty", "no bytes", "nothing")),
    ("audit", "nbhd-table 2\r\nrounds 0 ids 3 channels 3 near 1 far 0\r\n0 : 0\r\n1 : 1\r\n2 : 2\r\nend\r\n", "carriage return"),
    ("audit", "nbhd-table 1\r\n", "nbhd: line 1, column 1: this line does not have the form that `nbhd table` writes; lines end with a carriage return"),
    ("audit", "nbhd-table\t1\n", "nbhd: line 1, column 1: this line does not have the form that `nbhd table` writes; words are parted by single blanks, and this line has a tab"),
    ("audit", "nbhd-table 1\nrounds 2 ids 4 channels 6\n", "nbhd: line 2, column 1: this line does not have the form that `nbhd table` writes; the numbers of this line do not fit one another"),
    ("audit", "nbhd-table 1\nrounds 0 ids 2 channels 2\n# mine\n", "nbhd: line 3, column 1: this line does not have the form that `nbhd table` writes; a table has no comments"),
    ("audit", "nbhd-table 1\nrounds 0 ids 2 channels 2\n0 : 0 \n", "nbhd: line 3, column 1: this line does not have the form that `nbhd table` writes; it ends with a blank"),
    ("audit", "nbhd-table 1\nrounds 0 ids 2 channels 2\n0 : 0\n1 : 1\n", "nbhd: line 5, column 1: this line does not have the form that `nbhd table` writes; the text stops before its end"),
    ("audit", "nbhd-table 1\nrounds 0 ids 2 channels 2\n0 : 0\n1 : 1\nend", "the last line has no line end"),
    ("audit", "nbhd-table 1\nrounds 0 ids 2 channels 2\n0 : 0\n1 : 1\nend\n\n", "nbhd: line 6, column 1: this line does not have the form that `nbhd table` writes; the line is blank"),
    ("audit", "nbhd-table 3\nrounds 0 ids 2 channels 2\n0 : 0\n1 : 1\nend\n", "nbhd: line 1, column 1: this line does not have the form that `nbhd table` writes; its first line is `nbhd-table 2`, or `nbhd-table 1`\n"),
    ("audit", "nbhd table 1\nrounds 0 ids 2 channels 2\n0 : 0\n1 : 1\nend\n", "nbhd: line 1, column 1: this line does not have the form that `nbhd table` writes; its first line is `nbhd-table 2`, or `nbhd-table 1`\n"),
    ("audit", "0 : 0\n1 : 1\nend\n", "nbhd: line 1, column 1: this line does not have the form that `nbhd table` writes; its first two lines are missing\n"),
    ("audit", "nbhd-table 1\nround 0 ids 2 channels 2\n0 : 0\n", "nbhd: line 2, column 1: this line does not have the form that `nbhd table` writes; it begins with `rounds` and a number\n"),
    ("audit", "nbhd-table 1\nrounds 0 id 2 channels 2\n0 : 0\n", "nbhd: line 2, column 1: this line does not have the form that `nbhd table` writes; `ids` and a number come second, in this line\n"),
    ("audit", "nbhd-table 1\nrounds 0 ids 2 channels 0\n0 : 0\n", "nbhd: line 2, column 1: this line does not have the form that `nbhd table` writes; `channels` is 1 to 4096\n"),
    ("audit", "nbhd-table 1\nrounds 0 ids 2 channels 2 near 1 far 0\n0 : 0\n", "nbhd: line 2, column 1: this line does not have the form that `nbhd table` writes; version 1 ends this line with `channels` and its number\n"),
    ("audit", "nbhd-table 2\nrounds 0 ids 2 channels 2 near 0 far 0\n0 : 0\n", "nbhd: line 2, column 1: this line does not have the form that `nbhd table` writes; `near` is 1 to 4096\n"),
    ("audit", "nbhd-table 1\nrounds 0 ids 2 channels 2\n0 = 0\n", "nbhd: line 3, column 1: this line does not have the form that `nbhd table` writes; a line is the identifiers of a window, ` : ` and a channel\n"),
    ("audit", "nbhd-table 1\nrounds 0 ids 2 channels 2\n0 : 0\n1 : 1\nEND\n", "nbhd: line 5, column 1: this line does not have the form that `nbhd table` writes; the last line is `end`\n"),
    ("audit", "nbhd-table 1\nrounds 0 ids 2 channels 2\n0 : 0\n1 : 1\nend\n0 : 0\n", "nbhd: line 6, column 1: this line does not have the form that `nbhd table` writes; nothing follows the line `end`\n"),
    ("audit", "nbhd-table 1\nrounds 0 ids 3 channels 3\n0 : 0\n1 : 1\nend\n", "nbhd: line 5, column 1: this line does not have the form that `nbhd table` writes; lines are missing before it\n"),
    ("audit", "nbhd-table 1\nrounds 1 ids 4 channels 6\n0 1 2 : 0\n0 2 1 : 3\n", "nbhd: line 4 is not the line of window 0 1 3, which comes there by line 2; windows stand in lexicographic order\n"),
    ("audit", "nbhd-table 1\nrounds 1 ids 5 channels 6\n0 1 2 : 0\n0 1 3 : 3\n0 2 1 : 3\n", "nbhd: line 5 is not the line of window 0 1 4, which comes there by line 2; windows stand in lexicographic order\n"),
    ("audit", "nbhd-table 2\nrounds 0 ids 2 channels 2 near 1 far 1\n0 : 0\n1 : 1\nend\n", "nbhd: no ring was judged: 2 identifiers are too few for a ring of at least 3 nodes\n"),
    ("audit", "nbhd-table 2\nrounds 0 ids 2 channels 2 near 1 far 0\n0 : 0\n1 : 1\nend\n"),
    ("audit", LRAT, "refute"),
    ("audit", '{"rounds": 0}', "this looks like JSON"),
    ("refute --ids 2 --rounds 0 --channels 1", "5 - 1 0 1 2 3 0\n", "a minus stands right before its number"),
    (REFUTE, "p cnf 6 15\n1 2 0\n3 4 0\n5 6 0\n-1 -3 0\n", ("formula", "dimacs")),
    (REFUTE, CV1, ("judge", "check", "program")),
    (REFUTE, TABLE, "audit"),
    (REFUTE, "s UNSATISFIABLE\n", ("proof", "lrat")),
    ("refute --ids 2 --rounds 0 --channels 1", "5 0  1 2 3 0\n", "blank"),
    ("refute --ids 2 --rounds 0 --channels 1", "5 0\t1 2 3 0\n", "blank"),
    ("refute --ids 2 --rounds 0 --channels 1", "5 0 1 2 3 4 0\n", "hint", "last"),
    ("refute --ids 2 --rounds 0 --channels 1", "5 0 3 1 2 0\n", "hint"),
    (REFUTE, "", ("empty", "no bytes", "nothing")),
    ("refute --ids 2 --rounds 0 --channels 1", "+5 0 1 2 3 0\n", "number"),
    (REFUTE, "16 i 0 3 0 1 0\n", ("below 3", "--ids", "0 to 2", "identifier")),
    (REFUTE, b'\xfd7zXZ\x00\x00\x04\xe6\xd6\xb4F\x02\x00!\x01\x16\x00\x00\x00t/\xe5\xa3\x01\x00\x08rounds 1\n\x00', ("xz", "compress", "packed")),
    ("refute --ids 2 --rounds 0 --channels 1", "# proof\n5 0 1 2 3 0\n", "`c"),
    ("refute --ids 2 --rounds 0 --channels 1", "d 5 0\n5 0 1 2 3 0\n", "DRAT"),
    ("refute --ids 2 --rounds 0 --channels 1", "5\n", "ends with 0"),
    ("refute --ids 2 --rounds 0 --channels 1", "5 0 0\n", "hint"),
    ("refute --ids 2 --rounds 0 --channels 1", "5 0 0\n", "no hints"),
    ("refute --ids 2 --rounds 0 --channels 1", "5 0 1 0\n", "hint"),
    ("refute --ids 2 --rounds 0 --channels 1", "5 0 5 0\n", "hint"),
    (REFUTE, "s SATISFIABLE\nv 1 -2 0\n", ("tools/model", "model", "audit", "there is a table")),
    ("refute --ids 2 --rounds 0 --channels 1", "c a comment\n", "empty clause"),
    ("refute --ids 2 --rounds 0 --channels 1", "yes: 6 tuples\n", "output"),
    (REFUTE, b'\xff\xfe1\x006\x00 \x00-\x001\x00 \x000\x00 \x004\x00 \x006\x00 \x002\x00 \x003\x00 \x001\x001\x00 \x000\x00\n\x001\x007\x00 \x000\x00 \x001\x006\x00 \x001\x00 \x005\x00 \x007\x00 \x002\x00 \x003\x00 \x001\x000\x00 \x000\x00\n\x00', "UTF-16"),
    (REFUTE, b'\x1f\x8b\x08\x00\x00\x00\x00\x00\x00\x03+\xca/\xcdK)V0\xe4\x02\x00\x11"3D\t\x00\x00\x00', ("gzip", "gunzip", "compress", "packed")),
    ("refute --ids 2 --rounds 0 --channels 1", "PK\x03\x04\x00", "packed"),
    ("refute --ids 2 --rounds 0 --channels 1", "BZh91AY", "packed"),
    ("refute --ids 2 --rounds 0 --channels 1", "5 0 1 2 3 0 c done\n", "line of its own"),
    ("refute --ids 2 --rounds 0 --channels 1", "5 i 0 0 1 2 3 0\n", "two identifiers"),
    ("refute --ids 2 --rounds 0 --channels 1", "5 0 1 2 3 18446744073709551616 0\n", "18446744073709551615"),
    ("refute --ids 2 --rounds 0 --channels 1", "step 5 0 1 2 3 0\n", "begins with the number"),
    (REFUTE, "a\x02\x00a\x00", "binary"),
    ("refute --ids 2 --rounds 0 --channels 1", "5 -1 0 7 0\n", "hint 7 names no clause", "the options may be those of another formula"),
    ("refute --ids 2 --rounds 0 --channels 1", "5 0 1 2 0\n", "hint 2", "the last one"),
    ("refute --ids 2 --rounds 0 --channels 1", "5 1 1 0 1 0\n6 0 5 2 3 0\n", "hint 5", "twice"),
    ("formula --ids 200 --rounds 1 --channels 3", CV1, "162"),
    ("formula --ids 100 --rounds 1 --channels 4", CV1, "clauses"),
    ("formula --ids 8 --rounds 4 --channels 3", CV1, "10"),
    (REFUTE, "-1 0\n0\n", ("drat", "hints", "tools/lrat")),
    (REFUTE, "16 1 0 4 6 2 3 11 0\n17 2 0 16 1 0\n17 d 16 0\n18 -4 0 17 5 0\n19 -6 0 17 7 0\n19 d 17 0\n20 3 0 18 2 0\n20 d 18 0\n21 5 0 19 3 0\n21 d 19 0\n22 0 20 21 10 0\n", "hint"),
    (REFUTE, "16 -1 0 4 6 2 3 0\n17 2 0 16 1 0\n17 d 16 0\n18 -4 0 17 5 0\n19 -6 0 17 7 0\n19 d 17 0\n20 3 0 18 2 0\n20 d 18 0\n21 5 0 19 3 0\n21 d 19 0\n22 0 20 21 10 0\n", "the options may be those of another formula"),
    (REFUTE, "16 -1 0 4 6 2 3 11 0\n17 d 16 0\n18 -4 0 17 5 0\n19 -6 0 17 7 0\n19 d 17 0\n20 3 0 18 2 0\n20 d 18 0\n21 5 0 19 3 0\n21 d 19 0\n22 0 20 21 10 0\n", "hint 17 names no clause"),
    (REFUTE, "16 -1 0\n4 6 2 3 11 0\n17 2 0 16 1 0\n17 d 16 0\n18 -4 0 17 5 0\n19 -6 0 17 7 0\n19 d 17 0\n20 3 0 18 2 0\n20 d 18 0\n21 5 0 19 3 0\n21 d 19 0\n22 0 20 21 10 0\n", "a step has two lists, and each ends with 0"),
    ("apply --ring 5,1,3,7", CV1, "run"),
    ("migrate", CV1, "`nbhd table`"),
    ("audit", b'\xff\xfen\x00b\x00h\x00d\x00-\x00t\x00a\x00b\x00l\x00e\x00 \x002\x00\n\x00r\x00o\x00u\x00n\x00d\x00s\x00 \x000\x00 \x00i\x00d\x00s\x00 \x003\x00 \x00c\x00h\x00a\x00n\x00n\x00e\x00l\x00s\x00 \x003\x00 \x00n\x00e\x00a\x00r\x00 \x001\x00 \x00f\x00a\x00r\x00 \x000\x00\n\x000\x00 \x00:\x00 \x000\x00\n\x001\x00 \x00:\x00 \x001\x00\n\x002\x00 \x00:\x00 \x002\x00\n\x00e\x00n\x00d\x00\n\x00', "UTF-16"),
    ("apply --ring 5,1,3,7", "   0    5    2\n   1    1    4\n   2    3    3\n   3    7    5\n", "output"),
    ("audit", "p cnf 6 15\n1 2 0\n3 4 0\n5 6 0\n-1 -3 0\n", ("formula", "dimacs")),
    ("audit", "s SATISFIABLE\nv 1 -2 0\n", ("tools/model", "solver", "model")),
    ("audit", "<!DOCTYPE html>\n<html><head><title>x</title></head><body>cv1</body></html>\n", ("page", "html")),
    ("audit", '<svg xmlns="http://www.w3.org/2000/svg" width="9" height="9"></svg>\n', ("picture", "image", "svg")),
    ("audit", b'\x1f\x8b\x08\x00\x00\x00\x00\x00\x00\x03+\xca/\xcdK)V0\xe4\x02\x00\x11"3D\t\x00\x00\x00', ("gzip", "gunzip", "compress", "packed")),
    ("audit", "nbhd-table 2\rrounds 0 ids 3 channels 3 near 1 far 0\r0 : 0\r1 : 1\r2 : 2\rend\r", "carriage return"),
    (REFUTE, "<!DOCTYPE html>\n<html><head><title>x</title></head><body>cv1</body></html>\n", ("page", "html")),
    (REFUTE, '<svg xmlns="http://www.w3.org/2000/svg" width="9" height="9"></svg>\n', ("picture", "image", "svg")),
]

# A refutation, and damaged texts of it: the number of identifiers of the formula, the text, and the whole note.
WRITTEN = (Path(__file__).resolve().parent.parent / "examples/least/rounds0_ids3_channels2_near1_far0.lrat").read_bytes()
DAMAGED = [
    (
        3,
        b"-1 0\n0\n",
        "nbhd: line 1: this line is not a step of LRAT, as `5 -1 2 0 3 4 0`, a deletion, as `5 d 3 4 0`, or a comment"
        "; this looks like a proof in DRAT: `tools/lrat` adds the hints that it lacks, for `nbhd refute`\n  -1 0\n  ^\n",
    ),
    (
        4,
        WRITTEN,
        "nbhd: line 1: the number of this step is not above those of the steps before it, or not above those of the formula's clauses"
        ": then the options may be those of another formula\n  16 -1 0 4 6 2 3 11 0\n  ^\n",
    ),
    (
        3,
        WRITTEN.replace(b"16 -1", b"16 7", 1),
        "nbhd: line 1: this clause has a variable that the formula lacks; the numbers may be those of another formula"
        "\n  16 7 0 4 6 2 3 11 0\n  ^\n",
    ),
    (
        3,
        WRITTEN.replace(b"17 2 0 16 1 0\n", b"", 1),
        "nbhd: line 3: hint 17 names no clause: there is none of its number yet, or it was deleted"
        "; the options may be those of another formula\n  18 -4 0 17 5 0\n  ^\n",
    ),
    (
        3,
        WRITTEN.replace(b"4 6 2", b"2 4 6", 1),
        "nbhd: line 1: several literals of the clause of hint 2, or one twice, are not yet known to be false, where at most one may be"
        ": a hint is missing before it or stands behind it, or the options may be those of another formula"
        "\n  16 -1 0 2 4 6 3 11 0\n  ^\n",
    ),
    (
        3,
        WRITTEN.replace(b"11 0", b"0", 1),
        "nbhd: line 1: the clause of hint 3, the last one, has a literal that is not known to be false"
        ": a hint is missing or wrong, or the options may be those of another formula\n  16 -1 0 4 6 2 3 0\n  ^\n",
    ),
    (
        3,
        b"".join(WRITTEN.splitlines(keepends=True)[:5]),
        "nbhd: line 6: the text ends here, before the empty clause"
        "; a refutation ends with a step without literals, as in `22 0 20 21 10 0`\n  \n  ^\n",
    ),
    (
        3,
        b"16 c 0 5 -1 0 4 6 2 3 11 0\n",
        "nbhd: line 1: tables need not stay right by this exchange: identifiers are below `--ids` and channels below `--channels`"
        ", and two channels are exchanged only if near and far are at most 1\n  16 c 0 5 -1 0 4 6 2 3 11 0\n  ^\n",
    ),
]

# Options that have no formula, and the whole notes.
FORMULAS = [
    (
        "--ids 162 --rounds 1 --channels 2",
        "nbhd: a formula has a variable for each window and channel, and at most 4194304 of them; take fewer identifiers or channels\n",
    ),
    (
        "--ids 40 --rounds 1 --channels 10",
        "nbhd: a formula has at most 16777216 clauses, and a table of this size would need more; take fewer identifiers or channels\n",
    ),
]

OF_TABLE = "for `nbhd audit`, `nbhd apply` and `nbhd migrate`"
FORMULA = "this is a formula"
REFUTATION = "this looks like a refutation"
PROOF = "this looks like a proof in DRAT"
ANSWER = "this is a solver's answer"
REPORT = "this is output of"
PAGE = "this is a page in HTML"
WIDE = "the file is UTF-16, or has a byte order mark"
FILE = "this is no text, but a packed file, a picture or a document"

# The words of the commands that read a text, with the kind of it, and those of the tools that read a solver's files.
READERS = [
    ("program", "check --ids 8"),
    ("program", "judge --ids 8"),
    ("table", "audit"),
    ("table", "apply --ring 0,1"),
    ("table", "migrate"),
    ("refutation", "refute --ids 3 --rounds 0 --channels 2"),
]
TOOLS = ["model", "lrat"]

# The kind of a text, the text, and what is said of it by the commands that read another kind.
KINDS = [
    ("program", b"rounds 1\nchannels 6\nregisters 1\n", "this looks like a program"),
    ("program", b"# a program\n\nrounds 1\nchannels 6\n", "this looks like a program"),
    ("program", b"# a program\r\nrounds 1\r\nchannels 6\r\n", "this looks like a program"),
    ("table", b"nbhd-table 2\nrounds 0 ids 2 channels 2 near 1 far 0\n0 : 0\n1 : 1\nend\n", OF_TABLE),
    ("table", b"nbhd-table 1\nrounds 0 ids 2 channels 2\n0 : 0\n1 : 1\nend\n", OF_TABLE),
    ("formula", b"p cnf 6 15\n1 2 0\n3 4 0\n", FORMULA),
    ("formula", b"c a formula\nc of a table\np cnf 6 15\n1 2 0\n", FORMULA),
    ("refutation", b"16 -1 0 4 6 2 3 11 0\n17 2 0 16 1 0\n", REFUTATION),
    ("refutation", b"16 d 3 4 0\n17 2 0 16 1 0\n", REFUTATION),
    ("refutation", b"16 -1 0 4 6 2 3 11 0\r\n17 2 0 16 1 0\r\n", REFUTATION),
    ("refutation", b"16 c 0 1 -1 0 4 6 2 3 11 0\n", REFUTATION),
    ("proof", b"-1 0\n0\n", PROOF),
    ("proof", b"d -1 2 0\n-3 0\n0\n", PROOF),
    ("proof", b"1 -2 3 0\n0\n", PROOF),
    ("proof", b"1 -2 3 0\n4 5 0\n-3 0\n0\n", PROOF),
    ("answer", b"s SATISFIABLE\nv 1 -2 0\n", ANSWER),
    ("answer", b"c CaDiCaL\nc\ns UNSATISFIABLE\n", ANSWER),
    ("answer", b"s UNSATISFIABLE\n", ANSWER),
    ("answer", b"SAT\n1 -2 0\n", ANSWER),
    ("answer", b"UNSAT\n", ANSWER),
    ("report", b"yes: 1680 tuples\n", REPORT),
    ("report", b"no: ring 0 1 2 3 place 1 channel 0\n", REPORT),
    ("report", b"accepted ids 8 rounds 1 channels 6 bound 5 windows 336\n", REPORT),
    ("report", b"text fault N3 at 57\n", REPORT),
    ("report", b"check fault C4 bound 7\n", REPORT),
    ("report", b"refuted: ids 3 rounds 0 channels 2 near 1 far 0\n", REPORT),
    ("report", b"nbhd: line 7, column 6: unknown word `lift`; expected `left`\n", REPORT),
    ("report", b"   0    5    2\n   1    1    4\n   2    3    3\n   3    7    5\n", REPORT),
    ("page", b"<!DOCTYPE html>\n<html><body>rounds 1</body></html>\n", PAGE),
    ("page", b"\n<html>\n<pre>rounds 1</pre>\n</html>\n", PAGE),
    ("page", b"<!doctype html><title>caf\xc3\xa9</title>\n", PAGE),
    ("page", b'<svg xmlns="http://www.w3.org/2000/svg"></svg>\n', PAGE),
    ("file", b"\x89PNG\r\n\x1a\n\x00\x00\x00\rIHDR", FILE),
    ("file", b"\x1f\x8b\x08\x00\x00\x00\x00\x00\x00\x03\xab\x02\x00", FILE),
    ("file", b"\xfd7zXZ\x00\x00\x04\xe6\xd6\xb4F", FILE),
    ("file", b"PK\x03\x04\x14\x00\x00\x00\x08\x00", FILE),
    ("file", b"%PDF-1.7\n%\xe2\xe3\xcf\xd3\n", FILE),
    ("wide", b"\xef\xbb\xbfrounds 1\n", WIDE),
    ("wide", b"\xff\xfe" + "rounds 1\n".encode("utf-16-le"), WIDE),
    ("wide", b"\xfe\xff" + "rounds 1\n".encode("utf-16-be"), WIDE),
    ("wide", "rounds 1\nchannels 6\n".encode("utf-16-le"), WIDE),
    ("wide", "nbhd-table 2\n".encode("utf-16-be"), WIDE),
]

# Texts of which the commands alone say what they are.
OTHERS = [
    (b"programs/cv1.txt\n", "this looks like the name of a file"),
    (b"old.table", "this looks like the name of a file"),
    (b"./nbhd judge --ids 8 < programs/cv1.txt\n", "this is a command of the shell"),
    (b"nbhd judge --ids 8 < programs/cv1.txt\n", "this is a command of the shell"),
    (b"$ ./nbhd print < cv1.txt\n", "this is a command of the shell"),
]

# Texts of the kind that is read, or of which nothing is known, and what no note may say of them.
UNKNOWN = ["this looks like", "this is a ", "is packed"]
SILENT = [
    ("check --ids 8", b"# Pighvani\n\nPighvani compiles\n"),
    ("check --ids 8", b"2 4 3 5\n"),
    ("check --ids 8", b"0\n"),
    ("check --ids 8", b"hello\n"),
    ("audit", b"hello\n"),
    ("audit", b"0 : 0\n1 : 1\nend\n"),
    ("audit", b"# a table\n0 : 0\n"),
    ("refute --ids 3 --rounds 0 --channels 2", b"hello\n"),
    ("refute --ids 3 --rounds 0 --channels 2", b"16 -1 0 4 6 2 3 11\n"),
    ("refute --ids 3 --rounds 0 --channels 2", b"c nothing\n"),
]


def rows():
    """Words of the command line, inputs, and the words that the notes have."""
    for old, new, *said in TABLES:
        yield "audit", edited(TABLE, old, new), said
    for old, new, *said in WINDOWS:
        yield "audit", edited(ONE_CHANNEL, old, new), said
    for old, new, *said in STEPS:
        yield REFUTE, edited(LRAT, old, new), said
    for line, text, *said in WHOLE:
        yield line, text if isinstance(text, bytes) else text.encode(), said
    for ids, text, note in DAMAGED:
        yield f"refute --ids {ids} --rounds 0 --channels 2", text, [note]
    for options, note in FORMULAS:
        yield f"formula {options}", b"", [note]
    said = "nbhd: the text of a refutation has at most 134217728 bytes; `tools/lrat` leaves out what is not needed\n"
    yield REFUTE, b"\0" * 134_217_729, [said]
    for (own, line), (kind, text, said) in product(READERS, KINDS):
        if kind != own:
            yield line, text, [said]
    for (_, line), (text, said) in product(READERS, OTHERS):
        yield line, text, [said]


def rows_of_tools():
    """The name of a tool, a text, and what the standard error is to have: where tools/lrat reads it, it is the proof."""
    for tool, (kind, text, said) in product(TOOLS, KINDS):
        if (tool, kind) not in (("model", "answer"), ("lrat", "proof")):
            yield tool, text, "the text of a table" if said == OF_TABLE else said
