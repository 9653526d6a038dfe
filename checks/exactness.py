"""Whether clauses say both directions, by their forms. checks/inventory asks it of each line of checks/exact.txt.

A line names a call, a form, and the clauses, or the fields of the only clause, that have it:

- `CASE by CLAUSES`: together the clauses decide whether the result has this case: `Ok`, `Err(Fault)`, `Ok(Yes)`, or `Ok(field: Case)`
  for a field of the value. Behind `aside` stands a case of which they need not speak, mostly `Err(OutOfMemory)`; behind `and` the laws of
  the crate that are used besides.
- `value CLAUSE`: the clause is `result ≡ E`, and E does not mention the result.
- `iff CLAUSES`: each clause of a law is an equivalence, or a product of some, behind variables and premises.
- `converse ONE OTHER`: two implications. The conclusion of one is a case of a premise of the other, whose conclusion is then the
  premise of the first.
- `unique ONE OTHER`: a relation holds of some terms, and two terms of which it holds with the same first ones are equal.

`CASE by CLAUSES` is decided by truth tables. Definitions are unfolded; what is left are conditions, as `IsSegmentCount ..`, and facts on
the result, as `result` is `Ok`. The case is decided if no two results, one with it and one without it, satisfy the clauses under the same
conditions; and if the clauses permit both. So an equivalence decides its case, and so do two clauses that say opposite conditions of `Ok`
and `Err`, and a match on the result whose cases have conditions that exclude each other. One direction alone does not, nor a
condition that is always true. A definition by cases must have all cases of its type.

No part of a sum or of an equivalence, in a clause or in a definition below it, may be always true or never.

What this module does not know:

- whether two conditions that are written differently are equivalent, beyond `¬`, `×`, `⊎`, `↔`, `→`, `≢`, `<` against `≤`, and what
  definitions unfold to;
- whether a definition is the right one, or a condition the one of the sentence, so not a `¬` too many on one side of an equivalence;
- whether a condition that speaks of what the call leaves, such as `pass.new` or `has_failed writer.new`, says what was so before;
- whether a returned value is the right one, but for `value`.

What it cannot read, such as `do`, recursion and most quantifiers, it takes as one condition, or if it mentions the result as nothing
known. Words of std have the meaning of STANDARD in checks/definitions.py.
"""

import functools
import itertools
import re
import sys

sys.dont_write_bytecode = True
import contracts
from definitions import arguments_of, definition, head_of, opened, part_of, scope_of
from meanings import RESULT, Meaning, stripped
from propositions import JOINED, conj, disj, is_possible, negation
from terms import Bound, Field, Joined, Name, Parser, Unreadable, children, matched, names_in, plain, put

# ---- forms


def names_case(case, term=Name(RESULT)):
    """The formula that says that the result has a case, written as `Err(Fault)` or `Ok(field: Case)`."""
    word, _, inner = case.partition("(")
    field, colon, named = word.partition(": ")
    if colon:
        return names_case(case[len(field) + 2 :], Field(term, field))
    own = ("is", plain(term), word)
    return conj(own, names_case(inner.removesuffix(")"), part_of(term, word, 0))) if inner else own


def decides(case, clauses, aside=None, laws=()):
    """Whether these clauses decide whether the result has a case, and permit both."""
    wanted = names_case(case)
    meanings = [Meaning(opens) for opens in ("all", RESULT, "")]
    all_said = [said_by(meaning, wanted, clauses, aside, laws) for meaning in meanings]
    permits = is_possible(conj(all_said[0], wanted)) and is_possible(conj(all_said[0], negation(wanted)))
    return permits and any(is_decided(wanted, said, meaning.inner) for said, meaning in zip(all_said, meanings))


def said_by(meaning, wanted, clauses, aside, laws):
    """What the clauses say of a result that is not the case aside."""
    said = conj(*(meaning.claim(it) for it in clauses), negation(names_case(aside)) if aside else True)
    # (the atoms of the case are completed too)
    return meaning.completed(conj(said, disj(wanted, negation(wanted))), laws)


def is_decided(wanted, said, inner):
    """Whether of no two results of which the same is said only one has the case."""
    return not is_possible(conj(said, wanted, as_other(said, inner), negation(as_other(wanted, inner))))


def as_other(formula, inner):
    """A formula with the atoms on the result, or on a variable that the result chooses, as those of another result."""
    if isinstance(formula, bool):
        return formula
    if formula[0] in JOINED:
        return (formula[0], *(as_other(part, inner) for part in formula[1:]))
    return ("other", *formula) if any(names_in(it) & inner for it in formula[1:] if not isinstance(it, str)) else formula


def is_value(clause):
    """Whether a clause gives the result."""
    is_equation = isinstance(clause, Joined) and clause.operator == "≡" and Name(RESULT) in clause.parts
    return is_equation and sum(RESULT in names_in(it) for it in clause.parts) == 1


def is_equivalence(clause):
    """Whether a clause of a law is an equivalence, or a product of some, whose sides differ and are neither always true nor never."""
    _, _, said = stripped(clause)
    if isinstance(said, Joined) and said.operator == "×":
        return all(map(is_equivalence, said.parts))
    if isinstance(said, Joined) and said.operator == "↔":
        facts = [Meaning("all").fact(it) for it in said.parts]
        return RESULT not in names_in(said) and plain(said.parts[0]) != plain(said.parts[1]) and all(map(is_open, facts))
    inner = opened(said)
    return inner is not None and is_equivalence(inner)


def is_open(formula):
    """Whether a formula is neither always true nor never."""
    return is_possible(formula) and is_possible(negation(formula))


def law_of(clause):
    """The variables, the premises, and the parts of the conclusion of a law; what it says that there is counts as a variable."""
    while (inner := opened(clause)) is not None and not isinstance(clause, (Bound, Joined)):
        clause = inner
    free, premises, said = stripped(clause)
    while isinstance(said, Bound) and said.operator == "×":
        said = said.body
    return free, premises, said.parts if isinstance(said, Joined) and said.operator == "×" else (said,)


def is_converse(one, other):
    """Whether one law leads back from what the other leads to, in either order."""
    return leads_back(law_of(one), law_of(other)) or leads_back(law_of(other), law_of(one))


def leads_back(one, other):
    free, premises, ends = other
    for start, end, premise, back in itertools.product(one[1], one[2], premises, ends):
        values = matched(premise, end, free, {})
        is_proper = is_open(Meaning("").fact(start)) and is_open(Meaning("").fact(end))
        if values is not None and is_proper and put(back, values) == start:
            return True
    return False


def is_unique(one, other):
    """Whether a relation holds, and holds of nothing else that begins with the same term."""
    free, premises, ends = law_of(other)
    if len(premises) != 2 or head_of(premises[0]) != head_of(premises[1]):
        return False
    pairs = list(zip(arguments_of(premises[0]), arguments_of(premises[1])))
    equal = {it.parts for it in ends if isinstance(it, Joined) and it.operator == "≡"}
    are_free = all(isinstance(it, Name) and it.word in free for pair in pairs for it in pair)
    holds = any(head_of(it) == head_of(premises[0]) and len(arguments_of(it)) == len(pairs) for it in law_of(one)[2])
    return holds and are_free and pairs[0][0] == pairs[0][1] and all(one == two or (one, two) in equal for one, two in pairs)


# ---- lines


LINE = re.compile(r"(\w+) ([\w:]+): (?:(?P<case>[A-Z]\S*(?: \w+\)+)?) by|(?P<form>value|iff|converse|unique|read))(?P<rest>.*)")
DATE = re.compile(r"\d{4}-\d{2}-\d{2}")


class Line:
    """A line of checks/exact.txt: its crate, call and form, the names of the clauses, and what else stands there."""

    def __init__(self, text):
        self.text, found = text, LINE.fullmatch(text)
        if not found:
            raise Unreadable(f"no line of the list: {text}")
        self.crate, self.call, self.case, self.form = found[1], found[2], found["case"], found["form"] or "by"
        rest, _, self.aside = found["rest"].partition(" aside ")
        rest, _, laws = rest.partition(" and ")
        self.names, self.laws = rest.split(), laws.split()
        self.date = self.names.pop(0) if self.form == "read" and self.names and DATE.fullmatch(self.names[0]) else None

    def calls(self):
        """The calls that it speaks of: by a name alone a function, else the methods of this name."""
        found = contracts.call_named(self.crate, self.call)
        return [it for it in found if not it.owner] or found if "::" not in self.call else found


def why_not(line):
    """Why a line's clauses are not exact in its form; None if they are."""
    try:
        calls = line.calls()
        if not calls:
            return "there is no such call"
        return next((why for why in map(functools.partial(why_not_of, line), calls) if why), None)
    except Unreadable as error:
        return str(error)


def why_not_of(line, call):
    """The same of one call."""
    clauses = [clause_of(call, name) for name in line.names] or [clause_of(call, "")]
    if line.form == "read":
        return None if line.date else "the date is missing"
    if line.form in ("converse", "unique") and len(clauses) != 2:
        return "two clauses are needed"
    laws = [law for name in line.laws for law in laws_of(line.crate, name)]
    holds = {
        "by": lambda: decides(line.case, clauses, line.aside or None, laws),
        "value": lambda: len(clauses) == 1 and is_value(clauses[0]),
        "iff": lambda: all(map(is_equivalence, clauses)),
        "converse": lambda: is_converse(*clauses),
        "unique": lambda: is_unique(*clauses),
    }[line.form]()
    always = next((found for it in clauses for found in constants_in(it, set())), None)
    return f"in {always}, one side is always true or never" if always else None if holds else "its clauses do not say both directions so"


def constants_in(term, seen):
    """The sums and equivalences, in a term and in the definitions that it cites, of which a part is always true or never."""
    if isinstance(term, Joined) and term.operator in ("⊎", "↔"):
        if any(isinstance(Meaning("").fact(part), bool) for part in term.parts):
            yield " ".join(sorted(word.partition("#")[0] for word in names_in(term)))
    if isinstance(term, Name) and term.home and term.home not in seen:
        seen.add(term.home)
        found = definition(term.home)
        for _, body in found.cases if found else ():
            yield from constants_in(body, seen)
    for part in children(term):
        yield from constants_in(part, seen)


def clause_of(call, name):
    """The clause of a call with this name, or the field with this name of its only clause."""
    clauses = {it: text for kind, it, text in call.clauses if kind.rstrip("*") == "ensures"}
    if name in clauses:
        return read_clause(clauses[name], call)
    if "" not in clauses:
        raise Unreadable(f"{call.path_name()} has no clause {name or 'without a name'}")
    return field_of(read_clause(clauses[""], call), name)


def read_clause(text, call):
    return Parser(text.strip().removesuffix("}"), scope_of(call.brought, {})).whole()


def field_of(term, name):
    """A field of the record that a term names, or that what it is short for names."""
    while isinstance(head_of(term), Name) and head_of(term).home:
        found = definition(head_of(term).home)
        if found and name in found.fields:
            return opened(term).parts[found.fields.index(name)]
        inner = opened(term)
        if inner is None or found.fields:
            break
        term = inner
    raise Unreadable(f"there is no clause {name}")


def laws_of(crate, name):
    """What the clauses of a law say."""
    found = [read_clause(text, call) for call in contracts.call_named(crate, name) for _, _, text in call.clauses]
    if not found:
        raise Unreadable(f"there is no law {name}")
    return [inner if (inner := opened(it)) is not None else it for it in found]
