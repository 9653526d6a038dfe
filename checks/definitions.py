"""The definitions of the tree, and the words of std, as checks/exactness.py unfolds them: by cases, with the variants of their types."""

import functools
import re
import sys
from dataclasses import dataclass

sys.dont_write_bytecode = True
import contracts
from terms import Bound, Call, Field, Joined, Name, Parser, Parts, Unreadable, applied, put

# The words of std that unfold, as rattle/core/specs/Result.antt and Option.antt of the kit define them, `IsOk` and the like by cases.
STANDARD = """
MatchResult : Result T E → P → Q → Kind
MatchResult (Ok x) P Q = P x
MatchResult (Err e) P Q = Q e
MatchOption : Option T → P → Q → Kind
MatchOption None P Q = P
MatchOption (Some x) P Q = Q x
IfOk r P = MatchResult r P (λ _. ⊤)
IfErr r P = MatchResult r (λ _. ⊤) P
OnOk r P = IfOk r (λ _. P)
OnErr r P = IfErr r (λ _. P)
IsOk r = OnErr r ⊥
IsErr r = OnOk r ⊥
IsErrOf r e = r ≡ Err e
IsOkUnless r e = IfErr r (λ x. x ≡ e)
IsOkAnd r P = MatchResult r P (λ _. ⊥)
IsErrAnd r P = MatchResult r (λ _. ⊥) P
IfSome o P = MatchOption o ⊤ P
IfNone o P = MatchOption o P (λ _. ⊤)
OnSome o P = IfSome o (λ _. P)
IsSome o = MatchOption o ⊥ (λ _. ⊤)
IsNone o = MatchOption o ⊤ (λ _. ⊥)
IsSomeAnd o P = MatchOption o ⊥ P
OkIff : Result T E → P → V → Kind
OkIff (Ok x) P v = P × (x ≡ v)
OkIff (Err e) P v = ¬ P
SomeIff : Option T → P → V → Kind
SomeIff None P v = ¬ P
SomeIff (Some x) P v = P × (x ≡ v)
IsTrue b = b ≡ true
"""
# A type that is not known.
UNKNOWN = Name("?")


@dataclass(frozen=True)
class Definition:
    """A definition by cases: the types of its arguments, and of each case the patterns and what it says. A record has one case, and
    the names of its fields."""

    types: tuple
    cases: tuple
    fields: tuple = ()


def no_scope(word, behind):
    return None, False


def scope_of(brought, local):
    """What the names of a text stand for, by what was brought and by its own file."""

    def scope(word, behind):
        crate, file, known = local.get(word) or brought.get(word) or (None, None, None)
        if crate and (known or behind):
            return contracts.home(crate, file, known or behind), not known
        return None, False

    return scope


@functools.cache
def definition(home):
    """The definition of a name of the tree, or None where it is data or cannot be read."""
    crate, file, name = home
    texts, brought, _ = contracts.definitions_in(crate, file)
    text = re.sub(r"\bType( \d)?", "Kind", texts.get(name, ""))
    scope = scope_of(brought, {it: (crate, file, it) for it in texts})
    try:
        if re.match(r"(pub )?record ", text):
            return read_record(text, scope)
        return None if re.match(r"(pub )?data |$", text) else read_cases(text, scope)
    except Unreadable:
        return None


def clauses_of(text):
    """The parts of a text that begin at the start of a line."""
    return re.findall(r"^\S.*(?:\n(?:[ \t].*)?(?=\n|\Z))*", text, re.MULTILINE)


def read_cases(text, scope):
    """A definition by cases: a line with its type, if there is one, and a line for each case."""
    types, cases = (), []
    for part in clauses_of(re.sub(r"--[^\n]*", "", text)):
        if " =" in part:
            parser = Parser(part, scope)
            parser.take()
            patterns = patterns_before(parser, "=")
            cases.append((patterns, parser.whole()))
        else:
            types = argument_types(Parser(part.partition(":")[2], scope).whole())
    return Definition(types, tuple(cases))


def argument_types(term):
    """The types of the arguments of a function of this type, those in braces aside."""
    types = []
    while isinstance(term, (Bound, Joined)):
        if isinstance(term, Bound):
            types += [] if term.type == Name("Kind") else [term.type]
            term = term.body
        elif term.operator == "→":
            types.append(term.parts[0])
            term = term.parts[1]
        else:
            break
    return tuple(types)


def patterns_before(parser, mark):
    """The patterns before a token, which is taken too; what stands in braces is left out."""
    found = []
    while parser.next() != mark:
        if parser.next() == "{":
            parser.skip_braces()
        else:
            found.append(pattern(parser))
    parser.take()
    return tuple(found)


def pattern(parser):
    """The next pattern: a variable, or a variant of patterns."""
    token = parser.take()
    if token == "(":
        inner = patterns_before(parser, ")")
        return Call(inner[0], inner[1:]) if inner[1:] else inner[0]
    if (parser.next() or "").startswith(".") and parser.next()[1:2].isupper():
        return Name(parser.take()[1:])
    if is_variant_name(token):
        return Name(token)
    if not re.fullmatch(r"\w+", token):
        raise Unreadable(f"a pattern with {token}")
    return Name(parser.bind(token)[0])


def read_record(text, scope):
    """A record: its parameters, and what its fields are."""
    head, _, body = text.partition(" where\n")
    parser = Parser(head, scope)
    while not parser.is_group() and parser.next() != ":":
        parser.take()
    own, types = [], []
    while parser.is_group():
        is_given = parser.next() == "("
        names, type_ = parser.variables()
        own += names if is_given else ()
        types += [type_] * len(names) if is_given else []
    fields, terms = [], []
    for part in re.findall(r"^  (?:pub )?(?!--)(\S.*(?:\n    +.*)*)", body, re.MULTILINE):
        name, _, rest = part.partition(" : ")
        inner = Parser(re.sub(r"--[^\n]*", "", rest), scope)
        inner.bound = dict(parser.bound)
        fields.append(name)
        terms.append(inner.whole())
    return Definition(tuple(types), ((tuple(map(Name, own)), Parts("fields", tuple(terms))),), tuple(fields))


@functools.cache
def standard():
    """The definitions of STANDARD by their names."""
    parts = {}
    for line in STANDARD.strip().split("\n"):
        parts.setdefault(line.split(" ")[0], []).append(line)
    return {name: read_cases("\n".join(lines) + "\n", no_scope) for name, lines in parts.items()}


def opened(term):
    """A term whose definition at its top, one without cases, is unfolded; a record gives the product of its fields."""
    head = head_of(term)
    found = definition(head.home) if isinstance(head, Name) and head.home else None
    if found is None or len(found.cases) != 1 or len(found.cases[0][0]) > len(arguments_of(term)):
        return None
    ((patterns, body),) = found.cases
    if any(is_variant(it) for it in patterns):
        return None
    arguments = arguments_of(term)
    body = put(body, {it.word: value for it, value in zip(patterns, arguments)})
    return Joined("×", body.parts) if found.fields else applied(body, arguments[len(patterns) :])


# ---- variants


@functools.cache
def enums():
    """The variants of each enum of the tree, by its name."""
    found = {}
    for crate in contracts.crate_names():
        for path in contracts.sources(crate):
            text = contracts.read(path)
            for it in re.finditer(r"^pub enum (\w+)", text, re.MULTILINE):
                names = [name for name, _ in contracts.Type(path, "enum", it[1], text, it.start()).variants]
                found.setdefault(it[1], []).append(tuple(names))
    return found


@functools.cache
def variant_names():
    return {"Ok", "Err", "Some", "None", "true", "false"} | {name for its in enums().values() for names in its for name in names}


def is_variant_name(word):
    return word in variant_names()


def head_of(term):
    """The function of a call, or the term."""
    return term.function if isinstance(term, Call) else term


def arguments_of(term):
    return term.arguments if isinstance(term, Call) else ()


def is_variant(term):
    """Whether a term, or a pattern, is a variant of an enum, of a Result, of an Option or of a Bool."""
    head = head_of(term)
    return isinstance(head, Name) and head.home is None and is_variant_name(head.word)


def variants_of(type_, used):
    """The variants of a type of which these are used, each with the types of what it holds, as far as these are known."""
    name, inner = getattr(head_of(type_), "word", None), arguments_of(type_)
    if name == "Result" and len(inner) == 2:
        return {"Ok": inner[:1], "Err": inner[1:]}
    if name == "Option":
        return {"Some": inner, "None": ()}
    if name == "Bool":
        return {"true": (), "false": ()}
    found = {names for names in enums().get(name, ()) if used <= {*names}}
    if len(found) != 1:
        raise Unreadable(f"the variants of {name} are not known")
    return {it: None for it in found.pop()}


def held_types(known, count):
    """The types of what a variant holds, or so many unknown ones."""
    return known if known is not None and len(known) == count else (UNKNOWN,) * count


def lacks(rows, types):
    """A case that the patterns of these rows lack, or None."""
    if not types:
        return None if rows else ""
    used = {head_of(row[0]).word for row in rows if is_variant(row[0])}
    if not used:
        return lacks([row[1:] for row in rows], types[1:])
    for variant, inner in variants_of(types[0], used).items():
        count = max([len(arguments_of(row[0])) for row in rows if head_of(row[0]).word == variant], default=len(inner or ()))
        left = [within(row, variant, count) for row in rows if not is_variant(row[0]) or head_of(row[0]).word == variant]
        missing = lacks(left, (*held_types(inner, count), *types[1:]))
        if missing is not None:
            return f"{variant} {missing}".strip()
    return None


def within(row, variant, count):
    """A row of patterns inside a variant that holds so many values."""
    return (*(arguments_of(row[0]) if is_variant(row[0]) else (Name("_"),) * count), *row[1:])


def check_complete(head, found):
    """Raises Unreadable if a definition by cases lacks one."""
    rows = [patterns for patterns, _ in found.cases]
    if any(is_variant(it) for row in rows for it in row):
        missing = lacks(rows, found.types)
        if missing is not None:
            raise Unreadable(f"{head.word} lacks the case {missing}")


def part_of(term, word, place):
    """What a term holds at a place if it has this variant."""
    return Field(term, f"{word}.{place}")


def parts_of(term, word, count):
    """What a term holds if it has this variant."""
    held = arguments_of(term) if is_variant(term) and head_of(term).word == word else ()
    return held if len(held) == count else tuple(part_of(term, word, place) for place in range(count))


def forget():
    """Forgets what was read of the tree."""
    for it in (definition, enums, variant_names):
        it.cache_clear()
