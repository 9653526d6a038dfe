"""The language of clauses and definitions, as far as checks/exactness.py needs it: tokens, terms, and a parser that reads one into the
other. `Unreadable` is raised by what it does not know, such as `do`, `elim` and definitions inside a module.

How terms group is as in antt: a field binds tightest, then arguments, arithmetic, one relation, `¬`, `×`, `⊎`, `↔`, `→`. Arithmetic is kept
as it is written, without the order of its operators. Each bound variable gets a name of its own, so that none is captured."""

import itertools
import re
from dataclasses import dataclass, fields


class Unreadable(Exception):
    """A text that is not in the language that is read here, or a definition that lacks a case."""


@dataclass(frozen=True)
class Name:
    """A name, and the definition of the tree that it stands for, if it stands for one."""

    word: str
    home: tuple = None


@dataclass(frozen=True)
class Field:
    of: object
    word: str


@dataclass(frozen=True)
class Call:
    function: object
    arguments: tuple


@dataclass(frozen=True)
class Lambda:
    variable: str
    body: object


@dataclass(frozen=True)
class Bound:
    """`(x : A) → B` or `(x : A) × B`, by the operator."""

    operator: str
    variable: str
    type: object
    body: object


@dataclass(frozen=True)
class Joined:
    """Terms between which an operator stands: `→`, `↔`, `⊎`, `×`, `¬` before one term, a relation, or `+` for any arithmetic."""

    operator: str
    parts: tuple


@dataclass(frozen=True)
class Parts:
    """What is kept as it is written: a pair, a record or arithmetic, by its first word."""

    word: str
    parts: tuple


RELATIONS = {"≡", "≢", "<", "≤"}
ARITHMETIC = {"+", "-", "*", "/", "%", "^", "++", "∷", "&&", "||", "=="}
CLOSING = {")", "}", "]", ",", ";", "in", "then", "else", "=", "where", None}
UNKNOWN = {"do", "elim", "unfolding", "mutual", "module", "open", "Type"}
TOKEN = re.compile(r'\s+|--[^\n]*|("[^"\n]*"|«\w+»|λ|\[\]|[≤<+*-]ℤ|\d+|(?!λ)[^\W\d][\w\']*|\.\w+|\+\+|&&|\|\||==|>>=|.)', re.DOTALL)
variables = itertools.count()


def tokens_of(text):
    """The tokens of a text. A dot and the word right behind it are one token, a field."""
    return [it[1] for it in TOKEN.finditer(text) if it[1]]


class Parser:
    """Reads terms from tokens. `scope` says what definition of the tree a name, or a name behind another one and a dot, stands for.

    term: `λ x. term`, `let x = term in term`, `(x : term) → term`, or equivalence [`→` term]
    equivalence: sum [`↔` sum]
    sum: product {`⊎` product}
    product: factor {`×` factor}
    factor: `(x : term) ×` product, `¬` factor, or sized [relation sized]
    sized: application {arithmetic application}
    application: primary {primary}
    primary: a name, a number, a text, `(term, ..)`, `record ..`, or `if ..`; behind it fields
    """

    def __init__(self, text, scope):
        self.tokens, self.at, self.scope, self.bound = tokens_of(text), 0, scope, {}

    def next(self, ahead=0):
        place = self.at + ahead
        return self.tokens[place] if place < len(self.tokens) else None

    def take(self, expected=None):
        token = self.next()
        if token is None or expected not in (None, token):
            raise Unreadable(f"{expected or 'more'} is missing at {' '.join(self.tokens[max(0, self.at - 5) : self.at + 3])}")
        self.at += 1
        return token

    def whole(self):
        term = self.term()
        if self.next() is not None:
            raise Unreadable(f"{self.next()} is not read in: {' '.join(self.tokens)}")
        return term

    def bind(self, word):
        """A name of its own for a variable, and what its name meant before."""
        before, own = self.bound.get(word), f"{word}#{next(variables)}"
        self.bound[word] = own
        return own, (word, before)

    def unbind(self, before):
        for word, own in reversed(before):
            self.bound[word] = own

    def is_group(self):
        """Whether `(x y : A)` begins here."""
        ahead = 1
        while re.fullmatch(r"\w+", self.next(ahead) or ""):
            ahead += 1
        return self.next() in ("(", "{") and ahead > 1 and self.next(ahead) == ":"

    def group(self):
        """The variables of `(x y : A)`, with names of their own, A, and what they meant before."""
        closing = {"(": ")", "{": "}"}[self.take()]
        words = list(iter(self.take, ":"))
        type_ = self.term()
        self.take(closing)
        own, before = zip(*map(self.bind, words))
        return own, type_, list(before)

    def variables(self):
        """The variables of `(x y : A)`, which are bound from here on, and A."""
        return self.group()[:2]

    def behind_groups(self):
        """The token behind the groups that begin here."""
        ahead, depth = 0, 0
        while depth or self.next(ahead) in ("(", "{"):
            token = self.next(ahead)
            depth += (token in ("(", "{")) - (token in (")", "}"))
            ahead += 1
            if token is None:
                raise Unreadable(f"a bracket is open in: {' '.join(self.tokens)}")
        return self.next(ahead)

    def term(self):
        if self.next() == "λ":
            return self.function()
        if self.next() == "let":
            return self.definition()
        if self.is_group() and self.behind_groups() == "→":
            return self.behind_variables("→", self.term)
        left = self.equivalence()
        if self.next() != "→":
            return left
        self.take()
        return Joined("→", (left, self.term()))

    def behind_variables(self, operator, body):
        """What begins with groups of variables and an operator."""
        groups = []
        while self.is_group():
            groups.append(self.group())
        self.take(operator)
        found = body()
        for own, type_, before in reversed(groups):
            self.unbind(before)
            for variable in reversed(own):
                found = Bound(operator, variable, type_, found)
        return found

    def function(self):
        self.take("λ")
        pairs = [self.bind(word) for word in iter(self.take, ".")]
        body = self.term()
        self.unbind([before for _, before in pairs])
        for own, _ in reversed(pairs):
            body = Lambda(own, body)
        return body

    def definition(self):
        """`let x : A = e in body`, with e put in for x."""
        self.take("let")
        word = self.take()
        if self.next() == ":":
            self.take()
            self.term()
        self.take("=")
        value = self.term()
        self.take("in")
        own, before = self.bind(word)
        body = self.term()
        self.unbind([before])
        return put(body, {own: value})

    def equivalence(self):
        return self.between("↔", self.sum, most=2)

    def sum(self):
        return self.between("⊎", self.product)

    def product(self):
        return self.between("×", self.factor)

    def between(self, operator, part, most=None):
        parts = [part()]
        while self.next() == operator and (most is None or len(parts) < most):
            self.take()
            parts.append(part())
        return parts[0] if len(parts) == 1 else Joined(operator, tuple(parts))

    def factor(self):
        if self.is_group():
            return self.behind_variables("×", self.product)
        if self.next() == "¬":
            self.take()
            return Joined("¬", (self.factor(),))
        if self.next() in ("λ", "let"):
            return self.term()
        left = self.sized()
        if self.next() not in RELATIONS:
            return left
        found = Joined(self.take(), (left, self.sized()))
        if self.next() in RELATIONS:
            raise Unreadable(f"two relations: {' '.join(self.tokens)}")
        return found

    def sized(self):
        parts = [self.application()]
        while self.next() in ARITHMETIC:
            parts += [Name(self.take()), self.application()]
        return parts[0] if len(parts) == 1 else Parts("+", tuple(parts))

    def application(self):
        function, arguments = self.primary(), []
        while self.begins_primary():
            if self.next() == "{":
                self.skip_braces()
            else:
                arguments.append(self.primary())
        return Call(function, tuple(arguments)) if arguments else function

    def begins_primary(self):
        token = self.next()
        if token in CLOSING or token in UNKNOWN:
            return False
        return token in ("(", "{", "[]", "⊤", "⊥") or re.fullmatch(r'\w+|".*"|«\w+»|[\w\']+', token) is not None

    def skip_braces(self):
        self.take("{")
        while self.take() != "}":
            pass

    def primary(self):
        token = self.take()
        if token == "(":
            found = self.pair()
        elif token == "record":
            found = self.record()
        elif token == "if":
            found = Parts("if", (self.term(), self.behind("then"), self.behind("else")))
        elif token in UNKNOWN or not (token in ("[]", "⊤", "⊥") or re.fullmatch(r"[\w']+|\".*\"|«\w+»", token)):
            raise Unreadable(f"{token} in: {' '.join(self.tokens)}")
        else:
            found = self.name(token)
        while (self.next() or "").startswith(".") and self.next() != ".":
            found = Field(found, self.take()[1:])
        return found

    def behind(self, word):
        self.take(word)
        return self.term()

    def pair(self):
        parts = [self.term()]
        while self.next() == ",":
            self.take()
            parts.append(self.term())
        self.take(")")
        return parts[0] if len(parts) == 1 else Parts("pair", tuple(parts))

    def record(self):
        base = () if self.next() == "{" else (self.primary(),)
        self.take("{")
        given = []
        while self.next() != "}":
            word = self.take()
            self.take("=")
            given.append(Parts(word, (self.term(),)))
            if self.next() == ";":
                self.take()
        self.take("}")
        return Parts("record", (*base, *sorted(given, key=lambda it: it.word)))

    def name(self, word):
        """A variable, a definition of the tree, or another name: a variant keeps nothing of what stands before it."""
        if self.bound.get(word):
            return Name(self.bound[word])
        behind = (self.next() or "")[1:] if (self.next() or "").startswith(".") else ""
        home, is_alias = self.scope(word, behind)
        if is_alias or behind[:1].isupper():
            self.take()
            return Name(behind, home)
        return Name(word, home)


def children(term):
    """The terms that a term is made of."""
    for it in fields(term) if term is not None else ():
        value = getattr(term, it.name)
        for part in value if isinstance(value, tuple) else (value,):
            if hasattr(part, "__dataclass_fields__"):
                yield part


def rebuilt(term, change):
    """The term with each of its parts changed."""
    values = []
    for it in fields(term):
        value = getattr(term, it.name)
        if isinstance(value, tuple) and it.name != "home":
            value = tuple(change(part) for part in value)
        elif hasattr(value, "__dataclass_fields__"):
            value = change(value)
        values.append(value)
    return type(term)(*values)


def put(term, values):
    """The term with values in place of variables."""
    if isinstance(term, Name):
        return values.get(term.word, term) if term.home is None else term
    found = rebuilt(term, lambda part: put(part, values))
    return applied(found.function, found.arguments) if isinstance(found, Call) else found


def applied(function, arguments):
    """A function of these arguments, with those of a λ put in."""
    arguments = tuple(arguments)
    while arguments and isinstance(function, Lambda):
        function, arguments = put(function.body, {function.variable: arguments[0]}), arguments[1:]
    if not arguments:
        return function
    if isinstance(function, Call):
        return Call(function.function, function.arguments + arguments)
    return Call(function, arguments)


def names_in(term):
    """The names that a term has, those of its bound variables too."""
    return {term.word} if isinstance(term, Name) else {word for part in children(term) for word in names_in(part)}


def plain(term, known=None):
    """The term with its bound variables numbered, so that two that differ in their names alone are the same."""
    known = known or {}
    if isinstance(term, Name):
        return Name(known.get(term.word, term.word), term.home)
    if isinstance(term, (Lambda, Bound)):
        known = {**known, term.variable: f"#{len(known)}"}
        found = rebuilt(term, lambda part: plain(part, known))
        return type(term)(*[known[term.variable] if it.name == "variable" else getattr(found, it.name) for it in fields(term)])
    return rebuilt(term, lambda part: plain(part, known))


def matched(pattern, term, free, values):
    """The values of free variables with which a pattern is the term, or None."""
    if isinstance(pattern, Name) and pattern.word in free:
        return {**values, pattern.word: term} if values.get(pattern.word, term) == term else None
    if type(pattern) is not type(term):
        return None
    if isinstance(pattern, Name):
        return values if pattern == term else None
    mine, other = list(children(pattern)), list(children(term))
    same = [getattr(pattern, it.name) for it in fields(pattern) if isinstance(getattr(pattern, it.name), str)]
    if len(mine) != len(other) or same != [getattr(term, it.name) for it in fields(term) if isinstance(getattr(term, it.name), str)]:
        return None
    for one, two in zip(mine, other):
        values = matched(one, two, free, values)
        if values is None:
            return None
    return values
