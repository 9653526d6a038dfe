"""What terms say, as formulas. Atoms are `is`, a term and a variant that it has; `same` and `less`, two terms; `some`, what some values
satisfy; and `fact`, a term that is not unfolded."""

import itertools
import sys

sys.dont_write_bytecode = True
from definitions import UNKNOWN, arguments_of, check_complete, definition, head_of, held_types, is_variant, parts_of, standard, variants_of
from propositions import atoms_of, conj, disj, iff, negation
from terms import Bound, Joined, Name, applied, matched, names_in, plain, put, rebuilt

RESULT = "result"


class Meaning:
    """Makes formulas of terms. `opens` says which definitions of the tree it unfolds: none, those of the result, or all."""

    def __init__(self, opens):
        self.opens, self.variants, self.some, self.inner = opens, {}, {}, {RESULT}

    def fact(self, term, inside=()):
        """What a term says, as a formula."""
        if isinstance(term, Joined):
            return self.joined(term, inside)
        head = head_of(term)
        if isinstance(head, Name) and head.word in ("⊤", "Unit", "⊥"):
            return head.word != "⊥"
        found = self.unfolded(head, arguments_of(term), inside) if isinstance(head, Name) else None
        return ("fact", plain(term)) if found is None else found

    def joined(self, term, inside):
        """The same of terms between which an operator stands."""
        operator, parts = term.operator, term.parts
        if operator in ("≡", "≢"):
            found = self.same(*parts)
            return found if operator == "≡" else negation(found)
        if operator in ("<", "≤"):
            less, more = map(plain, parts if operator == "<" else reversed(parts))
            found = False if less == more else ("less", less, more)
            return found if operator == "<" else negation(found)
        said = [self.fact(part, inside) for part in parts]
        if operator == "→":
            return disj(negation(said[0]), said[1])
        return {"¬": negation, "×": conj, "⊎": disj, "↔": iff}[operator](*said)

    def same(self, one, other):
        """That two terms are equal: of a variant, that the other term is this variant, and what it holds."""
        if is_variant(one) and not is_variant(other):
            one, other = other, one
        if plain(one) == plain(other):
            return True
        if not is_variant(other):
            return ("same", *sorted((plain(one), plain(other)), key=repr))
        word, held = head_of(other).word, arguments_of(other)
        return conj(self.has_variant(one, word), *map(self.same, parts_of(one, word, len(held)), held))

    def has_variant(self, term, word):
        """That a term is this variant."""
        return head_of(term).word == word if is_variant(term) else ("is", plain(term), word)

    def unfolded(self, head, arguments, inside):
        """What a definition says of its arguments; None if it is not unfolded here."""
        found = definition(head.home) if head.home else standard().get(head.word)
        is_open = not head.home or self.opens == "all" or self.opens == RESULT and any(RESULT in names_in(it) for it in arguments)
        if found is None or not is_open or head.home and head.home in inside:
            return None
        if any(len(patterns) > len(arguments) for patterns, _ in found.cases):
            return None
        if found.fields:
            return self.record(found, arguments, (*inside, head.home))
        check_complete(head, found)
        return self.cases(found, arguments, (*inside, head.home))

    def record(self, found, arguments, inside):
        """What the fields of a record say; None if a field is a value of which another one speaks."""
        ((patterns, body),) = found.cases
        if any(names_in(part) & set(found.fields) for part in body.parts):
            return None
        values = {it.word: value for it, value in zip(patterns, arguments)}
        return conj(*(self.fact(put(part, values), inside) for part in body.parts))

    def cases(self, found, arguments, inside):
        """What the first case says whose patterns the arguments have."""
        said, before = [], []
        for patterns, body in found.cases:
            values = {}
            types = found.types if len(found.types) >= len(patterns) else (UNKNOWN,) * len(patterns)
            test = conj(*(self.fits(*it, values) for it in zip(patterns, arguments, types)))
            meant = self.fact(applied(put(body, values), arguments[len(patterns) :]), inside) if test is not False else True
            said.append(disj(negation(test), *before, meant))
            before.append(test)
        return conj(*said)

    def fits(self, its, term, type_, values):
        """Whether a term has a pattern, whose variables get their values."""
        if not is_variant(its):
            values[its.word] = term
            return True
        word, inner = head_of(its).word, arguments_of(its)
        known = variants_of(type_, {word})
        if is_variant(term) and head_of(term).word != word:
            return False
        self.variants[plain(term)] = tuple(known)
        types = held_types(known[word], len(inner))
        parts = parts_of(term, word, len(inner))
        return conj(self.has_variant(term, word), *(self.fits(*it, values) for it in zip(inner, parts, types)))

    def claim(self, term):
        """What a clause says. With variables in front and one premise on them, it says what follows if some values satisfy it."""
        free, premises, conclusion = stripped(term)
        own = [it for it in premises if names_in(it) & free]
        if len(own) > 1 or free and not own:
            return True
        self.inner |= free
        others = [negation(self.fact(it)) for it in premises if it not in own]
        return disj(*others, *(negation(self.some_of(it, free)) for it in own), self.fact(conclusion))

    def some_of(self, premise, free):
        """That some values of the free variables satisfy a premise."""
        found = ("some", plain(put(premise, {it: Name("_") for it in free})))
        self.some[found] = (premise, free)
        return found

    def completed(self, formula, laws=()):
        """A formula, with what is known of its atoms besides."""
        formula = conj(formula, *(said for law in laws for said in self.instances(law, atoms_of(formula))))
        formula = conj(formula, *self.replaced(atoms_of(formula)))
        atoms = atoms_of(formula)
        for some, (premise, free) in self.some.items():
            its = [it for it in atoms if it[0] == "fact" and matched(premise, it[1], free, {}) is not None]
            formula = conj(formula, *(disj(negation(it), some) for it in its))
        return conj(formula, *self.variants_exclude(atoms))

    def replaced(self, atoms):
        """What the result holds is the same as what it equals: each atom on it says so of that."""
        for equal in [it for it in atoms if it[0] == "same"]:
            own, other = sorted(equal[1:], key=lambda it: RESULT not in names_in(it))
            if RESULT in names_in(own) and RESULT not in names_in(other):
                for atom in atoms:
                    new = tuple(instead(part, own, other) for part in atom)
                    if new != atom and atom != equal:
                        yield disj(negation(equal), iff(atom, new))

    def variants_exclude(self, atoms):
        """Each term has one of its variants."""
        used = {}
        for _, term, word in (it for it in atoms if it[0] == "is"):
            used.setdefault(term, set()).add(word)
        for term, words in used.items():
            pairs = [it for it in (("Ok", "Err"), ("Some", "None"), ("true", "false")) if words <= set(it)]
            known = pairs[0] if pairs else self.variants.get(term, ())
            its = [("is", term, word) for word in sorted(words | set(known))]
            yield conj(*(negation(conj(one, two)) for one, two in itertools.combinations(its, 2)))
            yield disj(*its) if known else True

    def instances(self, law, atoms):
        """What a law says of the terms of which the atoms speak."""
        free, premises, conclusion = stripped(law)
        terms = [it[1] for it in atoms if it[0] == "fact"]
        found = [{}]
        for premise in premises:
            found = [new for values in found for term in terms if (new := matched(premise, term, free, values)) is not None]
        for values in found:
            if free <= values.keys():
                yield disj(*(negation(self.fact(put(it, values))) for it in premises), self.fact(put(conclusion, values)))


def instead(part, own, other):
    """A part of an atom with another term in place of one."""
    if part == own:
        return other
    return part if isinstance(part, str) or part is None else rebuilt(part, lambda it: instead(it, own, other))


def stripped(term):
    """The variables in front of a term, its premises, and its conclusion."""
    free, premises = set(), []
    while isinstance(term, (Bound, Joined)) and term.operator == "→":
        if isinstance(term, Bound):
            free.add(term.variable)
            term = term.body
        else:
            premises.append(term.parts[0])
            term = term.parts[1]
    return free, premises, term
