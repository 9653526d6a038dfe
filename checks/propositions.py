"""Formulas of propositions: True, False, and tuples that begin with `and`, `or` or `not`, or with another word, which are atoms."""

JOINED = ("and", "or", "not")


def conj(*parts):
    """That all parts hold."""
    left = [it for it in parts if it is not True]
    return False if False in left else left[0] if len(left) == 1 else ("and", *left) if left else True


def disj(*parts):
    """That some part holds."""
    left = [it for it in parts if it is not False]
    return True if True in left else left[0] if len(left) == 1 else ("or", *left) if left else False


def negation(part):
    """That a part does not hold."""
    return not part if isinstance(part, bool) else part[1] if part[0] == "not" else ("not", part)


def iff(one, other):
    """That both hold or neither."""
    return conj(disj(negation(one), other), disj(one, negation(other)))


def atoms_of(formula):
    """The atoms of a formula."""
    if isinstance(formula, bool):
        return []
    if formula[0] not in JOINED:
        return [formula]
    return list(dict.fromkeys(atom for part in formula[1:] for atom in atoms_of(part)))


def valued(formula, atom, value):
    """The formula where an atom has this value."""
    if isinstance(formula, bool):
        return formula
    if formula == atom:
        return value
    if formula[0] not in JOINED:
        return formula
    return {"and": conj, "or": disj, "not": negation}[formula[0]](*(valued(part, atom, value) for part in formula[1:]))


def first_atom(formula):
    """An atom of a formula."""
    while formula[0] in JOINED:
        formula = formula[1]
    return formula


def is_possible(formula):
    """Whether some values of the atoms make the formula true."""
    while not isinstance(formula, bool):
        alone = next((part for part in formula[1:] if is_literal(part)), None) if formula[0] == "and" else None
        if alone is None:
            atom = first_atom(formula)
            return is_possible(valued(formula, atom, True)) or is_possible(valued(formula, atom, False))
        atom = alone[1] if alone[0] == "not" else alone
        formula = valued(formula, atom, alone[0] != "not")
    return formula


def is_literal(formula):
    """Whether a formula is an atom or not an atom."""
    return not isinstance(formula, bool) and (formula[0] not in JOINED or formula[0] == "not" and formula[1][0] not in JOINED)
