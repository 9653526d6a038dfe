"""A checker of plain LRAT, which knows formulas in DIMACS and steps by unit propagation, and nothing of exchanges or tables: what other
checkers read, this one reads too (Cruz-Filipe, Heule, Hunt, Kaufmann and Schneider-Kamp 2017)."""


def clauses_of(formula):
    """The clauses of a formula by their numbers."""
    lines = [line for line in formula.splitlines() if line[:1] not in ("c", "p")]
    return {number: {*map(int, line.split()[:-1])} for number, line in enumerate(lines, 1)}


def conflicts(clauses, clause, hints):
    """Whether the hints lead to a conflict if all literals of a clause are false: each but the last has one literal left, the last none."""
    false = {*clause}
    for place, hint in enumerate(hints, 1):
        left = clauses.get(hint, {1, -1}) - false
        if not left:
            return place == len(hints)
        if len(left) > 1:
            return False
        false.add(-left.pop())
    return False


def fault_of(formula, proof):
    """The first line that is no right step, before the empty clause is added; `None` if it is added and there is no such line."""
    clauses = clauses_of(formula)
    newest = len(clauses)
    for line in proof.splitlines():
        number, *words = line.split()
        if words[0] == "d":
            for word in words[1:-1]:
                clauses.pop(int(word), None)
            continue
        try:
            values = [*map(int, words)]
        except ValueError:
            return line
        end = values.index(0)
        if int(number) <= newest or not conflicts(clauses, values[:end], values[end + 1 : -1]):
            return line
        newest = int(number)
        clauses[newest] = {*values[:end]}
        if not end:
            return None
    return "the empty clause is missing"
