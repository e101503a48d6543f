"""The table of a rule: docs/FORMATS.md, "Tables", and docs/DECISIONS.md, "Tables" (Gerth, Peled, Vardi and Wolper, 1995).

A tree is ("label", FORMULA), ("next", A), or ("and", "or", "until", "release") of two trees.
"""
from plain_coverage.rules import holds_now
from plain_coverage.texts import Refused

TEMPORAL = {"next", "until", "release", "weak_until", "always", "eventually"}
MOST_PARTS, MOST_BRANCHES, MOST_NODES = 64, 4096, 31
DUAL = {"and": "or", "or": "and", "until": "release", "release": "until"}


def is_plain(formula):
    """It has no temporal operator."""
    return formula[0] == "atom" or formula[0] not in TEMPORAL and all(map(is_plain, formula[1:]))


def label(formula, is_so):
    if is_so:
        return ("label", formula)
    return ("label", {"true": ("false",), "false": ("true",)}.get(formula[0], ("not", formula)))


def tree_of(formula, is_so=True):
    """The normal form of a formula, or of its negation."""
    if is_plain(formula):
        return label(formula, is_so)
    operator, *of = formula
    if operator == "not":
        return tree_of(of[0], not is_so)
    if operator == "next":
        return ("next", tree_of(of[0], is_so))
    if operator in ("always", "eventually"):
        is_until = (operator == "eventually") == is_so
        return ("until" if is_until else "release", label(("true",) if is_until else ("false",), True), tree_of(of[0], is_so))
    left, right = of
    if operator == "imply":
        return ("or" if is_so else "and", tree_of(left, not is_so), tree_of(right, is_so))
    if operator == "equivalent":
        return ("or", ("and", tree_of(left), tree_of(right, is_so)), ("and", tree_of(left, False), tree_of(right, not is_so)))
    if operator == "weak_until":
        return ("release" if is_so else "until", tree_of(right, is_so), tree_of(("or", left, right), is_so))
    return (operator if is_so else DUAL[operator], tree_of(left, is_so), tree_of(right, is_so))


class Table:
    """Rows from 1, each with its labels and the rows that may come next; row 0 is where runs begin."""

    def __init__(self, labels, nexts):
        self.labels, self.nexts = labels, nexts  # by row; row 0 has no labels

        self.entered = {}

    def enters(self, letter):
        """The rows whose labels a letter makes true."""
        if letter not in self.entered:
            self.entered[letter] = self.entered_by(letter)
        return self.entered[letter]

    def entered_by(self, letter):
        return frozenset(row for row in range(1, len(self.labels)) if all(holds_now(it, letter) for it in self.labels[row]))

    def step(self, rows, letter):
        return frozenset().union(*(self.nexts[row] for row in rows)) & self.enters(letter)


def parts_of(tree, parts):
    """The distinct parts in the order of a walk: the left operand, the right one, then the part itself."""
    if tree[0] != "label":
        for it in tree[1:]:
            parts_of(it, parts)
    if tree not in parts:
        parts.append(tree)
    return parts


def branches(part):
    """The branch number of a part."""
    if part[0] == "label":
        return 0 if part[1] == ("false",) else 1
    if part[0] == "next":
        return 1
    a, b = map(branches, part[1:])
    return {"and": a * b, "or": a + b, "until": b + a, "release": a * b + b}[part[0]]


def unions(some, others):
    return {(a | c, b | d) for a, b in some for c, d in others}


def cover(part, numbers):
    """What a part asks of the first letter and of the rest: pairs of a set of labels and a set of parts."""
    kind = part[0]
    if kind == "label":
        if part[1] in (("true",), ("false",)):
            return {(0, 0)} if part[1] == ("true",) else set()
        return {(1 << numbers[part], 0)}
    if kind == "next":
        return {(0, 1 << numbers[part[1]])}
    a, b = (cover(it, numbers) for it in part[1:])
    later = {(0, 1 << numbers[part])}
    return {"and": lambda: unions(a, b), "or": lambda: a | b, "until": lambda: b | unions(a, later), "release": lambda: unions(a, b) | unions(b, later)}[kind]()


def table_of(formula):
    """The table of a formula, or the first of the refusals 15 to 17."""
    parts = parts_of(tree_of(formula), [])
    if len(parts) > MOST_PARTS:
        raise Refused(15)
    numbers = {part: number for number, part in enumerate(parts)}

    def members(which):
        return [part for number, part in enumerate(parts) if which >> number & 1]

    sets, nodes, covers = [1 << len(parts) - 1], [], {}
    for which in sets:  # sets are added while it goes on
        number = 1
        for part in members(which):
            number *= branches(part)
        if number > MOST_BRANCHES:
            raise Refused(16)
        found = {(0, 0)}
        for part in members(which):
            found = unions(found, cover(part, numbers))
        covers[which] = found
        new = sorted(found - set(nodes))
        nodes += new
        if len(nodes) > MOST_NODES:
            raise Refused(17)
        sets += [it for it in dict.fromkeys(later for _, later in new) if it not in sets]
    rows = {node: row for row, node in enumerate(nodes, 1)}
    nexts = [frozenset(rows[it] for it in covers[which]) for which in [sets[0], *(later for _, later in nodes)]]
    return Table([[], *([part[1] for part in members(labels)] for labels, _ in nodes)], nexts)


# ---- how a row's labels are printed


def formula_text(formula):
    operator, *of = formula
    if operator == "atom":
        return of[0].decode()
    if not of:
        return operator
    operands = [text if it[0] in ("atom", "true", "false") else f"({text})" for it, text in ((it, formula_text(it)) for it in of)]
    return f"{operator} {operands[0]}" if len(operands) == 1 else f" {operator} ".join(operands)


def labels_text(labels):
    return "[" + "; ".join(map(formula_text, labels)) + "]"
