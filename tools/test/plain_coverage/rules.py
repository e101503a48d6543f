"""Rule files: docs/FORMATS.md, "Rule files"; what a formula says: docs/DEFINITIONS.md, "Satisfaction".

A formula is a tuple of its operator and its operands; an atom is ("atom", NAME).
"""
import functools
import re

from plain_coverage.texts import FILE_LIMIT, Refused

UNARY = {b"always", b"eventually", b"next", b"not"}
CHAINS = {b"and", b"or"}
BINARY = {b"until", b"release", b"weak_until", b"imply", b"equivalent"}
DEEPEST = LONGEST = MOST_DEFINITIONS = 256
PIECES = re.compile(rb"(?P<gap>[ \t\r\n]+|#[^\n]*)|(?P<piece>[()=]|[A-Za-z0-9_]+)")


class Rule:
    """The names of the atoms, and the formula."""

    def __init__(self, atoms, formula):
        self.atoms, self.formula = atoms, formula


def pieces_of(text):
    place, pieces = 0, []
    while place < len(text):
        found = PIECES.match(text, place)
        if not found:
            raise Refused(9)
        if found["piece"]:
            pieces.append(found["piece"])
        place = found.end()
    return pieces


def is_name(piece):
    return re.fullmatch(rb"[A-Z][A-Z0-9_]*", piece) is not None


class Reader:
    """Reads pieces from the left; whatever has no form is refused with 9."""

    def __init__(self, pieces):
        self.pieces, self.place = pieces, 0

    def peek(self):
        return self.pieces[self.place] if self.place < len(self.pieces) else b""

    def take(self):
        piece = self.peek()
        self.place += 1
        return piece

    def want(self, piece):
        if self.take() != piece:
            raise Refused(9)

    def term(self, depth):
        piece = self.take()
        if piece in (b"true", b"false"):
            return (piece.decode(),)
        if is_name(piece):
            return ("atom", piece)
        if depth == 0:
            raise Refused(9)
        if piece == b"(":
            inner = self.expression(depth - 1)
            self.want(b")")
            return inner
        if piece in UNARY:
            return (piece.decode(), self.term(depth - 1))
        raise Refused(9)

    def expression(self, depth):
        formula, operator, count = self.term(depth), self.peek(), 1
        if operator in BINARY:
            self.take()
            return (operator.decode(), formula, self.term(depth))
        while operator in CHAINS and self.peek() == operator:
            self.take()
            count += 1
            if count > LONGEST:
                raise Refused(9)
            formula = (operator.decode(), formula, self.term(depth))
        return formula

    def definitions(self):
        found = []
        while self.peek():
            name = self.take()
            if not is_name(name):
                raise Refused(9)
            self.want(b"=")
            found.append((name, self.expression(DEEPEST)))
        if len(found) > MOST_DEFINITIONS:
            raise Refused(9)
        return found


def names_in(formula):
    if formula[0] == "atom":
        return {formula[1]}
    return set().union(*map(names_in, formula[1:]))


def refuse_cycles(bodies):
    """Refuses definitions of which one reaches itself."""
    uses = {name: names_in(body) & set(bodies) for name, body in bodies.items()}
    done = set()
    while len(done) < len(uses):
        ready = [name for name in uses if name not in done and uses[name] <= done]
        if not ready:
            raise Refused(12)
        done.update(ready)


def rule_of(text):
    """The rule of a text; the first of the refusals 9 to 14 that applies."""
    if len(text) > FILE_LIMIT:
        raise Refused(9)
    definitions = Reader(pieces_of(text)).definitions()
    bodies = dict(definitions)
    if b"RULE" not in bodies:
        raise Refused(10)
    if len(bodies) < len(definitions):
        raise Refused(11)
    refuse_cycles(bodies)

    @functools.cache
    def atoms(name):
        return frozenset().union(*(atoms(it) if it in bodies else {it} for it in names_in(bodies[name])))

    def weight(formula):
        if formula[0] == "atom" and formula[1] in bodies:
            return weight_of(formula[1])
        of = [weight(it) for it in formula[1:] if formula[0] != "atom"]
        if formula[0] == "equivalent":
            return 3 + 2 * sum(of)
        return 2 + of[0] + 2 * of[1] if formula[0] == "weak_until" else 1 + sum(of)

    @functools.cache
    def weight_of(name):
        return weight(bodies[name])

    def replaced(formula):
        if formula[0] == "atom":
            return replaced(bodies[formula[1]]) if formula[1] in bodies else formula
        return (formula[0], *map(replaced, formula[1:]))

    if len(atoms(b"RULE")) > 32:
        raise Refused(13)
    if weight_of(b"RULE") > 1024:
        raise Refused(14)
    return Rule(sorted(atoms(b"RULE")), replaced(bodies[b"RULE"]))


# ---- what a formula says


def holds_now(formula, letter):
    """Whether a formula without temporal operators holds of a letter, the set of the atoms that are true."""
    return satisfies(False, [letter], formula)


def satisfies(is_weak, letters, formula):
    """Whether letters satisfy a formula in a view, by its definition: slow, and on nothing but the letters themselves."""
    if not letters:
        return is_weak
    operator, *of = formula

    def now(view, which):
        return satisfies(view, letters, which)

    if operator in ("true", "false"):
        return operator == "true"
    if operator == "atom":
        return of[0] in letters[0]
    if operator == "not":
        return not now(not is_weak, of[0])
    if operator == "next":
        return satisfies(is_weak, letters[1:], of[0])
    if operator == "and":
        return now(is_weak, of[0]) and now(is_weak, of[1])
    if operator == "or":
        return now(is_weak, of[0]) or now(is_weak, of[1])
    if operator == "until":
        places = range(len(letters) + 1)
        return any(satisfies(is_weak, letters[k:], of[1]) and all(satisfies(is_weak, letters[j:], of[0]) for j in range(k)) for k in places)
    stands_for = {
        "imply": lambda f, g: ("or", ("not", f), g),
        "equivalent": lambda f, g: ("or", ("and", f, g), ("and", ("not", f), ("not", g))),
        "eventually": lambda f: ("until", ("true",), f),
        "always": lambda f: ("not", ("eventually", ("not", f))),
        "release": lambda f, g: ("not", ("until", ("not", f), ("not", g))),
        "weak_until": lambda f, g: ("release", g, ("or", f, g)),
    }
    return now(is_weak, stands_for[operator](*of))
