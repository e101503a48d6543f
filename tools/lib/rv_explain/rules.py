"""Refusals 9 to 17 of a rule file: a reader of the same grammar that says where it stops, and why."""
import re

from . import Finding, foreign, nearest, size_of

LARGEST, MOST_DEFINITIONS, LONGEST_CHAIN, DEEPEST, MOST_ATOMS, HEAVIEST = 1048576, 256, 256, 256, 32, 1024
TOLD = 10**18  # a weight that is told in digits
UNARY = ("always", "eventually", "next", "not")
BETWEEN_TWO = ("until", "release", "weak_until", "imply", "equivalent")
CHAINED = ("and", "or")
CONSTANTS = ("true", "false")
OPERATORS = (*UNARY, *BETWEEN_TWO, *CHAINED, *CONSTANTS)
TOKEN = re.compile(r"(?P<skip>[ \t\r\n]+|#[^\n]*)|(?P<mark>[()=])|(?P<word>[A-Za-z0-9_]+)")
TIMED = ("within", "during", "deadline", "timeout")  # words of logics with time
NAME = re.compile("[A-Z][A-Z0-9_]*")
# How others write the operators (Spot, Promela, C and logic), longest first.
SIGNS = {
    "<->": "equivalent", "<=>": "equivalent", "&&": "and", "/\\": "and", "||": "or", "\\/": "or", "->": "imply", "=>": "imply", "<>": "eventually",
    "[]": "always", "&": "and", "|": "or", "!=": "not", "!": "not", "~": "not", "^": "not",
}
SPELLED = {
    "globally": "always", "finally": "eventually", "implies": "imply", "iff": "equivalent", "equals": "equivalent", "releases": "release",
    "weakuntil": "weak_until", "unless": "weak_until", "wait_for": "weak_until", "strong_until": "until", "never": "always not", "sometime": "eventually", "xor": "not (.. equivalent ..)",
}
LETTERS = {"G": "always", "F": "eventually", "X": "next", "U": "until", "R": "release", "V": "release", "W": "weak_until"}


class Stop(Exception):
    def __init__(self, start, end, cause, mend):
        super().__init__(cause)
        self.start, self.end, self.cause, self.mend = start, end, cause, mend


class Token:
    def __init__(self, kind, text, start, end):
        self.kind, self.text, self.start, self.end = kind, text, start, end

    def shown(self):
        return "the end of the file" if self.kind == "end" else f"`{self.text}`"


def sign_stop(text, at):
    for sign, word in SIGNS.items():
        if text.startswith(sign, at):
            return Stop(at, at + len(sign), f"`{sign}` is no operator here: operators are words", f"write `{word}`" + (" and parentheses round what it takes" if word in BETWEEN_TWO else ""))
    if text.startswith(("//", "/*", "--"), at):
        return Stop(at, at + 2, "a comment begins with `#`", "write `#`")
    letter = text[at]
    if letter == ";":
        return Stop(at, at + 1, "no `;` ends a definition", "take it out")
    if letter in ".-":
        return Stop(at, at + 1, f"`{letter}` stands in a name", "a name has upper-case letters, digits and `_` alone")
    if letter == ":":
        return Stop(at, at + 1, "a definition is `NAME = FORMULA`", "write `=`")
    if letter in "[{<":
        return Stop(at, at + 1, f"`{letter}` is no parenthesis here", "use `(` and `)`; rules have no bounds of time")
    return Stop(at, at + 1, f"`{letter}` is no mark of this grammar", "take it out")


def tokens_of(text):
    tokens, at = [], 0
    while at < len(text):
        found = TOKEN.match(text, at)
        if not found:
            raise sign_stop(text, at)
        at = found.end()
        if found.lastgroup != "skip":
            tokens.append(Token(found.lastgroup, found[0], found.start(), found.end()))
    return tokens + [Token("end", "", len(text), len(text))]


class Reader:
    """Reads the definitions of a file up to the first that is not of the grammar: name, token and formula of each.

    A formula is a name or constant, or a list of an operator and its operands.
    """

    def __init__(self, text):
        self.definitions, self.at, self.depth = [], 0, 0
        self.tokens = tokens_of(text)
        while self.token.kind != "end":
            self.definition()
        if len(self.definitions) > MOST_DEFINITIONS:
            token = self.definitions[MOST_DEFINITIONS][1]
            raise Stop(token.start, token.end, f"there are {len(self.definitions)} definitions, and {MOST_DEFINITIONS} are read", "leave out those that `RULE` does not reach")

    @property
    def token(self):
        return self.tokens[self.at]

    def following(self, steps=1):
        return self.tokens[min(self.at + steps, len(self.tokens) - 1)]

    def next(self):
        self.at += 1
        return self.tokens[self.at - 1]

    def stop(self, token, cause, mend):
        raise Stop(token.start, token.end, cause, mend)

    def definition(self):
        name = self.token
        if name.kind != "word" or self.following().text != "=":
            self.no_definition(name)
        if not NAME.fullmatch(name.text):
            self.stop(name, f"`{name.text}` is no name of a definition", f"write `{name.text.upper()}`: names have upper-case letters, digits and `_`")
        self.at += 2
        self.definitions.append((name.text, name, self.expression()))

    def no_definition(self, token):
        if token.text == ")":
            self.stop(token, "this parenthesis closes none", "take it out, or open one before")
        if self.at == 0:
            self.stop(token, f"a definition is wanted, and {token.shown()} stands there", "begin with `RULE = `")
        last = self.tokens[self.at - 1]
        if token.text in LETTERS or last.text in LETTERS:
            letter = token if token.text in LETTERS else last
            self.stop(letter, f"`{letter.text}` is read as the name of an atom: operators are words", f"write `{LETTERS[letter.text]}`")
        lower = token.text.lower()
        if lower in OPERATORS and token.text != lower or lower in SPELLED:
            word = SPELLED.get(lower, lower)
            self.stop(token, f"`{token.text}` is no operator here", f"write `{word}`")
        if last.text.lower() in OPERATORS and last.text not in OPERATORS:
            self.stop(last, f"`{last.text}` is no operator here: they are lower-case words", f"write `{last.text.lower()}`")
        likely = nearest(token.text, [*OPERATORS, *SPELLED]) if token.kind == "word" and token.text not in OPERATORS else None
        if token.kind == "word" and NAME.fullmatch(token.text):
            self.stop(token, f"`{token.text}` follows {last.shown()} without an operator", "write an operator between them, or `NAME =` where a definition begins")
        self.no_time(token)
        self.stop(token, f"{token.shown()} follows a formula that is already whole", f"write `{SPELLED.get(likely, likely)}`" if likely else "write an operator between them, or put parentheses")

    def no_time(self, token):
        """A bound of time, which no rule has."""
        if token.text.lower() in TIMED or re.fullmatch("[0-9]+(?:ns|us|ms|s)", token.text):
            self.stop(token, f"{token.shown()} speaks of time, and a rule says the order of events alone", "leave the bound out; where an event tells that the time is over, as one of a timer does, bind it to an atom and write `not OVER until B`")

    def expression(self):
        first = self.term()
        operator = self.token
        if operator.text in CHAINED:
            parts = [operator.text, first]
            while self.token.text == operator.text:
                self.next()
                parts.append(self.term())
            if len(parts) - 1 > LONGEST_CHAIN:
                self.stop(operator, f"a chain of `{operator.text}` has {len(parts) - 1} operands, and {LONGEST_CHAIN} are read", "put parts of it into parentheses")
            if self.token.text in CHAINED + BETWEEN_TWO:
                self.stop(self.token, f"`{operator.text}` and `{self.token.text}` are mixed without parentheses", self.parentheses(operator))
            return parts
        if operator.text in BETWEEN_TWO:
            self.next()
            second = self.term()
            if self.token.text in CHAINED + BETWEEN_TWO:
                self.stop(self.token, f"`{operator.text}` stands between two terms alone, and `{self.token.text}` follows without parentheses", self.parentheses(operator))
            return [operator.text, first, second]
        return first

    def parentheses(self, operator):
        if operator.text == self.token.text:
            return f"put parentheses round the first `{operator.text}` with its terms, or round the second, as it is meant"
        return f"put parentheses round the part with `{operator.text}` or the part with `{self.token.text}`, as it is meant"

    def term(self):
        token = self.next()
        self.depth += 1
        if self.depth > DEEPEST + 1:
            self.stop(token, f"more than {DEEPEST} parentheses and unary operators are open here", "define a part of the formula by a name of its own")
        if token.text == "(":
            inner = self.expression()
            if self.token.text != ")":
                self.unclosed(token)
            self.next()
            found = inner
        elif token.text in UNARY:
            found = [token.text, self.term()]
        elif token.kind == "word" and (token.text in CONSTANTS or NAME.fullmatch(token.text)):
            if token.text in LETTERS and (self.token.text == "(" or self.token.kind == "word" and NAME.fullmatch(self.token.text) and self.following().text != "="):
                self.stop(token, f"`{token.text}` is read as the name of an atom: operators are words", f"write `{LETTERS[token.text]}`")
            found = token.text
        else:
            self.no_term(token)
        self.depth -= 1
        return found

    def unclosed(self, token):
        if self.token.kind == "end" or self.token.kind == "word" and self.following().text == "=":
            self.stop(token, "this parenthesis is not closed", "close it by `)`")
        self.no_definition(self.token)

    def no_term(self, token):
        if token.kind == "end" or token.text in ")=":
            last = self.tokens[self.at - 2]
            self.stop(last, f"nothing stands behind {last.shown()} that it could take" if token.text != "=" else "two `=` stand together", "write a formula there")
        lower = token.text.lower()
        if token.text in CHAINED + BETWEEN_TWO:
            self.stop(token, f"`{token.text}` has nothing before it", "write a formula on both sides")
        if lower in SPELLED:
            self.stop(token, f"`{token.text}` is no operator here", f"write `{SPELLED[lower]}`")
        self.no_time(token)
        likely = nearest(token.text, OPERATORS)
        if likely and (self.token.text == "(" or self.token.kind == "word" and self.token.text not in CHAINED + BETWEEN_TWO and self.following().text != "="):
            self.stop(token, f"`{token.text}` is no operator here", f"write `{likely}`")
        self.stop(token, f"`{token.text}` is no name of an atom", f"write `{re.sub('^[^A-Z]+', '', lower.upper()) or 'A'}`: names begin with an upper-case letter and have upper-case letters, digits and `_`")


def at_stop(text, stop):
    start = min(stop.start, len(text.rstrip()))
    line_start = text.rfind("\n", 0, start) + 1
    return Finding(stop.cause, stop.mend, text.count("\n", 0, start) + 1, start - line_start, stop.end - line_start if stop.end > stop.start else None)


def at_name(text, token, cause, mend):
    return at_stop(text, Stop(token.start, token.end, cause, mend))


def read(text):
    """The definitions of a rule file, or a finding of number 9."""
    try:
        return Reader(text).definitions, None
    except Stop as stop:
        return None, at_stop(text, stop)
    except RecursionError:
        return None, Finding(f"more than {DEEPEST} parentheses and unary operators are open at one place", "define parts of the formula by names of their own")


def names_in(formula):
    """The names that stand in a formula, each once, in their order."""
    found, left = {}, [formula]
    while left:
        it = left.pop()
        if not isinstance(it, str):
            left += reversed(it[1:])
        elif it not in CONSTANTS:
            found[it] = None
    return found


def names_of(definitions):
    """The names that stand in the formula of each definition; of two of one name the last one counts."""
    return {name: names_in(formula) for name, formula in {name: formula for name, _, formula in definitions}.items()}


def reached(names, name):
    """The names that a definition reaches by these names of each definition, the atoms and the defined ones."""
    found, left = {}, [name]
    while left:
        new = [it for it in names.get(left.pop(), ()) if it not in found]
        found.update(dict.fromkeys(new))
        left += new
    return found


def atoms_of(text):
    """The atoms of a rule file in order, or None where it is none."""
    definitions, _ = read(text)
    if definitions is None:
        return None
    defined = {name for name, _, _ in definitions}
    return sorted(set(reached(names_of(definitions), "RULE")) - defined)


def circles_of(names):
    """The definitions that reach themselves, in their order, each with the others that it reaches and that reach it."""
    bits = {name: 1 << place for place, name in enumerate(names)}
    reach = {name: sum(bits.get(it, 0) for it in those) for name, those in names.items()}
    for middle, bit in bits.items():
        for name in [it for it, those in reach.items() if those & bit]:
            reach[name] |= reach[middle]
    for name, bit in bits.items():
        if reach[name] & bit:
            yield name, [it for it in reached(names, name) if it != name and reach.get(it, 0) & bit]


def weight_of_rule(formulas, names):
    """The weight of `RULE`: that of each definition once, behind those of the names in it."""
    known, left = {"RULE": 1}, [("RULE", iter(names["RULE"]))]
    while left:
        name, those = left[-1]
        further = next((it for it in those if it in names and it not in known), None)
        if further is None:
            known[name] = weight_of(formulas[name], known)
            left.pop()
        else:
            known[further] = 1  # (as it stays where a definition reaches itself, and nothing has a weight)
            left.append((further, iter(names[further])))
    return known["RULE"]


def weight_of(formula, known):
    if isinstance(formula, str):
        return known.get(formula, 1)
    operator, *operands = formula
    weights = [weight_of(operand, known) for operand in operands]
    if operator == "equivalent":
        return 3 + 2 * sum(weights)
    if operator == "weak_until":
        return 2 + weights[0] + 2 * weights[1]
    return len(weights) - 1 + sum(weights) if operator in CHAINED else 1 + sum(weights)


def finding_of(number, path, text):
    strange = foreign(path, text, "rule")
    if strange:
        return strange
    if size_of(path) > LARGEST:
        return Finding(f"the file has {size_of(path)} bytes, more than {LARGEST}", "leave out comments and layout")
    definitions, fault = read(text)
    if fault:
        return fault
    names = [name for name, _, _ in definitions]
    formulas = {name: formula for name, _, formula in definitions}
    if number == 10:
        likely = nearest("RULE", names)
        token = next((token for name, token, _ in definitions if name == (likely or names[-1])), None) if names else None
        if token:
            return at_name(text, token, f"no definition is of `RULE`; there are {', '.join(dict.fromkeys(names))}", f"write `RULE` in place of `{token.text}`" if likely else f"`RULE = {token.text}` makes it the rule")
        return Finding("the file has no definition at all", "write `RULE = ` and a formula")
    if number == 11:
        for place, (name, token, _) in enumerate(definitions):
            if name in names[:place]:
                first = text.count("\n", 0, definitions[names.index(name)][1].start) + 1
                return at_name(text, token, f"`{name}` is defined here, and on line {first} already", "give one of the two another name, or leave it out")
    if number == 12:
        for name, others in circles_of(names_of(definitions)):
                token = next(token for it, token, _ in definitions if it == name)
                return at_name(text, token, f"`{name}` reaches itself" + (f", by way of {', '.join(others)}" if others else ""), "say what repeats by `always`, `until` or `weak_until`; a definition stands for its formula and cannot repeat")
    if number == 13:
        atoms = atoms_of(text)
        return Finding(f"`RULE` reaches {len(atoms)} atoms, and {MOST_ATOMS} are read", "make monitors of parts of the rule, or let one atom stand for several events: several `on` lines may set one atom")
    if number == 14 and "RULE" in formulas:
        weight = weight_of_rule(formulas, names_of(definitions))
        return Finding(f"the weight of `RULE` is {weight if weight <= TOLD else f'more than {TOLD}'}, and {HEAVIEST} is read; each use of a name counts its whole formula, and `equivalent` counts both sides twice", "make monitors of parts of the rule")
    if number in (15, 16, 17) and "RULE" in formulas:
        return too_large(number, text, definitions, formulas)
    return None


def too_large(number, text, definitions, formulas):
    what = {15: "parts of the normal form", 16: "branches", 17: "nodes of the table"}[number]
    token = next(token for name, token, _ in definitions if name == "RULE")
    rule = inner = formulas["RULE"]
    opened = set()
    while isinstance(inner, list) and inner[0] == "always" or isinstance(inner, str) and inner in formulas and inner not in opened:
        if isinstance(inner, str):
            opened.add(inner)
        inner = formulas[inner] if isinstance(inner, str) else inner[1]
    if isinstance(inner, list) and inner[0] == "and":
        return at_name(text, token, f"the rule asks {len(inner) - 1} things at once, and together they have too many {what}", f"make {len(inner) - 1} monitors of it, one rule file for each operand of the `and`: each of them is judged for itself")
    nexts = str(rule).count("'next'")
    if nexts > 20:
        return at_name(text, token, f"the rule looks {nexts} steps ahead, and has too many {what}", "say by events what ends the wait (`until`), and not by a number of steps")
    if number == 16:
        return at_name(text, token, f"the rule has too many {what}: each `or` (and each `imply`) doubles the cases of those beside it", "let one atom stand for several events (several `on` lines may set it), or make monitors of parts of the rule")
    return at_name(text, token, f"the rule has too many {what}: each `until` and each `eventually` within `always` that may be open at once doubles them", "make monitors of parts of the rule, one response a rule, or simplify what waits within `until`")
