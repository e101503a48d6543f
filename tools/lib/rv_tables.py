"""The tables that `rv table` prints: the states of an automaton or the rows of a rule, and where each goes."""
import re

from rv_explain import rules
from rv_texts import check_kept, lines_of, text_of
from rv_tool import UNREADABLE, Trouble

STATE = re.compile("([0-9]{1,20}) ([^ ]+)( marked)?")
EDGE = re.compile("  ([^ ]+) ([0-9]{1,20})")
ROW = re.compile(r"([0-9]{1,20})(?: \[(.*)\])? ->((?: [0-9]{1,20})*)")


class Misread(Exception):
    """What no table has: its line, or what is wrong."""


def table_of(program, kind, file):
    """The table of an automaton file (`da`) or of a rule file (`ltl`)."""
    check_kept(file)
    try:
        text = program.text("table", kind, file)
    except Trouble as trouble:
        raise Trouble(trouble.status, str(trouble).removeprefix("rv: ")) from trouble
    try:
        return AutomatonTable(text) if kind == "da" else RuleTable(text, rules.atoms_of(text_of(file)))
    except Misread as misread:
        told = str(misread) if text else "it is empty"
        raise Trouble(UNREADABLE, f"the table that {program.path} prints of {file} is not understood: {told}") from misread


def bits_of(number):
    """The places of the bits that are 1, ascending."""
    return [place for place in range(number.bit_length()) if number >> place & 1]


class AutomatonTable:
    """The table of an automaton: its states by their rows from 1 on. A set of rows has one, and is a number with the bit of that row."""

    start = 1 << 1

    def __init__(self, text):
        head, *lines = lines_of(text) or [""]
        edges, self.states, self.marked = [], [], []
        for line in lines:
            if found := EDGE.fullmatch(line):
                edges.append((len(self.states), found[1], int(found[2])))
            elif (found := STATE.fullmatch(line)) and int(found[1]) == len(self.states) + 1:
                self.states.append(found[2])
                self.marked.append(found[3] is not None)
            else:
                raise Misread(line)
        self.events = sorted({event for _, event, _ in edges})
        if not self.states or head != f"states {len(self.states)}, events {len(self.events)}":
            raise Misread(head)
        if not all(1 <= target <= len(self.states) for *_, target in edges):
            raise Misread("an edge leads to a state that is not there")
        number = {event: place for place, event in enumerate(self.events)}
        self._next = {(1 << row, number[event]): 1 << target for row, event, target in edges}

    def step(self, rows, event):
        """The rows after an event; none where it is not allowed."""
        return self._next.get((rows, event), 0)

    def row_name(self, rows):
        return self.states[rows.bit_length() - 2]

    def is_marked(self, rows):
        return self.marked[rows.bit_length() - 2]


class RuleTable:
    """The table of a rule: its rows from 0 on, each with its labels and the rows that may come next.

    The atoms are those of the rule file, None where it is none. A set of rows and a letter, the atoms that hold, are numbers with a bit for each.
    """

    start = 1 << 0

    def __init__(self, text, atoms):
        head, *lines = lines_of(text) or [""]
        if not lines or atoms is None or head != f"nodes {len(lines) - 1}, atoms {len(atoms)}":
            raise Misread(head)
        self.atoms, self.nodes = atoms, len(lines) - 1
        self.labels, self.nexts, self._formulas, self._steps = [], [], [], {}
        for row, line in enumerate(lines):
            found = ROW.fullmatch(line)
            nexts = [int(it) for it in found[3].split()] if found else []
            labels = found[2].split("; ") if found and found[2] else []
            formulas = [formula_of(label) for label in labels]
            if not found or int(found[1]) != row or None in formulas or not all(it < len(lines) for it in nexts):
                raise Misread(line)
            self.labels.append(labels)
            self.nexts.append(nexts)
            self._formulas.append(formulas)

    def step(self, rows, letter):
        """The rows after a letter; none where it is not allowed."""
        after = self._steps.get((rows, letter))
        if after is None:
            atoms = set(self.atom_names(letter))
            after = 0
            for target in {target for row in bits_of(rows) for target in self.nexts[row]}:
                if all(holds(formula, atoms) for formula in self._formulas[target]):
                    after |= 1 << target
            self._steps[rows, letter] = after
        return after

    def row_name(self, rows):
        return f"({','.join(map(str, bits_of(rows)))})"

    def atom_names(self, atoms):
        return [self.atoms[place] for place in bits_of(atoms)]


def formula_of(label):
    """The formula that a label is, or None where it is none."""
    definitions, _ = rules.read(f"RULE = {label}")
    return definitions and definitions[0][2]


def holds(formula, atoms):
    """Whether a formula without operators of time is true where these atoms are."""
    if isinstance(formula, str):
        return formula == "true" or formula in atoms
    operator, *operands = formula
    values = [holds(operand, atoms) for operand in operands]
    if operator == "not":
        return not values[0]
    if operator == "imply":
        return not values[0] or values[1]
    if operator == "equivalent":
        return values[0] == values[1]
    return all(values) if operator == "and" else any(values)
