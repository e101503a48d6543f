"""Automaton files: docs/FORMATS.md, "Automaton files"."""
import re

from plain_coverage.texts import FILE_LIMIT, Refused

KEYWORDS = {b"digraph", b"node", b"edge", b"graph", b"subgraph", b"strict"}
WORD, STRING, MARK = "word", "string", "mark"
FORMS = re.compile(
    rb"(?P<blank>[ \t\r\n]+)|(?P<comment>//[^\n]*|/\*(?s:.)*?\*/)|(?P<word>[A-Za-z0-9_.]+)|(?P<mark>->|[{}\[\]=;,])"
    rb'|"(?P<string>(?:[^"\n\\]|\\+"|\\+[^"\n\\])*)"'
)


class Automaton:
    """States, the initial one first; events; and edges by state and event, in order."""

    def __init__(self, states, events, edges):
        self.states, self.events, self.edges = states, events, edges

    def step(self, state, event):
        return next((to for source, by, to in self.edges if (source, by) == (state, event)), None)


def tokens_of(text):
    place, tokens = 0, []
    while place < len(text):
        if text[place:place + 1] == b"#" and (place == 0 or text[place - 1:place] == b"\n"):
            found = text.find(b"\n", place)
            place = len(text) if found < 0 else found
            continue
        found = FORMS.match(text, place)
        if not found:
            raise Refused(2)
        if found.lastgroup in (WORD, STRING, MARK):
            tokens.append((found.lastgroup, found[found.lastgroup]))
        place = found.end()
    return tokens


class Reader:
    """Reads tokens from the left; whatever has no form is refused with 2."""

    def __init__(self, tokens):
        self.tokens, self.place = tokens, 0
        self.declared, self.arrows = [], []  # names with their shapes; sources, targets and labels

    def peek(self, ahead=0):
        place = self.place + ahead
        return self.tokens[place] if place < len(self.tokens) else (None, None)

    def take(self):
        token = self.peek()
        self.place += 1
        return token

    def is_mark(self, mark, ahead=0):
        return self.peek(ahead) == (MARK, mark)

    def want(self, mark):
        if self.take() != (MARK, mark):
            raise Refused(2)

    def skip(self, *marks):
        if self.peek()[0] == MARK and self.peek()[1] in marks:
            self.place += 1

    def word(self):
        kind, text = self.take()
        if kind != WORD:
            raise Refused(2)
        return text

    def value(self):
        kind, text = self.take()
        if kind not in (WORD, STRING):
            raise Refused(2)
        return text

    def name(self):
        kind, text = self.take()
        if kind not in (WORD, STRING) or kind == WORD and text in KEYWORDS:
            raise Refused(2)
        return text.replace(b",", b"_")

    def attributes(self):
        """What stands in brackets: of a key that stands twice the last value counts."""
        self.want(b"[")
        found = {}
        while not self.is_mark(b"]"):
            key = self.word()
            self.want(b"=")
            found[key] = self.value()
            self.skip(b",", b";")
        self.want(b"]")
        return found

    def names(self):
        found = []
        while not self.is_mark(b"}"):
            found.append(self.name())
            self.skip(b";")
        self.want(b"}")
        return found

    def group(self):
        self.want(b"{")
        if self.peek()[0] == WORD and self.is_mark(b"=", 1):
            self.word()
            self.want(b"=")
            self.value()
            self.skip(b";")
            self.names()
            return
        if self.word() != b"node":
            raise Refused(2)
        shape = self.attributes().get(b"shape")
        names = self.names()
        if not names:
            raise Refused(2)
        self.declared += [(name, shape) for name in names]

    def statement(self):
        if self.is_mark(b"{"):
            self.group()
        elif self.peek()[0] == WORD and self.is_mark(b"=", 1):
            self.word()
            self.want(b"=")
            self.value()
        else:
            name = self.name()
            if self.is_mark(b"->"):
                self.want(b"->")
                target = self.name()
                label = self.attributes().get(b"label") if self.is_mark(b"[") else None
                self.arrows.append((name, target, label))
            elif self.is_mark(b"["):
                self.attributes()
        self.skip(b";")

    def file(self):
        if self.word() != b"digraph":
            raise Refused(2)
        self.word()
        self.want(b"{")
        while not self.is_mark(b"}"):
            self.statement()
        self.want(b"}")
        if self.peek()[0] is not None:
            raise Refused(2)


def is_marker(name):
    return name.startswith(b"__init_")


def events_in(label):
    return [piece.strip(b" \t") for piece in label.split(b"\\n")]


def automaton_of(text):
    """The automaton of a text; the first of the refusals 2 to 8 that applies."""
    if len(text) > FILE_LIMIT:
        raise Refused(2)
    reader = Reader(tokens_of(text))
    reader.file()
    names = [name for name, _ in reader.declared if not is_marker(name)]
    inits = [(target, label) for source, target, label in reader.arrows if is_marker(source)]
    arrows = [(source, target, label) for source, target, label in reader.arrows if not is_marker(source)]
    if any(label for _, label in inits) or any(label is None for _, _, label in arrows):
        raise Refused(2)
    arcs = [(source, event, target) for source, target, label in arrows for event in events_in(label)]
    if not all(re.fullmatch(rb"[A-Za-z0-9_.]{1,64}", name) for name in names) or not all(re.fullmatch(rb"[A-Za-z0-9_]{1,64}", event) for _, event, _ in arcs):
        raise Refused(2)
    if not inits:
        raise Refused(3)
    if len({target for target, _ in inits}) > 1:
        raise Refused(4)
    declared = set(names)
    if any(end not in declared for end in [inits[0][0], *(source for source, _, _ in arrows), *(target for _, target, _ in arrows)]):
        raise Refused(5)
    if len({(source, event) for source, event, _ in arcs}) < len(set(arcs)):
        raise Refused(6)
    initial = inits[0][0]
    states = [initial, *sorted(declared - {initial})]
    events = sorted({event for _, event, _ in arcs})
    if len(states) > 31:
        raise Refused(7)
    if len(events) > 64:
        raise Refused(8)
    return Automaton(states, events, sorted((states.index(source), events.index(event), states.index(target)) for source, event, target in set(arcs)))
