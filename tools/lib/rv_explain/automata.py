"""Refusals 2 to 8 and 35 of an automaton file: a reader of the same grammar that says where it stops, and why."""
import re

from . import Finding, did_you_mean, foreign, one_of, size_of

LARGEST, LONGEST_NAME, MOST_STATES, MOST_EVENTS = 1048576, 64, 31, 64
RESERVED = ("digraph", "node", "edge", "graph", "subgraph", "strict")
TOKEN = re.compile(
    r"(?P<skip>[ \t\r\n]+|//[^\n]*|/\*(?s:.*?)\*/|(?:^|(?<=\n))#[^\n]*)|(?P<mark>->|[{}\[\]=;,])|(?P<word>[A-Za-z0-9_.]+)"
    r'|"(?P<string>(?:[^"\n]|(?<=\\)")*)"'
)
STRANGE = {
    "-": ("`-` stands in a name, or `--` for an edge", "an edge is `->`, and a name has letters, digits and `_` alone"),
    ":": ("`:` stands here: ports of nodes are not read", "name the state alone"),
    "<": ("labels in HTML are not read", 'write the label between double quotes: `label = "event"`'),
    "'": ("a single quote begins no string", "use double quotes"),
    "`": ("a backquote begins no string", "use double quotes"),
    "/": ("a comment is `//` to the end of the line, or stands between `/*` and `*/`", "close the comment, or write `//`"),
    "+": ("strings are not joined by `+`", "write one string"),
    '"': ("this string does not end on its line", "close it by a double quote on the same line; events of one edge are split by `\\n`, a backslash and an `n`"),
}


class Stop(Exception):
    """The place where the file leaves the grammar."""

    def __init__(self, token, cause, mend):
        super().__init__(cause)
        self.token, self.cause, self.mend = token, cause, mend


class Token:
    def __init__(self, kind, text, start, end):
        self.kind, self.text, self.start, self.end = kind, text, start, end

    def is_mark(self, text):
        return self.kind == "mark" and self.text == text

    def is_word(self, text):
        return self.kind == "word" and self.text == text

    def shown(self):
        return "the end of the file" if self.kind == "end" else f"`{self.text}`"


class Edge:
    def __init__(self, source, target, label, label_token):
        self.source, self.target, self.label, self.label_token = source, target, label, label_token

    def is_from_marker(self):
        return self.source.text.startswith("__init_")

    def events(self):
        return [piece.strip(" \t") for piece in (self.label or "").split("\\n")]


class Reader:
    """Reads the statements of a file up to the first that is not of the grammar."""

    def __init__(self, text):
        self.text, self.at, self.behind, self.declared, self.edges, self.is_empty = text, 0, 0, [], [], True
        self.strings, self.settings = [], []  # the strings, and of each NAME = VALUE both
        self.token = None
        self.next()

    def next(self):
        taken = self.token
        if taken:
            self.behind = taken.end
        self.token = self.scan()
        return taken

    def scan(self):
        while self.at < len(self.text):
            found = TOKEN.match(self.text, self.at)
            if not found:
                letter = self.text[self.at]
                token = Token("strange", letter, self.at, self.at + 1)
                raise Stop(token, *STRANGE.get(letter, (f"`{letter}` is no mark of this grammar", "take it out, or write the name between double quotes")))
            self.at = found.end()
            if found.lastgroup != "skip":
                token = Token(found.lastgroup, found[found.lastgroup], found.start(), found.end())
                if token.kind == "string":
                    self.strings.append(token)
                return token
        return Token("end", "", len(self.text), len(self.text))

    def drop(self, mark):
        if self.token.is_mark(mark):
            self.next()

    def want(self, mark, cause, mend):
        if not self.token.is_mark(mark):
            raise Stop(self.token, f"{cause}, and {self.token.shown()} stands there", mend)
        self.next()

    def name(self, what):
        token = self.token
        if token.kind == "word" and token.text in RESERVED:
            raise Stop(token, *self.of_reserved(token))
        if token.kind not in ("word", "string"):
            raise Stop(token, f"{what} is wanted, and {token.shown()} stands there", "write it as a word of letters, digits and `_`, or between double quotes")
        self.next()
        token.text = token.text.replace(",", "_")
        return token

    @staticmethod
    def of_reserved(token):
        if token.text == "node":
            return ("`node [..]` stands outside a group: it declares the states that stand with it in braces",
                    'write a group with the states: `{node [shape = circle] "a"};`')
        if token.text in ("edge", "graph"):
            return f"`{token.text} [..]` is not read", "leave the line out: how a picture looks does not matter to rv"
        if token.text == "subgraph":
            return ("`subgraph` is not read", "leave out the word, its name and its braces, and keep the statements")
        return f"`{token.text}` does not stand here", "leave it out"

    def file(self):
        token = self.token
        if token.is_word("strict"):
            raise Stop(token, "`strict` is not read", "leave the word out: begin with `digraph NAME {`")
        if token.is_word("graph"):
            raise Stop(token, "an undirected graph is no automaton", "begin with `digraph NAME {`, and write edges with `->`")
        if token.kind == "end":
            raise Stop(token, "the file has no graph", "begin with `digraph NAME {`")
        if not token.is_word("digraph"):
            raise Stop(token, f"the file begins with {token.shown()}", "begin with `digraph NAME {`")
        self.next()
        if self.token.kind != "word":
            raise Stop(self.token, "a name, as a word without quotes, stands behind `digraph`", "begin with `digraph NAME {`")
        self.next()
        self.want("{", "a brace stands behind the name", "begin with `digraph NAME {`")
        while not self.token.is_mark("}"):
            if self.token.kind == "end":
                raise Stop(self.token, "the file ends before its brace is closed", "close it by `}`")
            self.statement()
        self.next()
        if self.token.kind != "end":
            raise Stop(self.token, "something follows behind the closing brace", "one file has one automaton, and nothing behind it")

    def statement(self):
        if self.token.is_mark("{"):
            self.next()
            self.group()
        elif self.token.is_mark(";"):
            raise Stop(self.token, "a `;` stands without a statement", "take it out")
        else:
            name = self.name("a statement")
            if self.token.is_mark("=") and name.kind == "word":
                self.next()
                self.value_of(name)
                return self.drop(";")
            self.is_empty = False
            if self.token.is_mark("->"):
                self.edge(name)
            elif self.token.is_mark("["):
                self.attributes()
        self.drop(";")

    def group(self):
        if self.token.is_word("node"):
            self.next()
            if not self.token.is_mark("["):
                raise Stop(self.token, "attributes in brackets stand behind `node`", 'write `{node [shape = circle] "a"};`')
            self.attributes()
            if self.token.is_mark(";"):
                raise Stop(self.token, "a `;` stands between `node [..]` and the states", 'write `{node [shape = circle] "a"};`')
            names = self.names(("the states of the group",))
            if not names:
                raise Stop(self.token, "the group declares no state", 'name its states behind the bracket: `{node [shape = circle] "a"};`')
            self.declared += names
        elif self.token.kind == "word" and self.token.text not in RESERVED:
            name = self.next()
            if not self.token.is_mark("="):
                raise Stop(self.token, "a group is a declaration or a rank group", 'write `{node [shape = circle] "a"};`, or leave the braces out')
            self.next()
            self.value_of(name)
            self.drop(";")
            self.names(("the states of the group",))
        else:
            raise Stop(self.token, *(self.of_reserved(self.token) if self.token.text in RESERVED and self.token.kind == "word" else
                                     ("a group begins with `node [..]` or with an attribute such as `rank = min`", 'write `{node [shape = circle] "a"};`, or leave the braces out')))
        self.want("}", "the group is to be closed by `}`", "close it; edges and attributes of states stand outside groups")
        # (its `;` is dropped by the statement)

    def names(self, what):
        names = []
        while self.token.kind in ("word", "string"):
            names.append(self.name(what[0]))
            self.drop(";")
            self.is_empty = False
        return names

    def value_of(self, name):
        if self.token.kind not in ("word", "string"):
            raise Stop(self.token, f"a value stands behind `=`, and {self.token.shown()} stands there", "write it as a word, or between double quotes")
        self.settings.append((name, self.token))
        return self.next()

    def attributes(self):
        """The attributes in brackets: the value of each by its name, the last one where it stands twice."""
        found = {}
        self.next()
        while not self.token.is_mark("]"):
            if self.token.kind != "word":
                raise Stop(self.token, f"an attribute `NAME = VALUE` or `]` is wanted, and {self.token.shown()} stands there", "close the bracket, or write the attribute so")
            name = self.next()
            self.want("=", f"`=` and a value stand behind the attribute `{name.text}`", "write `NAME = VALUE`")
            found[name.text] = self.value_of(name)
            if self.token.is_mark(",") or self.token.is_mark(";"):
                self.next()
        self.next()
        return found

    def edge(self, source):
        self.next()
        if self.token.is_mark("{"):
            raise Stop(self.token, "an edge to a group of states is not read", "write an edge for each target")
        target = self.name("the target of the edge")
        if self.token.is_mark("->"):
            raise Stop(self.token, f"a chain of edges is not read: a second `->` follows `{target.text}`", "write each edge as a statement of its own, with its own label")
        attributes = self.attributes() if self.token.is_mark("[") else {}
        label = attributes.get("label")
        self.edges.append(Edge(source, target, label and label.text, label or source))


def check_names(reader):
    """The rules on labels and names, in the order of the text."""
    for edge in reader.edges:
        if edge.is_from_marker():
            if edge.label:
                raise Stop(edge.label_token, f"the edge that leaves the marker `{edge.source.text}` has the label `{edge.label}`", "leave its label out: it only says which state is the initial one")
        elif edge.label is None:
            raise Stop(edge.source, f"the edge from `{edge.source.text}` to `{edge.target.text}` has no label", 'give it its event: `[label = "event"]`')
        else:
            for event in edge.events():
                check_event(event, edge)
    for token in reader.declared:
        if not token.text.startswith("__init_"):
            check_state(token)


def check_event(event, edge):
    if re.fullmatch("[A-Za-z0-9_]{1,64}", event):
        return
    token = edge.label_token
    check_carriage_return(token, event)
    if not event:
        raise Stop(token, "an event of this label has no name", 'name the event: `label = "event"`, several split by `\\n`')
    if len(event) > LONGEST_NAME:
        raise Stop(token, f"the name of this event has {len(event)} bytes, and at most {LONGEST_NAME} are read", "shorten it")
    if ";" in event:
        name = event.split(";")[0].strip()
        raise Stop(token, f"`{event}` is a label of hybrid automata: a guard or a reset of a clock stands behind the `;`",
                   f'rv has no clocks. An automaton without them has `label = "{name}"`, and finds what the order of events alone tells (docs/KERNEL.md)')
    if re.search("[ ,|/]", event):
        parts = [part for part in re.split("[ ,|/]+", event) if part]
        mend = 'several events of one edge are split by a backslash and an `n`: `label = "' + "\\n".join(parts) + '"`'
        raise Stop(token, f"`{event}` is no name of an event", mend)
    if "\\" in event:
        raise Stop(token, f"`{event}` has a backslash that is no `\\n`", "split events by `\\n` alone")
    raise Stop(token, f"`{event}` is no name of an event", f"a name has letters, digits and `_` alone: write `{re.sub('[^A-Za-z0-9_]', '_', event)}`")


def check_carriage_return(token, name):
    if "\r" in name:
        raise Stop(token, "a carriage return, which is not seen, stands in this name", "take it out, between the quotes: `tr -d '\\r' < FILE > MENDED`")


def check_state(token):
    if re.fullmatch("[A-Za-z0-9_.]{1,64}", token.text):
        return
    check_carriage_return(token, token.text)
    if len(token.text) > LONGEST_NAME:
        raise Stop(token, f"the name of this state has {len(token.text)} bytes, and at most {LONGEST_NAME} are read", "shorten it")
    if not token.text:
        raise Stop(token, "a state has an empty name", "name it")
    raise Stop(token, f"`{token.text}` is no name of a state, between quotes either", f"a name has letters, digits, `_` and `.` alone: write `{re.sub('[^A-Za-z0-9_.]', '_', token.text)}`")


def at_token(text, token, cause, mend):
    """The finding at a token of the text."""
    start = min(token.start, len(text.rstrip())) if token.kind == "end" else token.start
    line_start = text.rfind("\n", 0, start) + 1
    line = text.count("\n", 0, start) + 1
    return Finding(cause, mend, line, start - line_start, max(start - line_start + 1, token.end - line_start) if token.kind != "end" else None)


def read(text):
    """The statements of an automaton file, or a finding of number 2."""
    reader = None
    try:
        reader = Reader(text)
        reader.file()
        check_names(reader)
    except Stop as stop:
        return None, at_token(text, stop.token, stop.cause, stop.mend)
    return reader, None


def states_of(reader):
    return list(dict.fromkeys(token.text for token in reader.declared if not token.text.startswith("__init_")))


def events_in(reader):
    return {event for edge in reader.edges if not edge.is_from_marker() for event in edge.events()}


def events_of(text):
    """The events of an automaton file in order, or None where it is none."""
    reader, _ = read(text)
    return reader and sorted(events_in(reader))


def finding_of(number, path, text):
    strange = foreign(path, text, "automaton")
    if strange:
        return strange
    if size_of(path) > LARGEST:
        return Finding(f"the file has {size_of(path)} bytes, more than {LARGEST}", "leave out comments and layout")
    reader, fault = read(text)
    if fault:
        return fault
    markers = [edge for edge in reader.edges if edge.is_from_marker()]
    states = states_of(reader)
    if number == 3:
        return no_initial(text, reader, states)
    if number == 4:
        one = markers[0] if markers else None
        other = one and next((edge for edge in markers if edge.target.text != one.target.text), one)
        return other and at_token(text, other.target, f"`{one.source.text}` leads to `{one.target.text}`, and `{other.source.text}` to `{other.target.text}`", "keep one of the two edges: there is one initial state")
    if number == 5:
        return undeclared(text, reader, states)
    if number == 6:
        return not_deterministic(text, reader)
    if number == 7:
        return Finding(f"the automaton has {len(states)} states, and {MOST_STATES} are read", "leave out states, or make two monitors of it that each watch a part")
    if number == 8:
        events = events_in(reader)
        return Finding(f"the automaton has {len(events)} events, and {MOST_EVENTS} are read", "give events that are never told apart one name: several `on` lines may feed one event")
    if number == 35:
        return no_header(text, reader, states)
    return None


def no_initial(text, reader, states):
    likely = next((token for token in reader.declared if re.match("_*(init|start|begin)", token.text, re.I)), None)
    first = next((edge for edge in reader.edges if likely and edge.source.text == likely.text), None)
    target = first.target.text if first else states[0] if states else "STATE"
    mend = f"`__init_{target} -> {target};` says that `{target}` is the initial state"
    if likely:
        return at_token(text, likely, f"no edge leaves a marker, a name that begins with `__init_`; `{likely.text}` is no marker", mend)
    return Finding("no edge leaves a marker, a name that begins with `__init_`: no state is the initial one", mend)


def undeclared(text, reader, states):
    declared = set(states)
    for edge in reader.edges:
        for token in [edge.target] if edge.is_from_marker() else [edge.source, edge.target]:
            if token.text in declared:
                continue
            if token.text.startswith("__init_"):
                return at_token(text, token, f"an edge leads to the marker `{token.text}`", "let it lead to the state itself")
            return at_token(text, token, f"`{token.text}` is no declared state", f'declare it: `{{node [shape = circle] "{token.text}"}};`, or if it is misspelled, {did_you_mean(token.text, states, "the declared states")}')
    return None


def not_deterministic(text, reader):
    seen = {}
    for edge in reader.edges:
        for event in [] if edge.is_from_marker() else edge.events():
            other = seen.setdefault((edge.source.text, event), edge)
            if other.target.text != edge.target.text:
                line = text.count("\n", 0, other.source.start) + 1
                return at_token(text, edge.source, f"from `{edge.source.text}` the event `{event}` leads to `{edge.target.text}` here, and to `{other.target.text}` on line {line}", "tell the two events apart by tests (`if FIELD=VALUE`) in the bindings, each with a name of its own, or keep one edge")
    return None


def no_header(text, reader, states):
    taken = ("state_max", "event_max", "automaton")
    events = events_in(reader)
    for token in reader.declared:
        if token.text.startswith("__init_"):
            continue
        if "." in token.text or token.text[:1].isdigit() or token.text in taken or token.text in events:
            why = ("has a `.`" if "." in token.text else "begins with a digit" if token.text[0].isdigit() else
                   "is a name that the C tables use" if token.text in taken else "is also the name of an event")
            return at_token(text, token, f"the state `{token.text}` {why}", f"give it another name, such as `{re.sub('[^A-Za-z0-9_]', '_', 's_' + token.text)}`")
    for edge in reader.edges:
        for event in [] if edge.is_from_marker() else edge.events():
            if event[:1].isdigit() or event in taken:
                return at_token(text, edge.label_token, f"the event `{event}` {'begins with a digit' if event[0].isdigit() else 'has a name that the C tables use'}", f"give it another name, such as {one_of(['e_' + event])}")
    return None
