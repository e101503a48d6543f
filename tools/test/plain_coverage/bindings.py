"""Bindings: docs/FORMATS.md, "Bindings", and docs/DECISIONS.md, "Bindings"."""
import re

from plain_coverage.automata import automaton_of
from plain_coverage.rules import rule_of
from plain_coverage.tableau import table_of
from plain_coverage.texts import FILE_LIMIT, Refused, lines_of, read, words_of

SYNTAX, TWICE, EVENT, ATOM, MONITORS, RULES = 18, 19, 20, 21, 22, 23
MODES = (b"event", b"start", b"start_run", b"end")


class Monitor:
    """A `monitor` line, its specification, and what later lines say of it."""

    def __init__(self, line, name, scope, spec, container):
        self.line, self.name, self.scope, self.spec = line, name, scope, spec
        self.shown = container + b":" + name if container else name
        self.reactor, self.react_line, self.off_line, self.begins = b"nop", None, None, {}  # begins: lines by atom
        self.table = None  # of a rule

    @property
    def is_rule(self):
        return self.table is not None


class On:
    """An `on` line; a test is a field, whether it has to be equal, a value, and the word itself."""

    def __init__(self, line, monitor, event, by, tests, mode, whats):
        self.line, self.monitor, self.event, self.by, self.tests, self.mode = line, monitor, event, by, tests, mode
        self.whats = whats  # events or atoms by their sign; an automaton's has none

    def atoms(self, signs):
        return {name for sign, name in self.whats if sign in signs}


class Bindings:
    """What the lines of a file come to; the first fault is raised."""

    def __init__(self, name):
        self.file, self.containers, self.monitors, self.rules = name, [], [], []
        for number, line, end in lines_of(read(name)):
            self.number = number
            if end > FILE_LIMIT:
                self.refuse(SYNTAX)
            words = words_of(line)
            if words and not words[0].startswith(b"#"):
                self.take(words)

    def refuse(self, number):
        raise Refused(number, self.file, self.number)

    def want(self, is_so, number=SYNTAX):
        if not is_so:
            self.refuse(number)

    def take(self, words):
        form = {b"container": self.container, b"monitor": self.monitor, b"on": self.on, b"react": self.react, b"off": self.off, b"begin": self.begin}.get(words[0])
        self.want(form is not None)
        form(words[1:])

    def named(self, name):
        """The monitor of an earlier line."""
        found = [it for it in self.monitors if it.name == name]
        self.want(bool(found))
        return found[0]

    def is_taken(self, name):
        return name in self.containers or any(it.name == name for it in self.monitors)

    @staticmethod
    def is_name(word):
        return re.fullmatch(rb"[a-z0-9_]{1,32}", word) is not None

    def container(self, words):
        self.want(len(words) == 1 and self.is_name(words[0]) and len(self.containers) < 32)
        self.want(not self.is_taken(words[0]), TWICE)
        self.containers.append(words[0])

    def monitor(self, words):
        self.want(len(words) == 4 or len(words) == 6 and words[4] == b"in")
        name, scope, kind, file = words[:4]
        self.want(self.is_name(name) and scope in (b"global", b"cpu", b"task") and kind in (b"da", b"ltl"))
        try:
            file.decode("utf-8")
        except UnicodeDecodeError:
            self.refuse(SYNTAX)
        container = words[5] if len(words) == 6 else None
        self.want(container is None or container in self.containers)
        self.want(not self.is_taken(name), TWICE)
        self.want(len(self.monitors) < 32, MONITORS)
        text = read(file)
        try:
            spec = automaton_of(text) if kind == b"da" else rule_of(text)
            table = None if kind == b"da" else table_of(spec.formula)
        except Refused as refused:
            raise Refused(refused.number, file) from refused
        self.monitors.append(Monitor(self.number, name, scope, spec, container))
        self.monitors[-1].table = table

    def on(self, words):
        self.want(len(words) >= 2 and words[1] != b":")
        name, event, rest, by, tests = words[0], words[1], words[2:], None, []
        if rest[:1] == [b"by"]:
            self.want(len(rest) >= 2 and re.fullmatch(rb"[A-Za-z0-9_]+", rest[1]) is not None)
            by, rest = rest[1], rest[2:]
        while rest[:1] == [b"if"]:
            found = re.fullmatch(rb"([A-Za-z0-9_]+)(!?)=(.+)", rest[1], re.DOTALL) if len(rest) >= 2 else None
            self.want(found is not None)
            tests.append((found[1], not found[2], found[3], rest[1]))
            rest = rest[2:]
        self.want(len(rest) >= 2 and rest[0] == b":" and rest[1] in MODES)
        self.rule(self.named(name), event, by, tests, rest[1], rest[2:])

    def rule(self, monitor, event, by, tests, mode, words):
        self.want(by is None or monitor.scope == b"task")
        self.want(mode != b"start" or not monitor.is_rule)
        if mode == b"end":
            self.want(monitor.scope == b"task" and not words)
        elif monitor.is_rule:
            self.want(all(len(word) >= 2 and word[:1] in (b"+", b"-", b"*") for word in words))
            self.want(len({word[1:] for word in words}) == len(words))
        else:
            self.want(len(words) == 1)
        self.want(len(self.rules) < 256, RULES)
        if not monitor.is_rule:
            self.want(all(word in monitor.spec.events for word in words), EVENT)
            whats = [(b"", word) for word in words]
        else:
            self.want(all(word[1:] in monitor.spec.atoms for word in words), ATOM)
            whats = [(word[:1], word[1:]) for word in words]
        self.rules.append(On(self.number, monitor, event, by, tests, mode, whats))

    def react(self, words):
        self.want(len(words) == 2 and words[1] in (b"nop", b"printk", b"panic"))
        monitor = self.named(words[0])
        monitor.reactor, monitor.react_line = words[1], self.number

    def off(self, words):
        self.want(len(words) == 1)
        monitor = self.named(words[0])
        monitor.off_line = monitor.off_line or self.number

    def begin(self, words):
        self.want(len(words) == 2)
        monitor = self.named(words[0])
        self.want(monitor.is_rule)
        self.want(words[1] in monitor.spec.atoms, ATOM)
        monitor.begins.setdefault(words[1], self.number)
