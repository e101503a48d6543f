"""The texts that rv reads and prints, as docs/FORMATS.md has them: reports, lines of a trace, bindings, journals, tables of numbers.

Texts are read as bytes that stand in strings one for one where they are no UTF-8 (surrogateescape), so that nothing is lost.
What rv refuses has no form here: a line of no form is left out, or none.
"""
import collections
import errno
import functools
import itertools
import os
import re
import sys

from rv_progress import lines_read
from rv_terminal import Terminal
from rv_tool import FINDINGS, UNREADABLE, WRONG_USE, Trouble

HIGHEST_PID = 4294967295
CPUS = 64
MOST_BYTES, MOST_LINES = 134217728, 1000000
MOST_OF_BINDINGS = 1048576


# ---- files


def is_standard_input(path):
    """Whether a path names the standard input of whoever opens it."""
    return os.path.abspath(path) in ("/dev/stdin", "/dev/fd/0", "/proc/self/fd/0")


def check_inputs(files):
    """Wrong use where standard input is two of the files, which stand here by what they are; one that is not given is None."""
    taken = None
    for what, path in files.items():
        if path is not None and is_standard_input(path):
            if taken:
                raise Trouble(WRONG_USE, f"{path} is standard input, which is {taken} already")
            taken = what


def check_kept(path):
    """Trouble where a file that is read more than once does not keep its text, as a pipe does not."""
    if os.path.exists(path) and not os.path.isfile(path) and not os.path.isdir(path):
        raise Trouble(UNREADABLE, f"{path} is no regular file, and is read more than once: save it first")


def read_text(path):
    """The text of a file, no more than what rv would read of a trace; an OSError where it cannot be read."""
    if "\0" in os.fspath(path):
        raise FileNotFoundError(errno.ENOENT, os.strerror(errno.ENOENT), path)
    with open(path, "rb") as file:
        return file.read(MOST_BYTES + 1).decode("utf-8", "surrogateescape")


def text_of(path):
    """The same, or trouble."""
    try:
        return read_text(path)
    except OSError as error:
        raise Trouble(UNREADABLE, f"cannot read {path}: {error.strerror}") from error


def lines_of(text):
    """The lines of a text, without their line ends."""
    lines = text.split("\n")
    return lines[:-1] if lines[-1] == "" else lines


def read_lines(path):
    """The lines of a file of any size, without their line ends, one after another."""
    try:
        with open(path, encoding="utf-8", errors="surrogateescape", newline="\n") as file:
            for line in lines_read(file, path):
                yield line.removesuffix("\n")
    except OSError as error:
        raise Trouble(UNREADABLE, f"cannot read {path}: {error.strerror}") from error


def input_lines(with_ends=False):
    """The lines of standard input, without their line ends or with them, one after another."""
    try:
        for line in sys.stdin or ():
            yield line if with_ends else line.removesuffix("\n")
    except OSError as error:
        raise Trouble(UNREADABLE, f"cannot read standard input: {error.strerror}") from error


LONGEST = 20  # digits of a number that a program counts to


def number_of(digits, most=10**LONGEST - 1):
    """The number that decimal digits are, in a text or in bytes, with any zeros in front, or None where it is more than the most. Long
    digits are never converted."""
    if len(digits) > LONGEST:
        digits = digits.lstrip(b"0" if isinstance(digits, bytes) else "0")
    number = int(digits or "0") if len(digits) <= LONGEST else most + 1
    return number if number <= most else None


WORD = re.compile(r"[^ \t]+")


def words_of(line):
    """The words of a line."""
    return WORD.findall(line)


def places_of(line):
    """The words of a line with their places: (start, end, word)."""
    return [(found.start(), found.end(), found[0]) for found in WORD.finditer(line)]


# ---- reports

VIOLATION = re.compile(
    r"rv: (?P<panic>panic: )?monitor (?P<monitor>[a-z0-9_:]+)(?:\[cpu (?P<cpu>[0-9]{1,20})\]|\[task (?P<task>[0-9]{1,20})(?: cpu (?P<idle>[0-9]{1,20}))?\])?"
    r"(?: does not allow event (?P<event>[^ ]+) on state (?P<state>[^ ]+)|: violation detected) \(line (?P<line>[0-9]{1,20})\)"
)
SUMMARY = re.compile(r"(?P<monitor>[a-z0-9_:]+): instances (?P<instances>[0-9]{1,20}), deliveries (?P<deliveries>[0-9]{1,20}), failures (?P<failures>[0-9]{1,20}), stopped (?P<stopped>[0-9]{1,20})")
REFUSAL = re.compile(r"rv: refused ([0-9]{1,20})(?: in (.*?)(?: line ([0-9]{1,20}))?)?")
UNREAD = re.compile(r"rv: cannot read (.*)")
# what rv-coverage prints besides summaries, as docs/COVERAGE.md has it
FACT = re.compile(r"(?:the trace|the run|all monitors): .*|[a-z0-9_:]+: (?:instances: started|answers: passed|on [0-9]+|state|edge|row|atom) .*")
FINDING = re.compile(r"(?P<file>.*):(?P<line>[0-9]+): (?P<finding>[a-z]+(?:-[a-z]+)+): (?P<text>.*)")


def is_of_report(line):
    """Whether the line is one that a report has, or stands in its place."""
    return any(form.fullmatch(line) for form in (VIOLATION, SUMMARY, REFUSAL, UNREAD))


def status_of(summaries):
    """The status of a run that has these summaries."""
    if any(int(it["failures"]) for it in summaries):
        return 1
    return 6 if any(int(it["stopped"]) for it in summaries) else 0


def failures_of(path):
    """The violations of a report, in its order, and how many failures its summaries count, None where it has none; `-` is standard input."""
    lines, shown = list(input_lines() if path == "-" else read_lines(path)), "standard input" if path == "-" else path
    if not any(map(is_of_report, lines)):
        raise Trouble(UNREADABLE, f"no line of {shown} is one of a report: rv did not run, or it is another text")
    if any(map(FACT.fullmatch, lines)):
        raise Trouble(UNREADABLE, f"{shown} is what rv-coverage prints, and no report: give what replay or feed printed")
    summaries = [found for found in map(SUMMARY.fullmatch, lines) if found]
    return [found for found in map(VIOLATION.fullmatch, lines) if found], sum(int(it["failures"]) for it in summaries) if summaries else None


def violations_of(path):
    """The violations alone."""
    return failures_of(path)[0]


# ---- lines of a trace

# The head ends at the first place that it can: no other head begins within one.
HEAD_FORM = r"-([0-9]+)[ \t]+\[([0-9]+)\][ \t]"
STAMP_FORM = r"[0-9]+(?:\.[0-9]+)?:"
BODY_FORM = rf"[ \t]*(?:({STAMP_FORM})|[^ \t\n]+[ \t]+({STAMP_FORM}))[ \t]+([^ \t\n]+):(?![^ \t\n])"
HEAD, STAMP, BODY = re.compile(HEAD_FORM), re.compile(STAMP_FORM), re.compile(BODY_FORM)


class Event:
    """A line of a trace that has the form of an event."""

    __slots__ = ("number", "text", "pid", "cpu", "name", "_named", "_begun", "_stamped", "fields_at")

    def __init__(self, number, text, pid, cpu, head, body):
        self.number, self.text, self.pid, self.cpu, self.name = number, text, pid, cpu, body[3]
        self._named = head.start()  # where the task's name ends
        self._begun, colon = body.span(1 if body[1] else 2)
        self._stamped = colon - 1
        self.fields_at = body.end()  # where the fields begin

    @property
    def comm(self):
        """The task's name, with blanks in front left out."""
        return self.text[: self._named].lstrip(" \t")

    @property
    def stamp(self):
        return self.text[self._begun : self._stamped]

    @property
    def time(self):
        """The stamp in nanoseconds; one without a point counts microseconds, as other clocks than seconds do. None where no clock counts so far."""
        whole, point, part = self.stamp.partition(".")
        count = number_of(whole)
        if count is None:
            return None
        return count * 1_000_000_000 + int(part[:9].ljust(9, "0")) if point else count * 1_000

    @property
    def front(self):
        """The line up to its stamp, without the colon behind it."""
        return self.text[: self._stamped]

    @property
    def columns(self):
        """The task with its pid, the words between it and the stamp, the stamp, and what stands behind its colon; blanks around them are padding."""
        pid, *words, stamp = words_of(self.front[self._named:])
        return f"{self.comm}{pid}", words, stamp, self.text[self._stamped + 1:].strip(" \t")

    @property
    def fields(self):
        """What stands behind the event's name and its colon."""
        return self.text[self.fields_at :]

    def value(self, field):
        """The value of a field, or None where the line has no such field."""
        found = value_form(field).search(self.text, self.fields_at)
        return found[1] if found else None

    @property
    def values(self):
        """The values of all fields, by one look at the line."""
        values = {}
        for word in words_of(self.fields):
            field, equals, value = word.partition("=")
            if equals:
                values.setdefault(field, value)
        return values


@functools.cache
def value_form(field):
    """What finds the value of a field: behind the first place where NAME= begins a word of the fields, which a blank stands before."""
    return re.compile(rf"[ \t]{re.escape(field)}=([^ \t]*)")


def is_skipped(line):
    """A comment, or a line without a word."""
    return line.startswith("#") or not line.strip(" \t")


def is_lost_note(line):
    return line.startswith("CPU:") and line.endswith("EVENTS]")


def event_of(line, number=None):
    """The event of a trace's line, else None: the line is skipped, or rv refuses it."""
    head = None if is_skipped(line) or is_lost_note(line) else HEAD.search(line)
    body = head and BODY.match(line, head.end())
    pid, cpu = (number_of(head[1], HIGHEST_PID), number_of(head[2], CPUS - 1)) if body else (None, None)
    if pid is None or cpu is None:
        return None
    return Event(number, line, pid, cpu, head, body)


# The same of a line as bytes, with or without its line end, by one search: PID and CPU are its groups 2 and 3, the event is group 6, and the
# fields stand behind the match. (What is looked ahead for is taken whole, so no other head is tried.)
EVENT_LINE = re.compile(rf"(?=([^\n]*?{HEAD_FORM}))\1{BODY_FORM}".encode("ascii"))


USUAL_CPUS = frozenset(b"%03d" % cpu for cpu in range(CPUS))


def is_sound(pid, cpu):
    """Whether a line that has the form of an event has a PID and a CPU that rv takes. (Of most lines it is known at once.)"""
    return (cpu in USUAL_CPUS or number_of(cpu, CPUS - 1) is not None) and (len(pid) < 10 or number_of(pid, HIGHEST_PID) is not None)


def is_loss_in_bytes(line):
    """Whether a line as bytes, with or without its line end, is the note of lost events."""
    return line.startswith(b"CPU:") and line.removesuffix(b"\n").endswith(b"EVENTS]")


def input_lines_in_bytes(what):
    """The lines of standard input as bytes, with their line ends, one after another."""
    try:
        lines = sys.stdin.buffer if sys.stdin is not None else ()
        yield from lines if isinstance(sys.stdout, Terminal) or not lines else lines_read(lines, what)
    except OSError as error:
        raise Trouble(UNREADABLE, f"cannot read {what}: {error.strerror}") from error


def events_of(path, last=None):
    """The events of a trace that rv accepts, up to a line."""
    for number, line in enumerate(itertools.islice(read_lines(path), last), 1):
        event = event_of(line, number)
        if event is not None:
            yield event
        elif not is_skipped(line):
            raise Trouble(UNREADABLE, f"{path} line {number} is not understood, though rv reads it")


def decimal_pid(text):
    """The pid that a field's value is, or None."""
    return number_of(text, HIGHEST_PID) if text is not None and re.fullmatch("[0-9]+", text) else None


# ---- bindings


class Monitor:
    """A `monitor` line, with what `react`, `off` and `begin` say of it."""

    def __init__(self, line, name, scope, kind, file, container=None):
        self.line, self.name, self.scope, self.kind, self.file, self.container = line, name, scope, kind, file, container
        self.shown = f"{container}:{name}" if container else name
        self.reactor, self.is_on, self.begins = "nop", True, []


MOST_RULES = 256  # of bindings
FEW = 8  # tests of a rule


class Rule:
    """An `on` line: of which monitor, on which event, under which tests, whose, in which mode, and what it does."""

    def __init__(self, line, monitor, event, by, tests, mode, what):
        self.line, self.monitor, self.event, self.by, self.mode, self.what = line, monitor, event, by, mode, what
        self.tests = []
        for test in tests:
            field, other, value = re.fullmatch(r"(.+?)(!?)=(.*)", test, re.DOTALL).groups()
            self.tests.append((field, not other, value))

    def fires(self, event):
        if event.name != self.event:
            return False
        # (a field is looked for at each test, but where tests are many)
        value_of = event.value if len(self.tests) <= FEW else event.values.get
        for field, wanted, value in self.tests:
            found = value_of(field)
            if found is None or (found == value) != wanted:
                return False
        return True

    def owner(self, event):
        """Whose instance it is: (), (cpu,), (pid,), or (0, cpu) of an idle task; None where rv refuses the line."""
        if self.monitor.scope == "global":
            return ()
        if self.monitor.scope == "cpu":
            return (event.cpu,)
        pid = decimal_pid(event.value(self.by)) if self.by else event.pid
        return None if pid is None else (0, event.cpu) if pid == 0 else (pid,)


class Bindings:
    """What the lines of a bindings file say that have a form; the others are left out, since rv refuses them."""

    def __init__(self, text):
        self.lines = lines_of(text)
        self.monitors, self.containers, self.rules = {}, {}, []
        for number, line in enumerate(self.lines, 1):
            words = words_of(line)
            if words and not words[0].startswith("#"):
                self.take(number, words)

    def take(self, number, words):
        kind, *rest = words
        if kind == "container" and len(rest) == 1:
            self.containers.setdefault(rest[0], number)
        elif kind == "monitor" and (len(rest) == 4 or len(rest) == 6 and rest[4] == "in"):
            self.monitors.setdefault(rest[0], Monitor(number, *rest[:4], *rest[5:]))
        elif kind == "on" and ":" in rest[2:] and rest[0] in self.monitors:
            colon = rest.index(":", 2)
            by, tests = self.middle(rest[2:colon])
            if len(rest) > colon + 1 and len(self.rules) < MOST_RULES and all(re.search(".=.", test) for test in tests):
                self.rules.append(Rule(number, self.monitors[rest[0]], rest[1], by, tests, rest[colon + 1], rest[colon + 2:]))
        elif kind in ("react", "off", "begin") and rest and rest[0] in self.monitors:
            monitor = self.monitors[rest[0]]
            if kind == "react" and len(rest) == 2:
                monitor.reactor = rest[1]
            elif kind == "off" and len(rest) == 1:
                monitor.is_on = False
            elif kind == "begin" and len(rest) == 2:
                monitor.begins.append(rest[1])

    @staticmethod
    def middle(words):
        by, tests = None, []
        for keyword, word in zip(words[::2], words[1::2]):
            if keyword == "by":
                by = word
            elif keyword == "if":
                tests.append(word)
        return by, tests

    def shown(self, name):
        """The monitor of a display name, or None."""
        return next((monitor for monitor in self.monitors.values() if monitor.shown == name), None)


def bindings_of(path):
    """The bindings of a file that rv reads to its end."""
    text = text_of(path)
    if len(text.encode("utf-8", "surrogateescape")) > MOST_OF_BINDINGS:
        raise Trouble(UNREADABLE, f"{path} has more than {MOST_OF_BINDINGS:,} bytes, and no bindings have: rv refuses them with 18")
    return Bindings(text)


# ---- journals

NUMBER = r"(0|[1-9][0-9]{0,19})"
ENTRY = re.compile(
    rf"{NUMBER} (?:deliver {NUMBER} (event|start|start_run) (?:da {NUMBER}|ltl {NUMBER} {NUMBER} {NUMBER})"
    rf"|(look)|(raise|lower) {NUMBER}|(clear|end|stop) {NUMBER}) {NUMBER} {NUMBER}"
)
Entry = collections.namedtuple("Entry", "number seat act slot mode what bits before after")


def entries_of(lines, path="the journal"):
    """The entries of a journal's lines."""
    for number, text in enumerate(lines, 1):
        found = ENTRY.fullmatch(text)
        if not found:
            raise Trouble(FINDINGS, f"{path} line {number} is the line of no entry")
        seat, at, mode, event, on, off, pulse, look, switch, bits, act, slot, before, after = found.groups()
        seat, before, after = int(seat), int(before), int(after)
        if look:
            yield Entry(number, seat, look, None, None, None, None, before, after)
        elif at:
            yield Entry(number, seat, "deliver", int(at), mode, int(event) if event else (int(on), int(off), int(pulse)), None, before, after)
        elif switch:
            yield Entry(number, seat, switch, None, None, None, int(bits), before, after)
        else:
            yield Entry(number, seat, act, int(slot), None, None, None, before, after)


# ---- pages


def cells_of(row):
    return [cell.strip() for cell in row.strip().strip("|").split("|")]


def tables_of(document):
    """The tables of a page: the heading above, the lower-case words of the head, and the rows. Blocks of code have none of these."""
    heading, table, is_code = "", None, False
    for line in document.splitlines():
        is_code ^= line.startswith("```")
        if line.startswith("#") and not is_code:
            heading = line.lstrip("# ")
        if not line.startswith("|") or is_code:
            if table:
                yield table
            table = None
        elif table is None:
            table = (heading, [cell.lower() for cell in cells_of(line)], [])
        elif not set(line) <= set("|-: "):
            table[2].append(cells_of(line))
    if table:
        yield table
