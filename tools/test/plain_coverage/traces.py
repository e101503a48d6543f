"""Lines of a trace: docs/FORMATS.md, "Trace text" and "Routing"."""
import functools
import re

from plain_coverage.texts import Refused, lines_of, number_of, read, words_of

SYNTAX, LOST, CPUS, LONG = 24, 25, 26, 27
MOST_LINES, MOST_BYTES = 1_000_000, 134_217_728
LAST_PID, LAST_CPU, LAST_NUMBER = 4_294_967_295, 63, 2**64 - 1
HEAD = re.compile(rb"-([0-9]+)[ \t]+\[([0-9]+)\][ \t]")  # no head begins within one, so the first one ends first
STAMP = re.compile(rb"([0-9]+)(?:\.([0-9]+))?:")
WORD = re.compile(rb"[^ \t]+")


@functools.cache
def form_of(field):
    """A field with its value, at the front or behind a blank."""
    return re.compile(rb"(?:^|(?<=[ \t]))" + re.escape(field) + rb"=([^ \t]*)")


class Event:
    """A line that is an event."""

    def __init__(self, number, pid, cpu, stamp, name, fields):
        self.number, self.pid, self.cpu, self.stamp, self.name, self.fields = number, pid, cpu, stamp, name, fields

    def value(self, field):
        """The value of a field, or None."""
        found = form_of(field).search(self.fields)
        return found[1] if found else None

    def passes(self, test):
        field, is_equal, wanted, _ = test
        value = self.value(field)
        return value is not None and (value == wanted) == is_equal

    def fires(self, rule):
        return self.name == rule.event and all(map(self.passes, rule.tests))


def is_skipped(line):
    return line.startswith(b"#") or not line.strip(b" \t")


def event_of(number, line):
    head = HEAD.search(line)
    if not head:
        raise Refused(SYNTAX)
    word = WORD.search(line, head.end())
    stamp = word and STAMP.fullmatch(word[0])
    if word and not stamp:
        word = WORD.search(line, word.end())
        stamp = word and STAMP.fullmatch(word[0])
    name = WORD.search(line, word.end()) if stamp else None
    if not name or len(name[0]) < 2 or not name[0].endswith(b":"):
        raise Refused(SYNTAX)
    pid, cpu = number_of(head[1], LAST_PID), number_of(head[2], LAST_CPU)
    if pid is None:
        raise Refused(SYNTAX)
    if cpu is None:
        raise Refused(CPUS)
    return Event(number, pid, cpu, stamp[0][:-1], name[0][:-1], line[name.end():])


def trace_of(name):
    """Each line of a trace with its number, its bytes, and its event or None; the first fault is raised."""
    for number, line, end in lines_of(read(name)):
        try:
            if number > MOST_LINES or end > MOST_BYTES:
                raise Refused(LONG)
            if is_skipped(line):
                yield number, line, None
                continue
            if line.startswith(b"CPU:") and line.endswith(b"EVENTS]"):
                raise Refused(LOST)
            yield number, line, event_of(number, line)
        except Refused as refused:
            raise Refused(refused.number, name, number) from refused


def time_of(stamp):
    """What orders stamps: decimal numbers of any length."""
    whole, _, part = stamp.partition(b".")
    whole = whole.lstrip(b"0")
    return (len(whole), whole, part.rstrip(b"0"))


def entries_of(line):
    """The two numbers of the kernel's comment on its buffer, where the line is one."""
    words = words_of(line)
    if words[:2] != [b"#", b"entries-in-buffer/entries-written:"]:
        return None
    found = re.fullmatch(rb"([0-9]+)/([0-9]+)", words[2]) if len(words) > 2 else None
    numbers = [number_of(it, LAST_NUMBER) for it in found.groups()] if found else [None]
    return None if None in numbers else numbers
