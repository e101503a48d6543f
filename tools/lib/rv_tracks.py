"""A run along time: the states of each instance as spans, and the part of them that is shown."""
import argparse
import collections
import re

from rv_progress import progress
from rv_run import STOPPED, WAITS, answer_of, levels_in, rows_in
from rv_tables import bits_of
from rv_tool import WRONG_USE, Trouble


class Span:
    """A state that an instance is in, from one step up to another or to the end of the trace."""

    __slots__ = ("word", "step", "begin", "end")

    def __init__(self, word, step, begin, end):
        self.word, self.step, self.begin, self.end = word, step, begin, end


class Track:
    """An instance with its steps. Their times never fall: a line that the trace has too late has the time before it."""

    def __init__(self, monitor, instance):
        self.monitor, self.instance, self.steps, self.times = monitor, instance, [], []

    def add(self, step):
        time = step.delivery.line.time
        self.steps.append(step)
        self.times.append(max(time, self.times[-1]) if self.times else time)

    def spans(self, end):
        """The states other than waiting, each up to the next one; deliveries that keep the state are within it."""
        spans, word = [], None
        for step, time in zip(self.steps, self.times):
            if step.after != word or answer_of(step) == "failed":
                if spans and spans[-1].end is None:
                    spans[-1].end = time
                word = step.after
                if rows_in(word) != WAITS:
                    spans.append(Span(word, step, time, None))
        if spans and spans[-1].end is None:
            spans[-1].end = max(end, self.times[-1])
        return spans


def tracks_of(run, steps):
    """The instances of steps, by monitor, and by CPU or pid."""
    tracks = {}
    for step in progress(steps, "sorts the steps by instance", len(steps)):
        key = (step.delivery.monitor.number, step.delivery.instance)
        if key not in tracks:
            tracks[key] = Track(step.delivery.monitor, step.delivery.instance)
        tracks[key].add(step)
    return sorted(tracks.values(), key=lambda it: (it.monitor.number, run.tasks[it.instance] if it.monitor.scope == "task" else it.instance))


def state_name(monitor, word):
    """A state in words: that of an automaton by its name, that of a rule by its rows and the levels that are on."""
    rows = rows_in(word)
    if monitor.kind == "da" or rows == STOPPED:
        return monitor.state(word)
    levels = monitor.table.atom_names(levels_in(word))
    return f"rows {','.join(map(str, bits_of(rows)))}" + (f" with {','.join(levels)}" if levels else "")


def add_part_options(parser):
    """The options that show a part of a run; it is replayed up to the part's end."""
    parser.add_argument("--monitor", metavar="NAME", action="append", help="show this monitor alone, by its shown name; may be given again")
    parser.add_argument("--lines", metavar="FROM-TO", type=_range, help="show the deliveries of these lines of the trace alone")


def last_line(given):
    """The last line of the trace that the options show, or None where all are."""
    return given.lines[1] if given.lines else None


def _range(text):
    found = re.fullmatch(r"([0-9]{1,18})-([0-9]{1,18})", text)
    if not found or int(found[1]) > int(found[2]):
        raise argparse.ArgumentTypeError(f"{text} is not FROM-TO")
    return int(found[1]), int(found[2])


class Part:
    """The tracks that are shown, and of which lines and which time."""

    def __init__(self, run, steps, given):
        names = given.monitor or []
        told = [f"monitor {name}" for name in names] + ([f"lines {given.lines[0]} to {given.lines[1]}"] if given.lines else [])
        self.name = ", ".join(told)  # in words; empty where all is shown
        for name in names:
            if name not in [it.shown for it in run.monitors]:
                raise Trouble(WRONG_USE, f"{run.bindings} has no monitor {name}")
        if names:
            steps = [it for it in steps if it.delivery.monitor.shown in names]
        self._first, self._last = given.lines or (1, run.last_line)
        shown = [it for it in steps if self.has(it)]
        self.counts = collections.Counter(it.delivery.monitor.shown for it in shown)
        self.begin, self.end = run.first_time or 0, run.last_time or 0
        if given.lines and shown:
            times = [it.delivery.line.time for it in shown]
            self.begin, self.end = min(times), max(times)
        self._open = self.end + run.is_front  # (what lasts at the end of a front lasts longer)
        keys = {(it.delivery.monitor.number, it.delivery.instance) for it in shown}
        self.tracks = tracks_of(run, [it for it in steps if (it.delivery.monitor.number, it.delivery.instance) in keys])

    def has(self, step):
        return self._first <= step.delivery.line.number <= self._last

    def steps(self, track):
        """The steps of a track that are shown, with their times."""
        return [(step, time) for step, time in zip(track.steps, track.times) if self.has(step)]

    def spans(self, track):
        """The spans of a track that lie in the shown time, cut to it."""
        for span in track.spans(self._open):
            begin, end = max(span.begin, self.begin), min(span.end, self.end)
            if begin < end or begin == end and (span.begin, span.end) == (begin, end):
                yield Span(span.word, span.step, begin, end)
