"""A run of rv: its monitors with their tables, what the trace delivers to whom, and what each delivery did.

The steps of a run are read out of the journal of `rv journal`, or made anew from the tables that `rv table` prints. This
script is not proved. `Run.check` compares the steps with the report of `rv replay`, which is, and no tool shows steps that
differ from it.
"""
import collections
import gc
import itertools
import os
import re
import tempfile
from operator import attrgetter

import rv_tables
import rv_texts
from rv_progress import progress
from rv_texts import CPUS
from rv_tool import FINDINGS, UNREADABLE, Trouble

WAITS, STOPPED = 1, 0  # the set of rows of an instance that waits, and of one that was stopped
MONITORING, REACTING, HALTED = 32, 33, 34  # bits of the switches; those below are the monitors'

Delivery = collections.namedtuple("Delivery", "order line monitor instance mode what")
Step = collections.namedtuple("Step", "delivery before after")  # packed words: rows in the high half, levels in the low


# ---- monitors, and what a delivery makes of an instance's word


def rows_in(word):
    return word >> 32


def levels_in(word):
    return word & 0xFFFFFFFF


class Monitor:
    """A monitor of the bindings, with its table."""

    def __init__(self, number, bound, program):
        self.number, self.name, self.shown, self.scope, self.kind = number, bound.name, bound.shown, bound.scope, bound.kind
        self.file, self.reactor, self.is_on = bound.file, bound.reactor, bound.is_on
        self.table = rv_tables.table_of(program, bound.kind, bound.file)
        self.levels = sum(1 << self.place_of(atom) for atom in set(bound.begins))

    def place_of(self, name):
        """The number of an event or of an atom in the table."""
        try:
            return (self.table.events if self.kind == "da" else self.table.atoms).index(name)
        except ValueError as error:
            raise Trouble(UNREADABLE, f"{self.file} has no {'event' if self.kind == 'da' else 'atom'} {name}: rv refuses the bindings") from error

    def what_of(self, rule):
        """What a rule delivers: the number of an event, or the sets of the atoms that go on, go off and hold once."""
        if rule.mode == "end":
            return None
        if self.kind == "da":
            return self.place_of(rule.what[0] if rule.what else "")
        return tuple(sum(1 << self.place_of(it[1:]) for it in rule.what if it[0] == sign) for sign in "+-*")

    def opening(self):
        """The word of an instance that waits as at the start."""
        return WAITS << 32 | self.levels

    def state(self, word):
        """What an instance with this word is in."""
        rows = rows_in(word)
        return "(waiting)" if rows == WAITS else "(stopped)" if rows == STOPPED else self.table.row_name(rows)

    def has(self, word):
        """Whether an instance may have such a word."""
        rows, count = rows_in(word), len(self.table.states) if self.kind == "da" else self.table.nodes
        if self.kind == "da":
            return levels_in(word) == 0 and (rows & (rows - 1)) == 0 and rows.bit_length() <= count + 1
        return rows.bit_length() <= count + 1 and self.has_atoms(levels_in(word))

    def has_atoms(self, atoms):
        return atoms.bit_length() <= len(self.table.atoms)

    def is_marked(self, word):
        return self.kind == "da" and rows_in(word) not in (WAITS, STOPPED) and self.table.is_marked(rows_in(word))

    def letter(self, step):
        """What a delivery brought: an event, or the atoms that held."""
        what = step.delivery.what
        return self.table.events[what] if self.kind == "da" else f"({','.join(self.table.atom_names(levels_in(step.after) | what[2]))})"


def word_after(monitor, before, mode, what):
    """What a delivery makes of its instance's word."""
    if mode == "end":
        return monitor.opening()
    rows, levels = rows_in(before), levels_in(before)
    if rows == STOPPED:
        return before
    letter = what
    if monitor.kind == "ltl":
        on, off, pulse = what
        levels = levels & ~off | on
        letter = levels | pulse
    if rows == WAITS and mode == "event":
        after = WAITS
    elif rows == WAITS and mode == "start":
        after = monitor.table.start
    else:
        after = monitor.table.step(monitor.table.start if rows == WAITS else rows, letter) or WAITS
    return after << 32 | levels


def answer_of(step):
    """What a delivery was answered: passed, started, kept, failed, or ended."""
    mode, before, after = step.delivery.mode, rows_in(step.before), rows_in(step.after)
    if mode == "end":
        return "ended"
    if before == STOPPED or before == WAITS and mode == "event":
        return "passed"
    if after == WAITS:
        return "failed"
    return "started" if before == WAITS else "kept"


def state_left(step):
    """The state of an automaton that an event came to: the initial one, where the instance waited."""
    table, rows = step.delivery.monitor.table, rows_in(step.before)
    return table.row_name(table.start if rows == WAITS else rows)


def monitors_of(bindings, program):
    """The monitors of bindings with their tables, by name."""
    return {bound.name: Monitor(number, bound, program) for number, bound in enumerate(bindings.monitors.values())}


# ---- the names of tasks

NAMED = re.compile(r"(?:^|[ \t])(next_|prev_|)comm=")
PID = re.compile(r"[ \t](next_|prev_|)pid=([0-9]+)(?![^ \t])")


def named_in(fields):
    """The tasks that fields name: each name behind `comm=`, `next_comm=` or `prev_comm=` with the first pid behind it that begins so too."""
    pids = {"": [], "next_": [], "prev_": []}
    for it in PID.finditer(fields):
        pids[it[1]].append((it.start(), it.end(), it[2]))
    for those in pids.values():
        those.reverse()
    end = 0
    for name in NAMED.finditer(fields):
        those = pids[name[1]]
        while those and those[-1][0] < name.end():
            those.pop()
        # (what looks like a name within another is part of it)
        if those and name.start() >= end:
            begun, end, pid = those[-1]
            yield fields[name.end(): begun], rv_texts.number_of(pid, rv_texts.HIGHEST_PID)


class TaskNames:
    """The names of tasks: the newest in front of their own lines, and else the first beside their pid in any line."""

    def __init__(self):
        self._own, self._told = {}, {}

    def see(self, line):
        self._own[line.pid] = line.comm
        if "comm=" in line.text:
            for name, pid in named_in(line.fields):
                self._told.setdefault(pid, name)

    def of(self, pid):
        own = self._own.get(pid, "").strip(" \t")
        return self._told.get(pid, own) if own in ("", "<...>") else own


# ---- the run


def refuse_more(counts, most):
    """Refuses a run or a part that has more deliveries, by monitor, than are shown."""
    count = sum(counts.values())
    if count > most:
        names = ", ".join(f"{name} has {its:,}" for name, its in counts.most_common(3))
        raise Trouble(FINDINGS, f"{count:,} deliveries, and at most {most:,} are shown: choose a part by --monitor ({names}) or by --lines")


def write_front(trace, last, file):
    """Writes the first lines of a trace to a file, and tells whether it has more."""
    try:
        with open(trace, "rb") as whole:
            file.writelines(itertools.islice(whole, last))
            file.flush()
            return whole.read(1) != b""
    except OSError as error:
        raise Trouble(UNREADABLE, f"cannot copy the first {last:,} lines of {trace}: {error.strerror}") from error


def violations_up_to(report, last):
    """The violations of a report on lines up to one."""
    return [line for line in rv_texts.lines_of(report) if (found := rv_texts.VIOLATION.fullmatch(line)) and int(found["line"]) <= last]


class Run:
    """What a run reads, its deliveries in the order of the trace, and its report; or of the front of a run, up to a line."""

    def __init__(self, program, bindings, trace, most=None, last=None):
        """Reads the files, the trace up to the last line that is wanted; of a run that has more deliveries than `most`, only the report, and
        then it is refused."""
        gc.disable()  # what is made is kept to the end, and looking through it again and again takes half of the time
        self.program, self.bindings, self.trace, self._last, self._judged = program, bindings, trace, last, trace
        for path in (bindings, trace):
            rv_texts.check_kept(path)
        self.report = program.text("replay", bindings, trace, statuses=(0, 1))
        if most is not None:
            counted = filter(None, map(rv_texts.SUMMARY.fullmatch, rv_texts.lines_of(self.report)))
            refuse_more(collections.Counter({found["monitor"]: int(found["deliveries"]) for found in counted}), most)
        if last is not None:
            self._judge_front(last)
        bound = rv_texts.Bindings(rv_texts.text_of(bindings))
        monitors = monitors_of(bound, program)
        self.monitors = list(monitors.values())
        self.names, self.last_line, self.first_time, self.last_time = TaskNames(), 0, None, None
        self.deliveries, self.turns = [], collections.defaultdict(list)  # in order; by CPU the lines with deliveries
        self.tasks = self._route([(rule, monitors[rule.monitor.name]) for rule in bound.rules])
        self._shape = [1 if it.scope == "global" else CPUS if it.scope == "cpu" else len(self.tasks) for it in self.monitors]

    @property
    def is_front(self):
        """Whether the trace has lines behind those that were looked at."""
        return self._judged != self.trace

    def _judge_front(self, last):
        """Takes the report of the lines up to the last one, where the trace has more; its violations are those of the whole up to there."""
        front = tempfile.TemporaryFile()  # (it has no name, so that it goes with this process)
        if not write_front(self.trace, last, front):
            return
        self._front, self._judged, whole = front, f"/proc/{os.getpid()}/fd/{front.fileno()}", self.report
        self.report = self.program.text("replay", self.bindings, self._judged, statuses=(0, 1))
        if violations_up_to(whole, last) != violations_up_to(self.report, last):
            raise Trouble(FINDINGS, f"the first {last:,} lines of {self.trace} have other violations than the whole up to there: nothing is shown")

    def _route(self, rules):
        """Goes through the trace, and returns the tasks in the order of their first use."""
        by_event, tasks = collections.defaultdict(list), {}
        for rule, monitor in rules:
            by_event[rule.event].append((rule, monitor, monitor.what_of(rule)))
        for line in rv_texts.events_of(self.trace, self._last):
            time = line.time
            if time is None:
                raise Trouble(UNREADABLE, f"{self.trace} line {line.number}: no clock counts so far as this line's stamp")
            self.last_line = line.number
            self.first_time = time if self.first_time is None else min(self.first_time, time)
            self.last_time = time if self.last_time is None else max(self.last_time, time)
            self.names.see(line)
            turn = []
            for rule, monitor, what in by_event.get(line.name, ()):
                if rule.fires(line):
                    turn.append(Delivery(len(self.deliveries) + len(turn), line, monitor, self._instance(rule, line, tasks), rule.mode, what))
            if turn:
                self.deliveries += turn
                self.turns[line.cpu].append((line, turn))
        return list(tasks)

    @staticmethod
    def _instance(rule, line, tasks):
        """The number of the instance that a line is for; a task's is new at its first use."""
        owner = rule.owner(line)
        if rule.monitor.scope == "task":
            return tasks.setdefault((*owner, 0)[:2], len(tasks))
        return owner[0] if owner else 0

    # -- names

    def instance_name(self, monitor, instance):
        """What stands in brackets behind a monitor's name, without the brackets."""
        if monitor.scope == "global":
            return ""
        if monitor.scope == "cpu":
            return f"cpu {instance}"
        pid, cpu = self.tasks[instance]
        return f"task {pid}" if pid else f"task 0 cpu {cpu}"

    def full_name(self, monitor, instance):
        name = self.instance_name(monitor, instance)
        return f"{monitor.shown}[{name}]" if name else monitor.shown

    def task_name(self, monitor, instance):
        """The name that the trace has for an instance's task, where it is one of a task."""
        return self.names.of(self.tasks[instance][0]) if monitor.scope == "task" else ""

    def pid_text(self, monitor, instance):
        """The pid and a colon where it is an instance of a task, as the kernel's lines of a step have it."""
        return f"{self.tasks[instance][0]}: " if monitor.scope == "task" else ""

    # -- slots

    def place_of(self, slot):
        """The monitor and the instance of a slot: slots are numbered by monitor, then by instance."""
        for monitor, count in zip(self.monitors, self._shape):
            if slot < count:
                return monitor, slot
            slot -= count
        return None

    # -- steps

    def replay(self):
        """The steps in the order of the trace, by the tables."""
        words, steps = {}, []
        for delivery in progress(self.deliveries, "replays the deliveries", len(self.deliveries)):
            monitor = delivery.monitor
            if not monitor.is_on:
                continue
            key = (monitor.number, delivery.instance)
            before = words.get(key)
            if before is None:
                before = monitor.opening()
            after = words[key] = word_after(monitor, before, delivery.mode, delivery.what)
            steps.append(Step(delivery, before, after))
            if monitor.reactor == "panic" and answer_of(steps[-1]) == "failed":
                break
        return steps

    def journal(self):
        """The entries of a journal of the run, or None where words have no room for counts."""
        status, text = self.program.run("journal", self.bindings, self._judged)
        if status == 2 and text.startswith("rv: refused 34 "):
            return None
        if status not in (0, 1, 6):
            raise Trouble(UNREADABLE, text.strip() or f"rv journal ended with {status}")
        return rv_texts.entries_of(text.splitlines())

    def journal_steps(self, entries):
        """The steps that a journal of `rv journal` has, in the order of the trace."""
        looks, left, steps = collections.Counter(), {}, []
        try:
            for entry in progress(entries, "reads the entries of the journal"):
                if entry.act == "look":
                    _, turn = self.turns[entry.seat - 2][looks[entry.seat]]
                    looks[entry.seat] += 1
                    left[entry.seat] = iter([it for it in turn if it.monitor.is_on])
                else:
                    steps.append(Step(next(left[entry.seat]), entry.before, entry.after))
        except (LookupError, StopIteration) as error:
            raise Trouble(FINDINGS, f"the journal of rv is not of the files that were read here: {self.trace} or {self.bindings} was changed meanwhile") from error
        steps.sort(key=attrgetter("delivery.order"))
        return steps

    def is_lone(self):
        """Whether each instance has deliveries of one CPU alone: then a journal has what a replay does."""
        cpus = {}
        return all(cpus.setdefault((it.monitor.number, it.instance), it.line.cpu) == it.line.cpu for it in self.deliveries)

    def steps(self):
        """The steps in the order of the trace, and where they come from; they agree with the report of `rv replay`."""
        if not self.is_lone():
            why = "CPUs share instances, which a journal may show in another order than the trace's"
        elif (entries := self.journal()) is None:
            why = "rv journal refuses the run with 34"
        else:
            return self.check(self.journal_steps(entries)), "the words of rv journal", ""
        return self.check(self.replay()), "a replay by the tables of rv table", why

    def check(self, steps):
        """The steps, where their report is that of `rv replay`."""
        if self.report_of(steps) != self.report:
            raise Trouble(FINDINGS, "the steps made here do not agree with the report of rv replay: nothing is shown")
        return steps

    def report_of(self, steps):
        """The report of the steps, in the words of rv."""
        said, counts = [], {it.number: [set(), 0, 0] for it in self.monitors}
        for step in progress(steps, "compares the steps with the report", len(steps)):
            delivery, answer = step.delivery, answer_of(step)
            counted = counts[delivery.monitor.number]
            if answer != "ended":
                counted[0].add(delivery.instance)
                counted[1] += 1
            if answer == "failed":
                counted[2] += 1
                if delivery.monitor.reactor != "nop":
                    said.append(f"rv: {'panic: ' if delivery.monitor.reactor == 'panic' else ''}{self.violation(step)}")
        said += [f"{it.shown}: instances {len(counts[it.number][0])}, deliveries {counts[it.number][1]}, failures {counts[it.number][2]}, stopped 0" for it in self.monitors]
        return "".join(f"{line}\n" for line in said)

    def violation(self, step):
        """A failure in the words of rv's report."""
        monitor, line = step.delivery.monitor, step.delivery.line
        name = self.full_name(monitor, step.delivery.instance)
        if monitor.kind == "ltl":
            return f"monitor {name}: violation detected (line {line.number})"
        return f"monitor {name} does not allow event {monitor.letter(step)} on state {state_left(step)} (line {line.number})"
