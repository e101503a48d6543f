"""What a run counts: over the lines of a trace, and over the deliveries of the one history of `rv replay`.

Phases, answers, levels and letters are those of docs/DEFINITIONS.md, "Phase and answer" and "Levels and the letter of a hit".
"""
from plain_coverage.texts import Refused, number_of
from plain_coverage.traces import LAST_PID, entries_of, time_of, trace_of

MOST_TASKS, MOST_DELIVERIES = 65_536, 4_000_000
MOST_NAMES, LONGEST = 4096, 64  # names of events that are kept, and bytes of a name, of a value, of a stamp
MOST_FIELDS, MOST_VALUES = 16, 16  # of a rule, of a field
NO_PID, TASKS, DELIVERIES = 29, 28, 30
PASSED, STARTED, KEPT, FAILED, ENDED = "passed", "started", "kept", "failed", "ended"


class Field:
    """The values that a field had, by first appearance."""

    def __init__(self):
        self.values, self.other, self.missing = {}, 0, 0

    def see(self, value):
        if value is None:
            self.missing += 1
        elif value in self.values or len(self.values) < MOST_VALUES and len(value) <= LONGEST:
            self.values[value] = self.values.get(value, 0) + 1
        else:
            self.other += 1


class RuleCount:
    """Lines of a rule's event, and those on which it fires. Until it fires, what its tests see is counted too."""

    def __init__(self, rule):
        self.rule, self.lines, self.fires = rule, 0, 0
        self.holds = [0] * len(rule.tests)
        self.fields = {field: Field() for field in list(dict.fromkeys(test[0] for test in rule.tests))[:MOST_FIELDS]}

    def see(self, event):
        """Whether it fires on a line of its event."""
        self.lines += 1
        fires = event.fires(self.rule)
        self.fires += fires
        if self.fires == 0:
            for place, test in enumerate(self.rule.tests):
                self.holds[place] += event.passes(test)
            for name, field in self.fields.items():
                field.see(event.value(name))
        return fires


class Instance:
    """An instance: its levels, and what it has reached; None while it waits."""

    def __init__(self, monitor):
        self.monitor, self.is_counted, self.is_started, self.is_failed = monitor, False, False, False
        self.wait()

    def wait(self):
        self.reached, self.levels = None, set(self.monitor.begins)


class MonitorCount:
    """The answers of a monitor's deliveries, and what its instances reached."""

    def __init__(self, monitor):
        self.monitor, self.instances = monitor, {}
        self.answers = dict.fromkeys((PASSED, STARTED, KEPT, FAILED, ENDED), 0)
        self.letters, self.true = 0, dict.fromkeys(monitor.spec.atoms if monitor.is_rule else (), 0)
        self.rows = [0] * (len(monitor.table.labels) if monitor.is_rule else len(monitor.spec.states))
        self.edges = {} if monitor.is_rule else dict.fromkeys(monitor.spec.edges, 0)

    @property
    def deliveries(self):
        return sum(self.answers.values()) - self.answers[ENDED]

    def count(self, of):
        return sum(1 for it in self.instances.values() if of(it))

    @property
    def is_started(self):
        return self.answers[STARTED] + self.answers[FAILED] > 0

    def deliver(self, key, rule):
        """What a delivery is answered."""
        if key not in self.instances:
            self.instances[key] = Instance(self.monitor)
        instance = self.instances[key]
        if rule.mode == b"end":
            instance.wait()
            answer = ENDED
        else:
            answer = self.turn_rule(instance, rule) if self.monitor.is_rule else self.turn_automaton(instance, rule)
            instance.is_counted = True
            instance.is_started |= answer != PASSED
            instance.is_failed |= answer == FAILED
        self.answers[answer] += 1
        return answer

    def turn_automaton(self, instance, rule):
        state, event = instance.reached, self.monitor.spec.events.index(rule.whats[0][1])
        if state is None and rule.mode == b"event":
            return PASSED
        if state is None and rule.mode == b"start":
            instance.reached = 0
            self.rows[0] += 1
            return STARTED
        source = 0 if state is None else state
        instance.reached = self.monitor.spec.step(source, event)
        if instance.reached is None:
            return FAILED
        self.edges[source, event, instance.reached] += 1
        self.rows[instance.reached] += 1
        return STARTED if state is None else KEPT

    def turn_rule(self, instance, rule):
        instance.levels = instance.levels - rule.atoms((b"-",)) | rule.atoms((b"+",))
        rows = instance.reached
        if rows is None and rule.mode == b"event":
            return PASSED
        letter = frozenset(instance.levels | rule.atoms((b"*",)))
        self.letters += 1
        for atom in letter:
            self.true[atom] += 1
        instance.reached = self.monitor.table.step({0} if rows is None else rows, letter) or None
        if instance.reached is None:
            return FAILED
        for row in instance.reached:
            self.rows[row] += 1
        return STARTED if rows is None else KEPT


class TraceCount:
    """Lines, events, names of events, times, and what the text tells of itself."""

    def __init__(self, rules):
        self.named_events = {rule.event for rule in rules}
        self.lines = self.events = self.named = self.fired = 0
        self.names = {}  # by first appearance
        self.returns, self.first_return = 0, None
        self.overwritten = None  # line, and the two numbers
        self.latest, self.late, self.first_late = None, 0, None  # stamp and line; lines before it; line, stamp, latest

    def see(self, number, line, event):
        self.lines += 1
        if line.endswith(b"\r"):
            self.returns += 1
            self.first_return = self.first_return or number
        if event is None:
            entries = entries_of(line)
            if entries and entries[0] < entries[1] and not self.overwritten:
                self.overwritten = (number, *entries)
            return
        self.events += 1
        self.named += event.name in self.named_events
        if event.name in self.names or len(self.names) < MOST_NAMES and len(event.name) <= LONGEST:
            self.names[event.name] = self.names.get(event.name, 0) + 1
        if len(event.stamp) <= LONGEST:
            self.see_time(number, event.stamp)

    def see_time(self, number, stamp):
        if self.latest is None or time_of(self.latest[0]) < time_of(stamp):
            self.latest = (stamp, number)
        elif time_of(stamp) < time_of(self.latest[0]):
            self.late += 1
            self.first_late = self.first_late or (number, stamp, *self.latest)


class Run:
    """All counts of a run."""

    def __init__(self, bindings, name):
        self.bindings, self.trace_name = bindings, name
        self.rules = [RuleCount(rule) for rule in bindings.rules]
        self.monitors = [MonitorCount(monitor) for monitor in bindings.monitors]
        self.trace = TraceCount(bindings.rules)
        self.tasks, self.deliveries, self.fault = {}, 0, None  # the first refusal of routing waits for the last line
        self.halt, self.undelivered = None, 0  # the monitor that panics, and the line
        by_monitor = dict(zip(bindings.monitors, self.monitors))
        by_event = {}
        for it in self.rules:
            by_event.setdefault(it.rule.event, []).append((it, by_monitor[it.rule.monitor]))
        for number, line, event in trace_of(name):
            self.trace.see(number, line, event)
            if event is not None and self.fault is None:
                self.turn(event, by_event.get(event.name, ()))
        if self.fault is not None:
            raise self.fault

    def turn(self, event, rules):
        """The rules that fire on a line, and their deliveries."""
        firing = [(count, monitor) for count, monitor in rules if count.see(event)]
        self.trace.fired += bool(firing)
        for count, monitor in firing:
            try:
                key = self.route(count.rule, event)
            except Refused as refused:
                self.fault = refused
                return
            if monitor.monitor.off_line:
                continue
            if self.halt:
                self.undelivered += 1
            elif monitor.deliver(key, count.rule) == FAILED and monitor.monitor.reactor == b"panic":
                self.halt = (monitor.monitor, event.number)

    def route(self, rule, event):
        """The instance of a delivery; refusals are told by the line."""

        def refuse(number):
            raise Refused(number, self.trace_name, event.number)

        key = {b"global": 0, b"cpu": event.cpu}.get(rule.monitor.scope)
        if rule.monitor.scope == b"task":
            pid = number_of(event.value(rule.by), LAST_PID) if rule.by else event.pid
            if pid is None:
                refuse(NO_PID)
            key = (0, event.cpu) if pid == 0 else pid
            if key not in self.tasks and len(self.tasks) == MOST_TASKS:
                refuse(TASKS)
            self.tasks[key] = True
        if self.deliveries == MOST_DELIVERIES:
            refuse(DELIVERIES)
        self.deliveries += 1
        return key
