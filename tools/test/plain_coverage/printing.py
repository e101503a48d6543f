"""What is printed of a run's counts: the facts of each monitor and of the trace, the findings, and how much was reached."""
from plain_coverage.nearest import nearest
from plain_coverage.tableau import labels_text
from plain_coverage.texts import shown

MOST_UNNAMED = 16  # events of the trace that no rule names


def by_count(counted):
    """The most frequent first, and of as frequent ones the first that appeared."""
    return sorted(counted, key=lambda it: -it[1])


# ---- facts


def rule_facts(count, names):
    rule = count.rule
    front = b"%s: on %d " % (rule.monitor.shown, rule.line)
    yield front + b"%s: lines %d, fires %d" % (shown(rule.event), count.lines, count.fires)
    if count.lines == 0:
        for far, name in nearest(rule.event, names):
            yield front + b"near %s: lines %d, distance %d" % (shown(name), names[name], far)
    elif count.fires == 0:
        for test, holds in zip(rule.tests, count.holds):
            if holds == count.lines:
                continue
            yield front + b"if %s: holds %d" % (shown(test[3]), holds)
        for name, field in count.fields.items():
            for value, lines in by_count(field.values.items()):
                yield front + b"has %s=%s: lines %d" % (name, shown(value), lines)
            if field.other:
                yield front + b"has other %s: lines %d" % (name, field.other)
            yield front + b"has no %s: lines %d" % (name, field.missing)


def reached_facts(count):
    monitor = count.monitor
    if monitor.is_rule:
        for row, labels in enumerate(monitor.table.labels):
            if row > 0:
                yield b"row %d %s: reached %d" % (row, labels_text(labels).encode(), count.rows[row])
        for atom, true in count.true.items():
            yield b"atom %s: letters %d, true %d" % (atom, count.letters, true)
    else:
        states, events = monitor.spec.states, monitor.spec.events
        for state, reached in zip(states, count.rows):
            yield b"state %s: reached %d" % (state, reached)
        for (source, event, target), taken in count.edges.items():
            yield b"edge %s %s %s: taken %d" % (states[source], events[event], states[target], taken)


def monitor_facts(run, count):
    name, answers = count.monitor.shown, count.answers
    yield b"%s: instances %d, deliveries %d, failures %d, stopped 0" % (name, count.count(lambda it: it.is_counted), count.deliveries, answers["failed"])
    yield b"%s: instances: started %d, failed %d, running %d" % (
        name, count.count(lambda it: it.is_started), count.count(lambda it: it.is_failed), count.count(lambda it: it.reached is not None))
    yield b"%s: answers: " % name + b", ".join(b"%s %d" % (answer.encode(), number) for answer, number in answers.items())
    for it in run.rules:
        if it.rule.monitor is count.monitor:
            yield from rule_facts(it, run.trace.names)
    for fact in reached_facts(count):
        yield b"%s: %s" % (name, fact)


def trace_facts(run):
    trace = run.trace
    yield b"the trace: lines %d, events %d, named %d, fired %d" % (trace.lines, trace.events, trace.named, trace.fired)
    unnamed = by_count((it for it in trace.names.items() if it[0] not in trace.named_events))[:MOST_UNNAMED]
    for name, lines in unnamed:
        yield b"the trace: no rule names %s: lines %d" % (shown(name), lines)
    others = trace.events - trace.named - sum(lines for _, lines in unnamed)
    if others:
        yield b"the trace: no rule names other events: lines %d" % others
    if run.halt:
        yield b"the run: halted on line %d, not delivered %d" % (run.halt[1], run.undelivered)


# ---- findings: each is the line of the bindings or of the trace, and a text


def spec_findings(count, rules):
    """What no line brings or sets, and what none did."""
    monitor, name = count.monitor, count.monitor.shown
    if not monitor.is_rule:
        for event in monitor.spec.events:
            if not any((b"", event) in rule.whats for rule in rules):
                yield monitor.line, b"event-not-bound: no line brings %s to %s" % (event, name)
        return
    for atom in monitor.spec.atoms:
        setting = [rule.line for rule in rules if atom in rule.atoms((b"+", b"*"))] + [line for its, line in monitor.begins.items() if its == atom]
        if not setting:
            yield monitor.line, b"atom-not-bound: no line sets %s of %s" % (atom, name)
        elif count.letters and not count.true[atom]:
            yield min(setting), b"atom-never-true: %s of %s is true in no letter (%d)" % (atom, name, count.letters)


def edge_findings(count, rules):
    monitor = count.monitor
    if monitor.is_rule or not count.is_started:
        return
    states, events = monitor.spec.states, monitor.spec.events
    for (source, event, target), taken in count.edges.items():
        if not taken:
            line = next((rule.line for rule in rules if (b"", events[event]) in rule.whats), monitor.line)
            yield line, b"edge-never-taken: %s %s %s of %s" % (states[source], events[event], states[target], monitor.shown)


def monitor_findings(run, count, has_edges):
    monitor, name = count.monitor, count.monitor.shown
    rules = [it for it in run.bindings.rules if it.monitor is monitor]
    starts = [it.line for it in rules if it.mode in (b"start", b"start_run")]
    if monitor.off_line:
        yield monitor.off_line, b"monitor-off: %s gets no delivery" % name
    if not starts:
        yield monitor.line, b"monitor-cannot-start: no line of %s has the mode start or start_run" % name
    elif run.trace.events and not monitor.off_line and not count.is_started:
        yield starts[0], b"monitor-never-starts: no delivery starts %s" % name
    if monitor.react_line is None:
        yield monitor.line, b"no-react: a failure of %s is counted, and not printed" % name
    yield from spec_findings(count, rules)
    if has_edges:
        yield from edge_findings(count, rules)
    if run.halt and run.halt[0] is monitor and run.undelivered:
        yield monitor.react_line, b"run-halted: %s failed on line %d of the trace, and what fires behind it is not delivered (%d)" % (name, run.halt[1], run.undelivered)


def rule_findings(run, count):
    rule, event = count.rule, shown(count.rule.event)
    if count.fires or not run.trace.events:
        return
    if not count.lines:
        near = nearest(rule.event, run.trace.names)
        told = b", and the nearest that it has is %s" % shown(near[0][1]) if near else b""
        yield rule.line, b"rule-never-fires: the trace has no event %s%s" % (event, told)
        return
    never = next((test for test, holds in zip(rule.tests, count.holds) if not holds), None)
    if never and never[0] in count.fields and count.fields[never[0]].missing == count.lines:
        yield rule.line, b"rule-never-fires: no line of %s has the field %s (%d)" % (event, never[0], count.lines)
        return
    why = b"%s holds" % shown(never[3]) if never else b"the tests hold together"
    yield rule.line, b"rule-never-fires: %s on no line of %s (%d)" % (why, event, count.lines)


def trace_findings(trace):
    if not trace.events:
        yield 1, b"no-events: no line of the trace is an event"
    if trace.overwritten:
        line, kept, written = trace.overwritten
        yield line, b"front-overwritten: %d of %d entries are left" % (kept, written)
    if trace.returns:
        yield trace.first_return, b"carriage-returns: the line ends in one (%d)" % trace.returns
    if trace.late:
        line, stamp, latest, its_line = trace.first_late
        yield line, b"time-goes-back: %s stands behind %s of line %d (%d)" % (stamp, latest, its_line, trace.late)


def findings_of(run, has_edges):
    """All findings, by file and line; those of a line stand in the order in which they are found here."""
    found = [] if run.monitors else [(1, b"no-monitors: no line of the bindings is a monitor")]
    found += [it for count in run.monitors for it in monitor_findings(run, count, has_edges)]
    found += [it for count in run.rules for it in rule_findings(run, count)]
    for file, its in ((run.bindings.file, found), (run.trace_name, trace_findings(run.trace))):
        for line, text in sorted(its, key=lambda it: it[0]):
            yield b"%s:%d: %s" % (file, line, text)


# ---- how much was reached


def share(name, numbers):
    numbers = list(numbers)
    return b"%s %d of %d" % (name, sum(1 for it in numbers if it), len(numbers))


def whole(run):
    automata = [it for it in run.monitors if not it.monitor.is_rule]
    rules = [it for it in run.monitors if it.monitor.is_rule]
    return [
        share(b"rules fired", (it.fires for it in run.rules)),
        share(b"monitors started", (it.is_started for it in run.monitors)),
        share(b"states reached", (number for it in automata for number in it.rows)),
        share(b"edges taken", (number for it in automata for number in it.edges.values())),
        share(b"rows reached", (number for it in rules for number in it.rows[1:])),
        share(b"atoms true", (number for it in rules for number in it.true.values())),
    ]


def report(run, has_edges):
    """The text, and how many findings it has."""
    lines = [fact for count in run.monitors for fact in monitor_facts(run, count)]
    lines += trace_facts(run)
    findings = list(findings_of(run, has_edges))
    lines += findings
    lines.append(b"all monitors: " + b", ".join(whole(run)) + b", findings %d" % len(findings))
    return b"".join(line + b"\n" for line in lines), len(findings)
