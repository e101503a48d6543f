"""Rules of bindings that fire on no line of a trace: where their monitor has failures, these may be false alarms."""
import rv_texts

SHOWN = 4  # rules that are named


def silent_rules(bindings, lines):
    """The rules that fire on none of the lines."""
    waiting = {}
    for rule in bindings.rules:
        waiting.setdefault(rule.event, []).append(rule)
    for line in lines:
        if not waiting:
            break
        event = rv_texts.event_of(line) if any(name in line for name in waiting) else None
        if event is not None and event.name in waiting:
            waiting[event.name] = [rule for rule in waiting[event.name] if not rule.fires(event)]
            if not waiting[event.name]:
                del waiting[event.name]
    silent = {id(rule) for rules in waiting.values() for rule in rules}
    return [rule for rule in bindings.rules if id(rule) in silent]


def doubts(bindings, bindings_path, trace_path, failing):
    """A line for each of the failing monitors, by their display names, that has rules which fire on no line."""
    if not failing:
        return
    silent = silent_rules(bindings, rv_texts.read_lines(trace_path))
    for name in failing:
        rules = [rule for rule in silent if rule.monitor.shown == name]
        if rules:
            places = ", ".join(f"{bindings_path}:{rule.line} {rule.event}" for rule in rules[:SHOWN]) + (", .." if len(rules) > SHOWN else "")
            are = "1 rule fires" if len(rules) == 1 else f"{len(rules)} rules fire"
            yield f"{name}: {are} on no line ({places}): its failures may be false alarms, and rv-coverage tells more"
