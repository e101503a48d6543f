"""Refusals 18 to 23 of a bindings file: the form that its line comes nearest to, and what is wrong with it."""
import os
import re

import rv_texts

from . import CARRIAGE_RETURN, Finding, automata, did_you_mean, foreign, nearest, read_again, rules

LONGEST_LINE, LONGEST_NAME = 1048576, 32
FORMS = {
    "container": "container NAME",
    "monitor": "monitor NAME SCOPE KIND FILE",
    "monitor in": "monitor NAME SCOPE KIND FILE in CONTAINER",
    "on": "on MONITOR EVENT [by FIELD] {if TEST} : MODE {WHAT}",
    "react": "react MONITOR REACTOR",
    "off": "off MONITOR",
    "begin": "begin MONITOR ATOM",
}
KEYWORDS = ("container", "monitor", "on", "react", "off", "begin")
SCOPES, KINDS, REACTORS, MODES = ("global", "cpu", "task"), ("da", "ltl"), ("nop", "printk", "panic"), ("event", "start", "start_run", "end")
# Words that others have for these, the kernel's tools among them.
SCOPE_WORDS = {"per_cpu": "cpu", "per-cpu": "cpu", "percpu": "cpu", "per_task": "task", "per-task": "task", "pertask": "task", "thread": "task", "pid": "task", "system": "global", "obj": "task", "per_obj": "task"}
KIND_WORDS = {"dot": "da", "automaton": "da", "dfa": "da", "fsm": "da", "rule": "ltl", "formula": "ltl"}
REACTOR_WORDS = {"print": "printk", "log": "printk", "none": "nop", "off": "nop", "printf": "printk", "signal": "printk"}
MODE_WORDS = {"begin": "start", "init": "start", "run": "start_run", "startrun": "start_run", "start-run": "start_run", "events": "event", "stop": "end", "exit": "end"}
# what the kernel's monitors call, in part or whole (docs/KERNEL.md)
MODE_WORDS |= {f"{front}{call}": mode for front in ("", "da_handle_") for call, mode in (("event", "event"), ("start_event", "start"), ("start_run_event", "start_run")) if front + call != "event"}


class Wrong(Exception):
    """What is wrong with a line: the place of the word, the cause and the mend."""

    def __init__(self, word, cause, mend):
        super().__init__(cause)
        self.start, self.end, self.cause, self.mend = word[0], word[1], cause, mend


class Context:
    """What stands in the lines before, and in those after."""

    def __init__(self, text, number):
        lines = rv_texts.lines_of(text)
        self.number = number
        self.before = rv_texts.Bindings("\n".join(lines[: number - 1]))
        self.whole = rv_texts.Bindings(text)


def joined(words):
    """The words as one writes them, without a carriage return behind the last."""
    return " ".join(text for _, _, text in words).rstrip("\r")


def behind(line):
    """The place behind the last word of a line."""
    end = len(line.rstrip(" \t"))
    return end, end + 1, ""


def reject_comment(words, at):
    """A comment that stands behind the words of a line."""
    for word in words[at:]:
        if word[2].startswith(("#", "//", "/*")):
            raise Wrong((word[0], words[-1][1], ""), "a comment stands behind the line's words: a comment is a line of its own", f"write it above, as a line that begins with `#`, and here `{joined(words[:words.index(word)])}`")


def reject_carriage_return(words):
    start, end, text = words[-1]
    if text.endswith("\r"):
        raise Wrong((end - 1, end, ""), *CARRIAGE_RETURN)


def check_name(word, what):
    text = word[2]
    if re.fullmatch("[a-z0-9_]{1,32}", text):
        return
    if len(text) > LONGEST_NAME:
        raise Wrong(word, f"the name of the {what} has {len(text)} bytes, and at most {LONGEST_NAME} are read", f"write `{text[:LONGEST_NAME]}`, or another short name")
    why = "an upper-case letter" if re.search("[A-Z]", text) else "a dash" if "-" in text else "a character that no name has"
    plain = re.sub("[^a-z0-9_]", "_", text.lower().strip("\"'"))
    raise Wrong(word, f"the name of the {what} has {why}", f"names have lower-case letters, digits and `_` alone: write `{plain}`, here and in the lines that name it")


def check_monitor(word, context):
    """The monitor that an earlier line made."""
    monitor = context.before.monitors.get(word[2])
    if monitor:
        return monitor
    later = context.whole.monitors.get(word[2])
    if later:
        raise Wrong(word, f"the monitor `{word[2]}` is made on line {later.line} only", "move its `monitor` line above this one")
    shown = context.before.shown(word[2])
    if shown:
        raise Wrong(word, f"`{word[2]}` is how the monitor is shown", f"lines name it without its container: write `{shown.name}`")
    raise Wrong(word, f"there is no monitor `{word[2]}` in the lines above", did_you_mean(word[2], context.before.monitors, "the monitors above") if context.before.monitors else
                "write its line first: `monitor NAME SCOPE KIND FILE`")


def choose(word, known, others, what):
    if word[2] in known:
        return
    likely = others.get(word[2].lower()) or (word[2].lower() if word[2].lower() in known else None)
    if word[2] in ("ha", "hybrid", "timed"):
        raise Wrong(word, "hybrid automata, those with clocks, are not read", "`da` reads automata without clocks, `ltl` rules")
    raise Wrong(word, f"`{word[2]}` is no {what}", f"write `{likely}`" if likely else did_you_mean(word[2], known, f"the words for a {what}"))


def want_words(words, line, names):
    """As many words as the form has names, at least."""
    if len(words) < len(names):
        raise Wrong(behind(line), f"the line ends before its {names[len(words)]}", f"the form is `{form_of(words)}`")


def no_more(words, count):
    reject_comment(words, count)
    if len(words) > count:
        raise Wrong((words[count][0], words[-1][1], ""), f"`{joined(words[count:])}` stands behind the line's words", f"leave it out: the form is `{form_of(words)}`")


def form_of(words):
    kind = words[0][2]
    return FORMS["monitor in" if kind == "monitor" and len(words) > 5 else kind]


def container_line(words, line, _context):
    want_words(words, line, ("container", "NAME"))
    check_name(words[1], "container")
    no_more(words, 2)


def monitor_line(words, line, context):
    reject_comment(words, 1)
    if len(words) > 2 and words[2][2] in KINDS and len(words) > 3 and words[3][2] in SCOPES:
        raise Wrong((words[2][0], words[3][1], ""), "SCOPE and KIND are exchanged", f"write `{words[3][2]} {words[2][2]}`")
    for at, name in enumerate(("monitor", "NAME", "SCOPE", "KIND", "FILE")):
        if at >= len(words):
            raise Wrong(behind(line), f"the line ends before its {name}", f"the form is `{FORMS['monitor']}`")
        if name == "NAME":
            check_name(words[at], "monitor")
        elif name == "SCOPE":
            choose(words[at], SCOPES, SCOPE_WORDS, "scope")
        elif name == "KIND":
            choose(words[at], KINDS, KIND_WORDS, "kind")
    file = words[4]
    last = next((word for word in words[5:] if word[2][-1] == file[2][0]), None) if file[2][0] in "\"'" and file[2][-1] != file[2][0] else None
    if last:
        name = line[file[0] + 1 : last[1] - 1]
        raise Wrong((file[0], last[1], ""), "FILE stands in quotes, and has a blank: a blank ends a word, in quotes too", f"give the file a name without blanks, as `{re.sub('[ ]+', '_', name)}`, and write that without quotes")
    if file[2][0] in "\"'" or file[2][-1] in "\"'":
        raise Wrong(file, "FILE stands in quotes, and they are read as part of its name", f"write `{file[2].strip(chr(34) + chr(39))}`; a name with blanks cannot be written")
    if re.search("[\udc80-\udcff]", file[2]):
        raise Wrong(file, "FILE is no UTF-8 text", "give the file a name that is")
    if len(words) == 5:
        return
    if words[5][2] != "in":
        raise Wrong((words[5][0], words[-1][1], ""), f"`{joined(words[5:])}` stands behind FILE", "a name with blanks cannot be written; for a container write `in CONTAINER`")
    if len(words) == 6:
        raise Wrong(behind(line), "the line ends before its CONTAINER", f"the form is `{FORMS['monitor in']}`")
    if words[6][2] not in context.before.containers:
        later = context.whole.containers.get(words[6][2])
        raise Wrong(words[6], f"the container `{words[6][2]}` is made on line {later} only" if later else f"there is no container `{words[6][2]}` in the lines above",
                    "move its line above this one" if later else f"write `container {words[6][2]}` above" if not nearest(words[6][2], context.before.containers) else
                    did_you_mean(words[6][2], context.before.containers, "the containers"))
    no_more(words, 7)


def on_line(words, line, context):
    want_words(words, line, ("on", "MONITOR", "EVENT"))
    monitor = check_monitor(words[1], context)
    colon = find_colon(words, line)
    at = 3
    if words[2][2] == "by" and 4 < colon and words[4][2] not in ("if", "by"):
        event, rest = words[4], joined(words[5:])
        raise Wrong((words[2][0], words[3][1], ""), "`by FIELD` stands before the event", f"write `{joined(words[:2])} {event[2]} {joined(words[2:4])} {rest}`")
    if words[2][2] == ":":
        raise Wrong(words[2], "the trace event is missing before the `:`", "write the name of the trace event behind the monitor")
    if at < colon and words[at][2] == "by":
        at = by_field(words, at, colon, monitor)
    while at < colon:
        at = test_at(words, at, colon, monitor)
    what_of(words, line, colon, monitor)


def find_colon(words, line):
    """The place of the word `:`, which stands behind the event."""
    for at in range(2, len(words)):
        if words[at][2] == ":":
            return at
    for at in range(2, len(words)):
        start, end, text = words[at]
        if text.endswith(":") and len(text) > 1:
            raise Wrong((end - 1, end, ""), f"the `:` is glued to `{text[:-1]}`: it is a word of its own", f"put a blank before it: `{text[:-1]} :`")
        if text.startswith(":"):
            raise Wrong((start, start + 1, ""), f"the `:` is glued to `{text[1:]}`: it is a word of its own", f"put a blank behind it: `: {text[1:]}`")
        if ":" in text and text.split(":")[1] in MODES and at > 2:
            raise Wrong(words[at], "the `:` is a word of its own", f"put blanks round it: `{text.replace(':', ' : ')}`")
    mode = next((at for at in range(3, len(words)) if words[at][2] in MODES), None)
    if mode:
        raise Wrong((words[mode][0], words[mode][0] + 1, ""), f"no `:` stands before the mode `{words[mode][2]}`", f"write `{joined(words[:mode])} : {joined(words[mode:])}`")
    raise Wrong(behind(line), "the line has no `:` and no mode", "write ` : event WHAT` behind it, or another mode: " + ", ".join(MODES))


def by_field(words, at, colon, monitor):
    if monitor.scope != "task":
        fix = joined(words[:at] + words[at + 2:])
        raise Wrong((words[at][0], words[min(at + 1, colon - 1)][1], ""), f"`by` stands on a line of `{monitor.name}`, whose scope is `{monitor.scope}`", f"`by` says whose task an event is, for `task` monitors alone: write `{fix}`, or give `{monitor.name}` the scope `task`")
    if at + 1 == colon:
        raise Wrong(words[colon], "the field behind `by` is missing", "write a field of the event, such as `by pid`")
    field = words[at + 1]
    if not re.fullmatch("[A-Za-z0-9_]+", field[2]):
        raise Wrong(field, f"`{field[2]}` is no name of a field", f"a field's name has letters, digits and `_`: write `{re.sub('[^A-Za-z0-9_].*', '', field[2]) or 'pid'}`")
    return at + 2


def compared(test):
    """A test as a filter of tracefs has it."""
    return re.sub(r" *([<>]=?) *", r" \1 ", test).strip()


def test_at(words, at, colon, monitor):
    word = words[at]
    if word[2] == "by":
        if monitor.scope != "task":
            by_field(words, at, colon, monitor)
        raise Wrong(word, "`by` stands behind a test, or twice", "`by FIELD` stands once, directly behind the event")
    if word[2] in ("and", "or", "&&", "||", ","):
        raise Wrong(word, f"tests are not joined by `{word[2]}`", "give each test its own `if` (all of them have to hold); where one of several is enough, write an `on` line for each")
    if word[2] != "if":
        likely = "if" if "=" in word[2] else "by" if nearest(word[2], ["by"]) else None
        raise Wrong(word, f"`{word[2]}` stands between the event and the `:`", f"write `if {word[2]}`" if likely == "if" else "`by FIELD` and `if TEST` alone stand there")
    if at + 1 == colon:
        raise Wrong(words[colon], "the test behind `if` is missing", "write `if FIELD=VALUE` or `if FIELD!=VALUE`")
    test = words[at + 1]
    if re.fullmatch(r".*[A-Za-z0-9_][<>]=?[^ ]*|.*[<>].*", test[2]) and not re.fullmatch("[^=<>]+=.+", test[2]):
        raise Wrong(test, f"`{test[2]}` compares by order, and a test is `FIELD=VALUE` or `FIELD!=VALUE`", f"write an `on` line for each value that is meant; or have the kernel compare when the trace is recorded, by a line `# filter {words[2][2]}: {compared(test[2])}` of the bindings, which tools/record obeys, and leave the test out")
    if "==" in test[2]:
        raise Wrong(test, f"`{test[2]}` has two `=`, and the second belongs to the value", f"write `{test[2].replace('==', '=')}`")
    if not re.fullmatch("[^=]+=.+", test[2]) or re.fullmatch("!=.*", test[2]):
        follow = words[at + 2][2] if at + 2 < colon else ""
        if re.fullmatch("[=!<>]+.*", follow) or test[2].endswith("="):
            end = next((it for it in range(at + 2, colon) if words[it][2] in ("if", "by")), colon)
            whole = "".join(word[2] for word in words[at + 1: end]).replace("==", "=")
            raise Wrong((test[0], words[end - 1][1], ""), "the test has blanks, and it is one word", f"write `if {whole}`")
        raise Wrong(test, f"`{test[2]}` is no test", "a test is one word, `FIELD=VALUE` or `FIELD!=VALUE`, each part of one byte or more")
    field = re.split("!?=", test[2])[0]
    if not re.fullmatch("[A-Za-z0-9_]+", field):
        raise Wrong((test[0], test[0] + len(field), ""), f"`{field}` is no name of a field", f"a field's name has letters, digits and `_`: write `{re.sub('[^A-Za-z0-9_]', '', field) or 'FIELD'}`")
    return at + 2


def what_of(words, line, colon, monitor):
    if colon + 1 == len(words):
        raise Wrong(behind(line), "the line ends before its mode", f"write a mode behind the `:`: {', '.join(MODES)}")
    mode, what = words[colon + 1], words[colon + 2:]
    reject_comment(words, colon + 1)
    if mode[2] not in MODES:
        is_what = re.fullmatch(r"[-+*].*", mode[2])
        raise Wrong(mode, f"`{mode[2]}` is no mode", f"write a mode before it: `event {mode[2]}`" if is_what else f"write `{MODE_WORDS[mode[2].lower()]}`" if mode[2].lower() in MODE_WORDS else
                    did_you_mean(mode[2], MODES, "the modes") if nearest(mode[2], MODES) else f"write a mode before it: `event {joined(words[colon + 1:])}`")
    if mode[2] == "end":
        if monitor.scope != "task":
            raise Wrong(mode, f"`end` stands on a line of `{monitor.name}`, whose scope is `{monitor.scope}`", "`end` says that a task is gone, for `task` monitors alone: leave the line out")
        if what:
            raise Wrong((what[0][0], what[-1][1], ""), "an `end` has nothing behind it", f"write `{joined(words[:colon + 2])}`")
    elif monitor.kind == "da":
        automaton_what(words, line, colon, what)
    else:
        rule_what(mode, what, monitor)


def automaton_what(words, line, colon, what):
    if not what:
        raise Wrong(behind(line), f"the event of the automaton is missing behind `{words[colon + 1][2]}`", f"write it, also where it has the trace event's name: `{joined(words)} {words[2][2]}`")
    if what[0][2][0] in "+-*" and re.fullmatch("[-+*][A-Z].*", what[0][2]):
        raise Wrong(what[0], f"`{what[0][2]}` sets an atom of a rule, and the monitor has an automaton", "write an event of the automaton")
    if len(what) > 1:
        raise Wrong((what[1][0], what[-1][1], ""), "an automaton gets one event of a line", "write an `on` line for each event")
    raise Wrong(what[0], f"`{what[0][2]}` is no event", "write an event of the automaton")


def rule_what(mode, what, monitor):
    if mode[2] == "start":
        raise Wrong(mode, f"`start` stands on a line of `{monitor.name}`, which is a rule", "the only start that a rule has is `start_run`, where the event is itself the first that is judged: write `start_run`")
    seen = set()
    for word in what:
        if not re.fullmatch(r"[-+*][A-Z][A-Z0-9_]*", word[2]):
            plain = word[2].lstrip("+-*")
            raise Wrong(word, f"`{word[2]}` sets no atom", f"write `+{plain.upper()}` (it goes on), `-{plain.upper()}` (it goes off) or `*{plain.upper()}` (true for this event alone)")
        if word[2][1:] in seen:
            raise Wrong(word, f"the atom `{word[2][1:]}` stands twice", "name each atom once on a line")
        seen.add(word[2][1:])
    raise Wrong(mode, "this look finds no fault in the line", "compare it with the form")


def react_line(words, line, context):
    want_words(words, line, ("react", "MONITOR", "REACTOR"))
    check_monitor(words[1], context)
    reject_comment(words, 1)
    choose(words[2], REACTORS, REACTOR_WORDS, "reactor")
    no_more(words, 3)


def off_line(words, line, context):
    want_words(words, line, ("off", "MONITOR"))
    check_monitor(words[1], context)
    no_more(words, 2)


def begin_line(words, line, context):
    want_words(words, line, ("begin", "MONITOR", "ATOM"))
    monitor = check_monitor(words[1], context)
    reject_comment(words, 1)
    if monitor.kind == "da":
        raise Wrong(words[0], f"`begin` stands on a line of `{monitor.name}`, which is an automaton", "its initial state stands in its file, by `__init_`: leave the line out")
    if not re.fullmatch("[A-Z][A-Z0-9_]*", words[2][2]):
        raise Wrong(words[2], f"`{words[2][2]}` is no name of an atom", f"write the atom alone, without a sign: `{words[2][2].lstrip('+-*').upper()}`")
    no_more(words, 3)


LINES = {"container": container_line, "monitor": monitor_line, "on": on_line, "react": react_line, "off": off_line, "begin": begin_line}


def syntax(line, context):
    """What is wrong with a line that has none of the forms, and the form that it comes nearest to."""
    words = rv_texts.places_of(line)
    if not words:
        raise Wrong((0, 1, ""), "the line has no word", "it is skipped")
    kind = words[0][2]
    if kind.rstrip("\r") in ("", *LINES) and (kind != "on" or words[-1][2].rstrip("\r") in (*MODES, ":")):  # (what is delivered may be any word)
        reject_carriage_return(words)
    if kind not in LINES:
        if kind.rstrip(":").lower() in LINES:
            raise Wrong(words[0], f"`{kind}` is no first word of a line", f"write `{kind.rstrip(':').lower()}`")
        if kind.startswith(("//", "/*", ";", "--", "%")):
            raise Wrong(words[0], f"`{kind[:2]}` begins no comment", "a comment is a line that begins with `#`")
        likely = nearest(kind, KEYWORDS)
        if not likely and len(words) > 1 and words[1][2] in context.before.monitors:
            likely = "on" if ":" in [word[2] for word in words] else None
        if not likely and ":" in [word[2] for word in words] and words[0][2] in context.before.monitors:
            raise Wrong(words[0], "the line does not begin with `on`", f"write `on {joined(words)}`")
        raise Wrong(words[0], f"`{kind}` is no first word of a line", f"write `{likely}`: the form is `{FORMS[likely]}`" if likely else f"the first words are {', '.join(KEYWORDS)}; a comment begins with `#`")
    LINES[kind](words, line, context)
    raise Wrong(words[0], "this look finds no fault in the words of the line", "compare it with the form")


def finding_of(number, path, text, line_number):
    lines = rv_texts.lines_of(text)
    strange = foreign(path, text, "bindings")
    if strange and (strange.line is None or line_number <= strange.line or strange.cause.endswith("wanted here")):
        return strange, None
    if not 1 <= line_number <= len(lines):
        return None, None
    line, context = lines[line_number - 1], Context(text, line_number)
    words = rv_texts.places_of(line)
    before = context.before
    if number == 18:
        end = len("\n".join(lines[:line_number]).encode("utf-8", "surrogateescape")) + 1
        if end > LONGEST_LINE:
            return Finding(f"the line ends past byte {LONGEST_LINE}", "leave out comments, or make two files of it", line_number), None
        if words and words[0][2] == "container" and len(before.containers) >= 32:
            return Finding("it is the 33rd container", "put monitors of one kind into one container", line_number), FORMS["container"]
        try:
            syntax(line, context)
        except Wrong as wrong:
            kind = words[0][2] if words and words[0][2] in KEYWORDS else nearest(words[0][2], KEYWORDS) if words else None
            form = FORMS.get("monitor in" if kind == "monitor" and "in" in [word[2] for word in words[5:]] else kind)
            return Finding(wrong.cause, wrong.mend, line_number, wrong.start, wrong.end), form
    if number == 19 and len(words) > 1:
        name = words[1]
        first = before.monitors[name[2]].line if name[2] in before.monitors else before.containers.get(name[2])
        return Finding(f"line {first} has the name `{name[2]}` already; containers and monitors share one space of names", f"write another name, such as `{name[2][:30]}_2`", line_number, name[0], name[1]), None
    if number == 22:
        return Finding(f"{len(before.monitors)} monitors stand above, and 32 are read", "make two bindings files of it, and run each on the same trace", line_number), None
    if number == 23:
        return Finding(f"{len(before.rules)} `on` lines stand above, and 256 are read", "make two bindings files of it, each with some of the monitors, and run each on the same trace", line_number), None
    return unknown_name(number, line_number, words, context), None


def unknown_name(number, line_number, words, context):
    """Of 20 and 21: the event or atom that the monitor's file has not."""
    monitor = context.before.monitors.get(words[1][2]) if len(words) > 1 else None
    if monitor is None:
        return None
    try:
        text = read_again(monitor.file)
    except OSError:
        return Finding(f"the file {monitor.file} of `{monitor.name}` could not be read here", "run rv-explain where rv was run", line_number)
    known = dict.fromkeys((automata.events_of if number == 20 else rules.atoms_of)(text) or [])
    candidates = words[-1:] if number == 20 else words[3:] if words[0][2] == "on" else words[2:3]
    for start, end, word in candidates:
        name = word.lstrip("+-*") if number == 21 else word
        if number == 21 and words[0][2] == "on" and word[0] not in "+-*":
            continue
        if words[0][2] == "begin" and word[0] in "+-*" and name in known:
            return Finding(f"`begin` names the atom alone, and `{word[0]}` stands before it", f"write `{name}`", line_number, start, end)
        if name in known or not name:
            continue
        what = "event" if number == 20 else "atom"
        if name.endswith("\r"):
            return Finding(*CARRIAGE_RETURN, line_number, end - 1, end)
        more = "" if number == 20 else "; an atom that is never set need not be named"
        return Finding(f"{monitor.file} has no {what} `{name}`", did_you_mean(name, known, f"its {what}s") + more, line_number, start, end)
    return None


def unread_file(path, text_of_bindings):
    """The line of the bindings that names a file."""
    for monitor in rv_texts.Bindings(text_of_bindings).monitors.values():
        if os.path.normpath(monitor.file) == os.path.normpath(path):
            return monitor
    return None
