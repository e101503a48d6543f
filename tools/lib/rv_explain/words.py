"""Refusal 1 of the command line, 34 and 37 of a run's words, and files that cannot be read."""
import contextlib
import functools
import os
import re

import rv_texts
from rv_tool import quoted

from . import Finding, did_you_mean, nearest, one_of, read_again

RV, COVERAGE = "rv", "rv-coverage"
RUNS = ("replay", "feed", "watch", "journal", "check", "control")  # the commands of rv whose first file are bindings
MOST_BLOCKS = 15625
OTHERS = {
    "run": "replay", "mon": "replay", "monitor": "replay", "report": "replay", "verify": "replay", "list": "control", "dot": "table", "show": "table",
    "validate": "check", "history": "journal", "gen": "load", "generate": "load", "c": "header", "headers": "header", "trace": "replay",
}


class Command:
    """What was called: the program, None where the words do not begin with its name, and its words, None where none are known."""

    def __init__(self, given):
        name = os.path.basename(given[0]) if given else None
        self.program = name if name in (RV, COVERAGE) else None
        self.words = given[1:] if self.program else given or None
        words = self.words or []
        files = words if self.program == COVERAGE else words[1:] if words and words[0] in RUNS else []
        self.bindings_path, self.trace_path = [*files, None, None][:2]

    @functools.cached_property
    def bindings(self):
        """The bindings that were named, or None where none were or they cannot be read."""
        with contextlib.suppress(OSError):
            return self.bindings_path and rv_texts.Bindings(read_again(self.bindings_path))

    def shown(self):
        """The command as it is shown."""
        return " ".join([self.program or RV, *(word or "''" for word in self.words or [])])


def forms_of(tables):
    """The command forms of docs/FORMATS.md: the program, its words, and what it prints."""
    forms = []
    for _, head, rows in tables:
        words = re.fullmatch("words(?: of `(.+)`)?", head[0])
        if words and head[-1] == "prints":
            for row in rows:
                forms += [(words[1] or RV, form.split(), row[-1]) for form in re.findall("`([^`]+)`", row[0])]
    return forms


def usage(command, forms):
    """What is wrong with words that are none of the program's forms, as a finding whose place is in the words."""
    program, words = command.program or RV, command.words
    line, places = "", []
    for word in [program, *words]:
        places.append((len(line), len(line) + max(1, len(word))))
        line += (word or "''") + " "

    def at(place, cause, mend):
        return Finding(cause, mend, 0, *(places[place] if place < len(places) else (len(line.rstrip()), len(line.rstrip()) + 1)))

    is_coverage = program == COVERAGE
    if not words:
        return at(1, "no words were given", "for what a run has watched: `rv-coverage BINDINGS TRACE`" if is_coverage else "for a verdict on a trace: `rv replay BINDINGS TRACE`")
    name = words[0]
    commands = list(dict.fromkeys(form[0] for of, form, _ in forms if of == RV))
    if name in ("--version", "-V", "version"):
        return at(1, "the program prints no version", "`git log -1` in its checkout tells which it is")
    if name in ("--help", "-h", "help", "-?"):
        return at(1, "the program prints no help", "the forms are these; " + ("docs/COVERAGE.md says what is printed" if is_coverage else "README.md says which to take (\"Which command\")"))
    mine = [form for of, form, _ in forms if of == program]
    if is_coverage:
        return coverage_usage(words, mine, commands, at)
    if name.startswith("-"):
        return at(1, f"there are no options, and `{name}` is read as a command", "leave it out; what is printed of a failure stands in the bindings (`react`)")
    if name not in commands:
        if len(words) == 2 and name.endswith(".rv"):
            return at(1, "the command is missing", f"write `rv replay {' '.join(map(quoted, words))}`")
        likely = nearest(name, commands) or OTHERS.get(name.lower())
        mend = f"write `{likely}`: `rv {' '.join(next(form for form in mine if form[0] == likely))}`" if likely else f"the commands are {', '.join(commands)}"
        return at(1, f"`{name}` is no command of rv", mend + ("" if likely or command.program else "; if rv-coverage was called, give its name before its words: `rv-explain rv-coverage WORD ..`"))
    mine = [form for form in mine if form[0] == name]
    option = next((place for place, word in enumerate(words, 1) if re.fullmatch("--?[a-z].*", word)), None)
    if option:
        return at(option, f"there are no options, and `{words[option - 1]}` is read as a file", f"leave it out: {one_of_forms(RV, mine)}")
    if name == "load" and len(words) == 2:
        if not re.fullmatch("[0-9]+", words[1]):
            return at(2, f"`{words[1]}` is no decimal", f"N is a number of blocks of 64 lines, from 1 to {MOST_BLOCKS}")
        if not rv_texts.number_of(words[1], MOST_BLOCKS):
            return at(2, f"{words[1].lstrip('0') or '0'} blocks are not in 1 to {MOST_BLOCKS}", f"{MOST_BLOCKS} blocks are 1,000,000 lines, the most that a trace has")
    if name == "table" and len(words) > 1 and words[1] not in ("da", "ltl"):
        kind = {".dot": "da", ".ltl": "ltl"}.get(os.path.splitext(words[-1])[1])
        if len(words) == 2:
            return at(1, "the kind, `da` or `ltl`, is missing", f"write `rv table {kind or 'da'} {quoted(words[1])}`")
        likely = kind or nearest(words[1], ["da", "ltl"]) or "da"
        if words[-1] in ("da", "ltl"):
            return at(2, "the kind stands behind the file", f"write `rv table {words[-1]} {quoted(words[1])}`")
        return at(2, f"`{words[1]}` is no kind", f"an automaton is `da`, a rule `ltl`: write `rv table {likely} {quoted(words[-1])}`")
    if name == "header" and len(words) == 3 and not re.fullmatch("[a-z0-9_]{1,32}", words[1]):
        if re.search("[./]", words[1]) and re.fullmatch("[a-z0-9_]{1,32}", words[2]):
            return at(2, "NAME and FILE are exchanged", f"write `rv header {words[2]} {quoted(words[1])}`")
        if re.search("[./]", words[1]):
            return at(2, f"`{words[1]}` is no NAME", f"write `rv header {re.sub('[^a-z0-9_]', '_', os.path.splitext(os.path.basename(words[1]))[0].lower())} {quoted(words[2])}`")
        return at(2, f"`{words[1]}` is no NAME, which has 1 to 32 lower-case letters, digits and `_`", f"write `{re.sub('[^a-z0-9_]', '_', words[1].lower())[:32]}`")
    return miscounted(RV, words, mine, at)


def coverage_usage(words, forms, commands, at):
    """The same of `rv-coverage`, whose words are two files, and `edges` behind them."""
    if words[0] in commands:
        return at(1, f"`{words[0]}` is a command of rv, and rv-coverage has none: it is read as a file", f"leave it out: {one_of_forms(COVERAGE, forms)}")
    for place, word in enumerate(words, 1):
        if re.fullmatch("--?[a-z].*", word):
            return at(place, f"there are no options, and `{word}` is a word like any other", f"leave it out: {one_of_forms(COVERAGE, forms)}")
    if len(words) == 3 and words[2] != "edges":
        return at(3, f"`{words[2]}` stands where `edges` alone may stand", one_of_forms(COVERAGE, forms))
    return miscounted(COVERAGE, words, forms, at)


def one_of_forms(program, forms):
    return one_of([f"{program} {' '.join(form)}" for form in forms])


def miscounted(program, words, forms, at):
    """The finding of words that are too many or too few, or that are no text."""
    most, shown = max(map(len, forms)), one_of_forms(program, forms)
    strange = next((place for place, word in enumerate(words, 1) if re.search("[\ud800-\udfff]", word)), None)
    if strange:
        return at(strange, f"`{words[strange - 1]}` is no text in UTF-8", "give the file another name")
    if len(words) > most:
        return at(most + 1, f"`{words[most]}` is a word too many", f"{shown}; where a file's name has blanks, put it in quotes")
    if any(len(form) == len(words) for form in forms):
        return at(len(words) + 1, "these words are one of the forms", "give the words that were refused")
    form = next(form for form in forms if len(form) > len(words))
    return at(len(words) + 1, f"the {' and the '.join(form[len(words):])} {'is' if len(form) - len(words) == 1 else 'are'} missing", shown)


def not_numbered(path, text):
    """Of 34: the monitor that `rv journal` cannot count."""
    bindings = rv_texts.Bindings(text)
    for number, line in enumerate(bindings.lines, 1):
        words = rv_texts.places_of(line)
        if len(words) == 3 and words[0][2] == "react" and words[2][2] == "panic" and bindings.monitors.get(words[1][2]) and bindings.monitors[words[1][2]].reactor == "panic":
            return Finding("the reactor `panic` halts the run, and a journal has no line for that", "write `printk` for it; `rv replay` and `rv feed` take panic", number, words[2][0], words[2][1])
    for rule in bindings.rules:
        if rule.mode == "end":
            at = re.search(r":[ \t]+(end)", bindings.lines[rule.line - 1])
            return Finding("the mode `end` has no line of a journal's deliveries", "leave the line out for the journal (where no pid comes again nothing changes); `rv replay` and `rv feed` take it", rule.line, *at.span(1))
    return Finding("a monitor has more than 32 rows and atoms together", "`rv table da FILE` or `rv table ltl FILE` shows how many it has; `rv replay` and `rv feed` take it", None)


def no_instance(words, bindings, path):
    """Of 37: what is wrong with MONITOR or INSTANCE of `rv watch`."""
    if not words or words[0] != "watch" or len(words) != 5 or bindings is None:
        return Finding("no monitor has this name, or INSTANCE is none of its instances", "a monitor in a container is named `CONTAINER:NAME`; INSTANCE is 0 of a `global` monitor, a CPU from 0 to 63, or the pid of a task that has a delivery; give the words, and they are looked at: `rv-explain watch BINDINGS TRACE MONITOR INSTANCE`")
    name, instance = words[3], words[4]
    line = "rv " + " ".join(words)
    at = (len(line) - len(instance), len(line))
    monitor = bindings.shown(name)
    if monitor is None:
        inner = bindings.monitors.get(name)
        start = len(line) - len(instance) - 1 - len(name)
        mend = f"write `{inner.shown}`: it is in a container" if inner else did_you_mean(name, [it.shown for it in bindings.monitors.values()], "the monitors")
        return Finding(f"no monitor has the display name `{name}`", mend, 0, start, start + len(name))
    if monitor.scope == "global":
        return Finding(f"`{name}` is global: it has the instance 0 alone", "write `0`", 0, *at)
    if monitor.scope == "cpu":
        return Finding(f"`{instance}` is no CPU from 0 to 63", "write the CPU's number, in decimal", 0, *at)
    if instance == "0":
        return Finding("the idle tasks, pid 0 on each CPU, are not watched", "write the pid of another task", 0, *at)
    if not re.fullmatch("[0-9]+", instance):
        return Finding(f"`{instance}` is no pid", "write the task's number, in decimal", 0, *at)
    return Finding(f"no event of this trace is delivered to a task with the pid {instance}", f"take a pid that the trace has: `grep -oE 'pid={instance}|-{instance} ' {quoted(path)}` finds none that is bound", 0, *at)


def unread(path, bindings_path):
    """Why a file could not be read."""
    plain = path.rstrip("\r")
    if plain != path:
        mend = f"take carriage returns out of the bindings: `tr -d '\\r' < {quoted(bindings_path) if bindings_path else 'BINDINGS'} > mended.rv`"
        return Finding(f"the name ends in a carriage return, which is not seen: the bindings have Windows line ends{' (the file ' + plain + ' is there)' if os.path.exists(plain) else ''}", mend)
    if path == "-":
        return Finding("`-` is no name of standard input: rv looks for a file that is called so", "write `/dev/stdin`, or `<(COMMAND)` in bash")
    if rv_texts.is_standard_input(path):
        return Finding("rv could not open its standard input: it was closed, or is a socket, or a file that you may not open", "send the text through a pipe: `cat FILE | rv ..`")
    if path == "":
        return Finding("the name is empty: a variable of the shell was not set, or quotes stand round nothing", "give the name of a file")
    if path[0] in "\"'" or path[-1] in "\"'":
        return Finding("quotes are part of the name", f"write `{path.strip(chr(34) + chr(39))}`")
    if path.startswith("~") or "$" in path:
        return Finding("`~` and `$NAME` are the shell's; in a bindings file, and in quotes, nothing puts their values in", "write the whole path")
    if re.match("[a-z]+://", path):
        return Finding("rv reads files of this machine, and no addresses", "fetch the file first")
    if os.path.isdir(path):
        inside = sorted(name for name in os.listdir(path) if re.search(r"\.(txt|rv|dot|ltl)$", name)) if os.access(path, os.R_OK) else []
        return Finding("it is a directory", "name a file in it" + (f": {', '.join(os.path.join(path, name) for name in inside[:4])}" if inside else ""))
    if os.path.lexists(path) and not os.path.exists(path):
        return Finding(f"it is a link to {os.readlink(path)}, which is not there", "mend the link, or name the file itself")
    if os.path.exists(path) and not os.access(path, os.R_OK):
        is_of_kernel = path.startswith("/sys/kernel/")
        return Finding("you may not read it", "tracefs is root's: `sudo cat " + quoted(path) + " > trace.txt`, and give that file" if is_of_kernel else f"`chmod a+r {quoted(path)}` by its owner, or copy it: `sudo cat {quoted(path)} > copy`")
    if os.path.exists(path):
        return Finding("it can be read from here now: the run had another folder, or the file came later", "run rv where rv-explain was run, or name the file from the root (`/..`)")
    return missing(path, bindings_path)


def missing(path, bindings_path):
    folder, name = os.path.split(path)
    named = f" ({bindings_path} names it)" if bindings_path else ""
    here = os.getcwd()
    up = here
    while True:
        if os.path.exists(os.path.join(up, path)) and up != here:
            return Finding(f"there is no such file from where you stand, {here}{named}; bindings name files from where rv is run", f"there is one from {up}: run rv there, `cd {quoted(up)}`")
        if os.path.dirname(up) == up:
            break
        up = os.path.dirname(up)
    beside = [os.path.join(os.path.dirname(bindings_path or ""), tail) for tail in (path, name)] + [name]
    for it in beside:
        if it != path and os.path.exists(it):
            return Finding(f"there is no such file from where you stand{named}; bindings name files from where rv is run, and not from where the bindings are", f"the file {it} is there: run rv where the bindings are, and name the trace from there; or write `{it}` in the bindings" if bindings_path or "/" in path else f"write `{it}`")
    upper = folder or "."
    while not os.path.isdir(upper) and os.path.dirname(upper):
        upper = os.path.dirname(upper)
    if not os.path.isdir(folder or "."):
        return Finding(f"there is no folder {folder} from where you stand, {here}{named}", "bindings name files from where rv is run: run rv from the folder where the name holds, or write another name")
    likely = nearest(name, os.listdir(folder or ".")) if os.access(folder or ".", os.R_OK) else None
    return Finding(f"there is no such file{named}", f"write `{os.path.join(folder, likely)}`" if likely else "see `ls` for what is there; bindings name files from where rv is run")
