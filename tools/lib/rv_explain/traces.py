"""Refusals 24 to 30 of a trace: what the line is, and how a trace without it is made."""
import re

import rv_texts

from . import CARRIAGE_RETURN, Finding, did_you_mean, foreign, nearest, size_of

WITHOUT_HEAD = "`trace-cmd report -N trace.dat | grep -vE '^(cpus=|CPU [0-9]+ is empty)' > trace.txt`"
RECORD_AGAIN = "turn it off (`echo 0 > options/{}` in /sys/kernel/tracing) and record again"
# A line may have millions of bytes; its first ones tell what it is.
LOOKED_AT = 1000
NAMED = 12  # fields of a line that are named
# What a line is that has not the form of an event: its form, the cause and the mend.
LINES = [
    (r"(version = [0-9]+|CPU [0-9]+ is empty|cpus=[0-9]+)$", "it is a line of the head of trace-cmd, and no event", f"leave these lines out: {WITHOUT_HEAD}"),
    (r"CPU:[0-9]+ \[([0-9]+ )?EVENTS DROPPED\]", "trace-cmd tells that events were lost before this line", "never cut this line out, since what follows may be judged wrongly: record again with a larger buffer (`trace-cmd record -b 65536`), with fewer events, or for a shorter time"),
    (r"[ \t]*=> .*|(.*[: ])?<(user )?stack trace>[ \t]*$", "it is a line of a call stack, which the option `stacktrace` (or `trace-cmd record -T`) records behind each event", "the stacks are recorded with the events: " + RECORD_AGAIN.format("stacktrace") + ", or leave out `-T`"),
    (r"[ \t]*[0-9]+\)[ \t]+[^|]*\|", "it is a line of the tracer `function_graph`", "turn the tracer off and record again: `echo nop > current_tracer`"),
    (r"[ \t]*(-{4,}|\|[ \t]*$|# )", "it is a line of a tracer's own layout", "turn the tracer off and record again: `echo nop > current_tracer`"),
    (r"[ \t]*\S.*-[0-9]+[ \t]+\([ \t]*([0-9]+|-+)\)[ \t]+\[[0-9]+\]", "a column with the thread group, `(TGID)`, stands between the PID and the CPU: the option `record-tgid` is on", "print the text again without it: `echo 0 > options/record-tgid; cat trace > trace.txt`"),
    (r"[ \t]*\S.*-[0-9]+[ \t]+[0-9]+[^ \t\[\]:]*[ \t]+[0-9.]+(us)?[!+#*@$]?[ \t]*:", "it is of the latency format: the CPU stands without brackets", "print the text again: `echo 0 > options/latency-format; cat trace > trace.txt`; with trace-cmd leave out `report -l`"),
    (r"[ \t]*\S.*[ \t]+[0-9]+[ \t]+\[[0-9]+\][ \t]+[0-9.]+:[ \t]+([0-9]+ )?[a-z_]+:[a-z0-9_]+:", "it is a line of `perf script`, which writes no `-` before the PID", "record with tracefs or trace-cmd (docs/TRACES.md)"),
    (r"\[[ \t]*[0-9]+\.[0-9]+\]", "it is a line of the kernel's log (dmesg), and no event", "give the text of the trace: `cat /sys/kernel/tracing/trace`"),
    (r".* [A-Za-z0-9_.]+ <-[A-Za-z0-9_.]+[ \t]*$", "it is a line of the tracer `function`", "turn the tracer off and record again: `echo nop > current_tracer`"),
    (r"[ \t]*[0-9a-f]{2}( ?[0-9a-f]{2}){7,}", "it is bytes in hexadecimal: the option `hex` is on", "print the text again: `echo 0 > options/hex; cat trace > trace.txt`"),
    (r"[ \t]*([0-9]+[ \t]+){2,}[0-9]+:?[ \t]", "it is numbers in place of a line: the option `raw` is on", "print the text again: `echo 0 > options/raw; cat trace > trace.txt`"),
    (r"Attaching [0-9]+ probe", "it is the output of bpftrace", "record with tracefs or trace-cmd (docs/TRACES.md)"),
    (r"<\?xml|[ \t]*[{\[]\"|[ \t]*\{$", "it is JSON or XML, and no text of a trace", "give the text that `cat trace` or `trace-cmd report -N` prints"),
    (r"(cat|bash|sh|trace-cmd|sudo):? ", "it is a message of a command", "give the text that `cat trace` or `trace-cmd report -N` prints, without the command's messages (`2> messages`)"),
]


def comment_lines(lines):
    """How many lines of the front are a head, each with a `#`."""
    count = 0
    while count < len(lines) and (lines[count].startswith("#") or not lines[count].strip()):
        count += 1
    return count


def finding_of(number, path, text, line_number, bindings):
    strange = foreign(path, text, "trace")
    if strange and (number == 24 and line_number <= max(strange.line, 1) or "compressed" in strange.cause):
        return strange
    lines = rv_texts.lines_of(text)
    line = lines[line_number - 1] if line_number and 1 <= line_number <= len(lines) else ""
    if line_number and line_number > len(lines) + 1:
        return Finding(f"the file has {len(lines):,} line{'s' if len(lines) != 1 else ''} now, so it was changed after `rv` read it", "run `rv` again on the file as it is", line_number)
    if number == 24:
        return no_event(lines, line_number, line, text)
    if number == 25:
        count = re.search("(?<![0-9])[0-9]{1,20}(?= EVENTS)", line)
        lost = f"{count[0]} events were lost" if count else "events were lost"
        return Finding(f"the kernel's buffer was full, and {lost} before this line", "never cut this line out, since what follows may be judged wrongly: record again with a larger buffer (`echo 65536 > buffer_size_kb`), with fewer events, or for a shorter time", line_number)
    if number == 26:
        head = rv_texts.HEAD.search(line)
        return Finding(f"the line is of CPU {head[2].lstrip('0')[:LOOKED_AT] if head else '64 or more'}, and CPUs 0 to 63 are read", "deal the trace to parts, in which the CPUs are renumbered: `rv-parts BINDINGS parts < TRACE`, then `rv-many parts/manifest` (docs/LARGE.md). Where all monitors are by CPU, CPUs 0 to 63 alone are enough (`echo ffffffffffffffff > tracing_cpumask`, or `trace-cmd report -N --cpu 0-63`); monitors by task, and global ones, find false violations then", line_number, *(head.span(2) if head else (None, None)))
    if number == 27:
        count = f"{size_of(path):,} bytes" if size_of(path) > rv_texts.MOST_BYTES else f"{len(lines):,} lines"
        return Finding(f"the trace has {count}, and {rv_texts.MOST_LINES:,} lines and {rv_texts.MOST_BYTES:,} bytes are read", "leave out the lines of events that the bindings do not name, or deal the trace to parts; cutting it by time loses failures (docs/LARGE.md)", line_number)
    if number == 28:
        return Finding("more than 65,536 tasks are followed", "bind fewer events, add tests (`if FIELD=VALUE`) to the `on` lines of `task` monitors, or record for a shorter time (docs/LARGE.md)", line_number)
    if number == 29:
        return no_pid(line, line_number, bindings)
    if number == 30:
        return Finding("the rules fire more than 4,000,000 times", "make two bindings files of it, each with some of the monitors, or record for a shorter time (docs/LARGE.md)", line_number)
    return None


def carriage_return(line, line_number, before=""):
    """The finding of a line that would be read without the carriage return at its end."""
    cause, mend = CARRIAGE_RETURN
    return Finding(before + cause, mend, line_number, len(line) - 1, len(line))


def no_event(lines, line_number, line, text):
    is_last, plain = line_number == len(lines), line.rstrip("\r")
    if rv_texts.re.search(rb"^\xef\xbb\xbf".decode("utf-8"), line) and line_number == 1 and rv_texts.event_of(line.lstrip("\ufeff")) is None:
        return Finding("three invisible bytes, a byte order mark, stand before the first letter", "take them out: `sed -i '1s/^\\xef\\xbb\\xbf//' FILE`", 1, 0, 1)
    if plain != line and (rv_texts.is_skipped(plain) or rv_texts.is_lost_note(plain)):
        return carriage_return(line, line_number)
    for form, cause, mend in LINES:
        if re.match(form, plain[:LOOKED_AT]):
            return Finding(cause, mend, line_number, 0, len(line))
    head = rv_texts.HEAD.search(line)
    if head is None:
        return headless(lines, line_number, line, is_last and not text.endswith("\n"))
    if rv_texts.number_of(head[1], rv_texts.HIGHEST_PID) is None:
        return Finding(f"the PID {head[1][:LOOKED_AT]} is over {rv_texts.HIGHEST_PID}", "a task's name may hold such text, and the head ends at the first place that can: rename the task, or leave its lines out", line_number, *head.span(1))
    words = rv_texts.places_of(line[head.end():])
    stamp = next((word for word in words[:2] if rv_texts.STAMP.fullmatch(word[2])), None)
    if stamp is None:
        return stampless(line_number, line, head, words, is_last)
    name = next((word for word in words[words.index(stamp) + 1:]), None)
    if name is None:
        return Finding("the line ends behind its timestamp: no event follows", "the text was cut in the middle of a line: take that line out at the trace's end, or copy the trace again", line_number, len(line) - 1, len(line))
    start, end = head.end() + name[0], head.end() + name[1]
    if end == len(line) and re.fullmatch(".+:\r+", name[2]):
        return carriage_return(line, line_number)
    return Finding(f"`{name[2]}` stands where the event is wanted, a name and `:`", "it is a line of another tracer: turn it off and record again (`echo nop > current_tracer`); or the text was cut", line_number, start, end)


def headless(lines, line_number, line, is_cut):
    before = lines[line_number - 2] if line_number > 1 else ""
    if is_cut and line_number == 1:
        return Finding(f"it is no trace: its first line, of {len(line)} bytes without a line end, has no head `NAME-PID [CPU] `", "give the text that `cat trace` prints in tracefs, or `trace-cmd report -N` (docs/TRACES.md)", line_number, 0, len(line))
    if is_cut:
        return Finding("the file ends in the middle of this line", "the copy was cut: copy the trace again, or take the last line out (`sed '$d'`)", line_number, max(len(line) - 1, 0), len(line))
    if "tracing_mark_write:" in before or "bprint:" in before or "bputs:" in before or "print:" in before:
        return Finding("it goes on with the marker of the line before: a text that a program wrote to trace_marker has a line end in it", "take out the line, which is no event: `sed '" + f"{line_number}d" + "'`; let the program write markers without line ends", line_number, 0, len(line))
    if re.search(r"[0-9]: [a-z0-9_]+:", line[:LOOKED_AT]):
        return Finding("the line has an event, and no head `NAME-PID [CPU] ` before it", "print the trace by `cat trace`, or by `trace-cmd report -N`, without options that change the columns", line_number, 0, re.search(r"[0-9]: [a-z0-9_]+:", line).start())
    likely = [word for word in ("monitor", "on", "react") if line.startswith(word + " ")]
    if likely:
        return Finding("it is a line of a bindings file", "the bindings come first, the trace second: `rv replay BINDINGS TRACE`", line_number, 0, len(line))
    mend = "where it is the second part of a line, a task's name or a marker has a line end: take the line out; else the text was cut or edited: copy the trace again"
    if comment_lines(lines) + 1 == line_number:
        mend = "all lines are so where an option changes them: turn off `raw`, `hex`, `bin`, `latency-format` and every tracer but `nop` (docs/TRACES.md)"
    return Finding("no head `NAME-PID [CPU] ` stands in the line", mend, line_number, 0, len(line))


def stampless(line_number, line, head, words, is_last):
    if len(words) < 2:
        return Finding("the line ends behind its head: no timestamp and no event follow", "the text was cut in the middle of a line: copy the trace again" + (", or take the last line out (`sed '$d'`)" if is_last else ""), line_number, len(line.rstrip()) - 1, len(line.rstrip()))
    near = next((word for word in words[:4] if re.fullmatch(r"\[?[0-9][0-9.:,\]]*:?", word[2])), words[min(1, len(words) - 1)])
    start, end = head.end() + near[0], head.end() + near[1]
    if head.start() and re.search(r"-[0-9]+[ \t]+\[[0-9]+\][ \t]", line[head.end():]):
        return Finding("the task's name holds text that looks like a head, `-PID [CPU] `, and the head ends at the first place that can", "rename the task, or leave its lines out", line_number, *head.span())
    return Finding(f"`{near[2]}` stands where the timestamp is wanted, digits (with `.` and digits) and `:`", "print the trace with the clock `global` and without options that change the columns (docs/TRACES.md)", line_number, start, end)


def mend_by(fields, by):
    """Which fields of a line hold a pid."""
    pids = [f"`by {it}`" for it in fields if it.endswith("pid") and it != by][:NAMED]
    return f"a pid stands in another field: write {' or '.join(pids)}" if pids else "name a field that holds a pid; without `by` the instance is that of the task that ran"


def no_pid(line, line_number, bindings):
    event = rv_texts.event_of(line)
    if event is None:
        return None
    fields = re.findall(r"(?:^|[ \t])([A-Za-z0-9_]+)=", event.fields)
    rule = None
    for it in bindings.rules if bindings else []:
        if it.by and it.monitor.scope == "task" and it.fires(event) and rv_texts.decimal_pid(event.value(it.by)) is None:
            rule = it
            break
    by = rule.by if rule else None
    likely = by or (fields[-1] if fields and fields[-1].endswith("pid") else None)
    value = event.value(likely) if likely else None
    if value and value.endswith("\r") and line.endswith(value) and rv_texts.decimal_pid(value.rstrip("\r")) is not None:
        told = f"line {rule.line} of the bindings takes the task from `{by}`, whose value is `{value}`" if rule else "a `by` field of the bindings has no decimal number on this line"
        return carriage_return(line, line_number, f"{told}: ")
    who = f"line {rule.line} of the bindings takes the task from `{by}`, and " if rule else ""
    start = line.find(f"{event.name}:")
    twice = re.search(r"(?:^|[ \t])([A-Za-z0-9_]+=0x[0-9a-f]{1,16} \([^)]{0,40}\)?)", event.fields)
    if twice:
        return Finding(f"{who}the option `fields` was on: numbers stand in two ways, as in `{twice[1]}`", "print the text again: `echo 0 > options/fields; cat trace > trace.txt`", line_number, start, len(line))
    if event.name.startswith("sched_") and re.match(r"[ \t].*:[0-9]+ \[[0-9]+\]", event.fields) or not fields and event.fields.strip():
        return Finding(f"{who}the line has no fields `NAME=VALUE`: `trace-cmd report` printed the event in words of its own", "print it again with `-N`: " + WITHOUT_HEAD, line_number, start, len(line))
    if by and by in fields:
        place = re.search(rf"(?:^|[ \t]){by}=", event.fields)
        at = len(line) - len(event.fields) + place.end()
        return Finding(f"{who}its value `{value}` is no decimal of at most {rv_texts.HIGHEST_PID}", mend_by(fields, by) if value.rstrip("\r") else "the text was cut, or the field is empty: name another field", line_number, at, at + max(1, len(value)))
    mend = did_you_mean(by, fields, "the fields of this line") if by and fields else f"the fields of this line are {', '.join(fields[:NAMED]) or 'none'}{', ..' * (len(fields) > NAMED)}; compare them with `by` in the bindings, and with the event's `format` file in tracefs"
    if by and not (nearest(by, fields) or "").endswith("pid") and any(it.endswith("pid") for it in fields):
        mend = mend_by(fields, by)
    return Finding(f"{who}the line has no such field" if who else "a `by` field of the bindings has no decimal number on this line", mend, line_number, start, len(line))
