"""Refusals 31 to 33 of a control script."""
import re

import rv_texts

from . import CARRIAGE_RETURN, Finding, did_you_mean, foreign, nearest

COMMANDS = ("read", "write", "append")
TOP = ("available_monitors", "available_reactors", "enabled_monitors", "monitoring_on", "reacting_on")
REACTORS = ("nop", "panic", "printk")
ROOTS = r"^(/sys/kernel/tracing/|/sys/kernel/debug/tracing/)?(/?rv/)?"


def paths_of(bindings):
    """The paths of the control files of these bindings."""
    paths = list(TOP)
    for container in bindings.containers if bindings else []:
        paths += [f"monitors/{container}/{file}" for file in ("desc", "enable")]
    for monitor in bindings.monitors.values() if bindings else []:
        folder = f"monitors/{monitor.container}/{monitor.name}" if monitor.container else f"monitors/{monitor.name}"
        paths += [f"{folder}/{file}" for file in ("desc", "enable", "reactors")]
    return paths


def finding_of(number, path, text, line_number, bindings, is_beside):
    strange = foreign(path, text, "control script")
    if strange and (number == 31 and line_number <= max(strange.line, 1)):
        return strange
    lines = rv_texts.lines_of(text)
    if not 1 <= line_number <= len(lines):
        return None
    words = rv_texts.places_of(lines[line_number - 1])
    if not words:
        return None
    _, end, word = words[min(number - 31, len(words) - 1)]  # the command, the path or the text
    if word.endswith("\r"):
        return Finding(*CARRIAGE_RETURN, line_number, end - 1, end)
    if number == 31:
        return no_command(words, line_number)
    if number == 32:
        return no_file(words, line_number, bindings)
    return no_value(words, line_number, bindings, is_beside)


def no_command(words, line_number):
    first = words[0]
    texts = [word[2] for word in words]
    if ">" in texts or texts[0] in ("echo", "cat", "rv"):
        if texts[0] == "echo" and ">" in "".join(texts):
            rest = " ".join(texts[1:]).replace(">>", " >> ")
            value, _, target = rest.partition(">")
            target = re.sub(ROOTS, "", target.lstrip("> ").strip()) or "PATH"
            return Finding("it is a line of a shell", f"write `{'append' if '>>' in rest else 'write'} {target} {value.strip()}`", line_number, first[0], words[-1][1])
        return Finding("it is a line of a shell", f"write `read {texts[-1]}`" if texts[0] == "cat" else "write `read PATH`, `write PATH TEXT` or `append PATH TEXT`", line_number, first[0], words[-1][1])
    if texts[0] not in COMMANDS:
        return Finding(f"`{texts[0]}` is no command", did_you_mean(texts[0], COMMANDS, "the commands"), line_number, first[0], first[1])
    if texts[0] == "read" and len(words) > 2:
        return Finding("`read` has a path and nothing else", f"write `read {texts[1]}`; a comment is a line of its own", line_number, words[2][0], words[-1][1])
    if len(words) == 1:
        return Finding("the path is missing", f"write `{texts[0]} PATH`" + ("" if texts[0] == "read" else " and the text, one word"), line_number, first[1], first[1] + 1)
    return Finding("the text to write is one word, and several stand here", f"write a command a line; a comment is a line of its own: `{' '.join(texts[:3])}`", line_number, words[3][0] if len(words) > 3 else first[0], words[-1][1])


def no_file(words, line_number, bindings):
    if len(words) < 2:
        return None
    start, end, path = words[1]
    plain = re.sub(ROOTS, "", path)
    known = paths_of(bindings)
    if plain != path:
        return Finding("paths begin below the folder `rv`", f"write `{plain}`", line_number, start, end)
    if bindings is None:
        return Finding(f"there is no control file `{path}`", f"the files are {', '.join(TOP)}, and `monitors/NAME/` with desc, enable and reactors; give the words of the command, and its bindings are looked at: `rv-explain control BINDINGS SCRIPT`", line_number, start, end)
    monitor = re.match("monitors/([a-z0-9_]+)/", path)
    inside = monitor and bindings.monitors.get(monitor[1])
    if inside and inside.container and path.count("/") == 2:
        return Finding(f"`{monitor[1]}` is in the container `{inside.container}`", f"write `monitors/{inside.container}/{path.split('/', 1)[1]}`", line_number, start, end)
    if monitor and monitor[1] in bindings.containers and path.endswith("/reactors"):
        return Finding("a container has no `reactors`", "write to the reactors of each of its monitors", line_number, start, end)
    likely = nearest(path, known)
    return Finding(f"there is no control file `{path}`", f"write `{likely}`" if likely else f"the files are {', '.join(known[:14])}", line_number, start, end)


def no_value(words, line_number, bindings, is_beside):
    command, path = words[0], words[1] if len(words) > 1 else (0, 0, "")
    value = words[2][2] if len(words) > 2 else ""
    place = (words[2][0], words[2][1]) if len(words) > 2 else (path[0], path[1])
    if command[2] == "read":
        return Finding("beside a run nothing is read: its CPUs run at once", "leave the line out, or try the script without a trace: `rv control BINDINGS SCRIPT`", line_number, *command[:2])
    last = path[2].rsplit("/", 1)[-1]
    if last == "reactors" and is_beside and value in REACTORS:
        return Finding("beside a run no reactor is chosen", "write `react MONITOR REACTOR` in the bindings", line_number, *path[:2])
    if last == "reactors":
        return Finding(f"`{value}` is no reactor", did_you_mean(value, REACTORS, "the reactors") + ("; beside a run no reactor is chosen: write `react` lines in the bindings" if is_beside is not False else ""), line_number, *place)
    if last in ("available_monitors", "available_reactors", "desc"):
        return Finding(f"`{last}` is only read", "leave the line out", line_number, *path[:2])
    if last in ("monitoring_on", "reacting_on", "enable"):
        return Finding(f"`{value}` is neither `0` nor `1`", "write `1` where it is to go on, `0` where off", line_number, *place)
    if last == "enabled_monitors":
        if not value:
            return Finding("nothing cannot be appended", "`write enabled_monitors` without a text disables all", line_number, *path[:2])
        names = [*bindings.containers, *(monitor.shown for monitor in bindings.monitors.values())] if bindings else []
        return Finding(f"`{value}` is no container's or monitor's display name" + ("" if names else " (or it is misspelled)"), did_you_mean(value.lstrip("!"), names, "the names") if names else "give the words of the command, and its bindings are looked at", line_number, *place)
    return None
