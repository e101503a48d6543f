"""What rv and rv-coverage print, as objects, and as the results of tests: KTAP, JUnit's XML, LAVA's commands, marks of GitHub's workflows."""
import json
import re
import xml.etree.ElementTree as ElementTree

import rv_texts

WATCH = re.compile("watch: set ([0-9]{1,20}) atoms ([0-9]{1,20})")
ENDS = "all monitors: "  # what the last line of rv-coverage begins with
MARKS = 10  # GitHub shows so many of a level in a step
ESCAPED = re.compile(rb"\\x([0-9a-f]{2})")
# what XML 1.0 cannot hold, control characters, bytes that are no UTF-8 text, and marks that turn a line round
UNSEEN = re.compile("[^\n\x20-\x7e\xa0-\u061b\u061d-\u200d\u2010-\u2027\u202f-\u2065\u206a-\ud7ff\ue000-\ufffd\U00010000-\U0010ffff]")


# ---- a text


def unescaped(name):
    """A file's name as it is, where rv-coverage has shown its bytes."""
    as_bytes = ESCAPED.sub(lambda it: bytes([int(it[1], 16)]), name.encode("utf-8", "surrogateescape"))
    return as_bytes.decode("utf-8", "surrogateescape")


def violation_of(found):
    kind = "da" if found["event"] is not None else "ltl"
    scope = "cpu" if found["cpu"] is not None else "task" if found["task"] is not None else "global"
    instance = found["cpu"] or found["task"]
    return {
        "type": "violation", "monitor": found["monitor"], "kind": kind, "scope": scope, "instance": None if instance is None else int(instance),
        **({"idle_cpu": int(found["idle"])} if found["idle"] is not None else {}),
        **({"event": found["event"], "state": found["state"]} if kind == "da" else {}),
        "panic": found["panic"] is not None, "line": int(found["line"]),
    }


def object_of(line):
    """What a line says."""
    if found := rv_texts.VIOLATION.fullmatch(line):
        return violation_of(found)
    if found := rv_texts.SUMMARY.fullmatch(line):
        counts = {it: int(found[it]) for it in ("instances", "deliveries", "failures", "stopped")}
        return {"type": "summary", "monitor": found["monitor"], **counts}
    if found := rv_texts.REFUSAL.fullmatch(line):
        return {"type": "refusal", "number": int(found[1]), "file": found[2], "line": found[3] and int(found[3])}
    if found := rv_texts.UNREAD.fullmatch(line):
        return {"type": "unreadable", "file": found[1]}
    if found := WATCH.fullmatch(line):
        return {"type": "watch", "set": int(found[1]), "atoms": int(found[2])}
    if found := rv_texts.FACT.fullmatch(line):
        return {"type": "fact", "of": line.partition(": ")[0], "text": line.partition(": ")[2]}
    if found := rv_texts.FINDING.fullmatch(line):
        return {"type": "finding", "file": unescaped(found["file"]), "line": int(found["line"]), "finding": found["finding"], "text": found["text"]}
    return {"type": "text", "text": line}


class Result:
    """What a test came to: why it is not ok, in a line, or None; the lines that tell more; and whether nothing was judged."""

    def __init__(self, name, why, lines=(), is_error=False):
        self.name, self.why, self.lines, self.is_error = name, why, list(lines), is_error


def counted(number, what):
    return f"{number} {what}{'' if number == 1 else 's'}"


def plain(line):
    """A line of a report without the carriage return that a console, or Windows, put behind it."""
    bare = line.removesuffix("\r")
    return bare if bare != line and (rv_texts.VIOLATION.fullmatch(bare) or rv_texts.SUMMARY.fullmatch(bare)) else line


class Printed:
    """A text of rv or of rv-coverage, or one behind the other: its lines, and an object for each."""

    def __init__(self, text):
        text = text.removeprefix("\ufeff")  # (as Windows puts it in front)
        self._has_end = not text or text.endswith("\n")
        self.lines = list(map(plain, rv_texts.lines_of(text)))
        self.objects = list(map(object_of, self.lines))

    def of(self, *types):
        """The lines of some types, with their objects."""
        return [(line, it) for line, it in zip(self.lines, self.objects) if it["type"] in types]

    def is_known(self):
        """Whether a line is one that rv or rv-coverage prints of a run."""
        return bool(self.of("violation", "summary", "refusal", "unreadable", "watch", "finding"))

    def unsummed(self):
        """The monitors that have a violation and no summary."""
        summed = {it["monitor"] for _, it in self.of("summary")}
        return list(dict.fromkeys(it["monitor"] for _, it in self.of("violation") if it["monitor"] not in summed))

    def is_cut(self):
        """Whether it is seen to be a front of a text: its last line has no end, a violation no summary, or facts no last line."""
        return not self._has_end or bool(self.unsummed()) or self._lacks_last()

    def _lacks_last(self):
        """Whether the facts of rv-coverage lack its last line."""
        facts = self.of("fact")
        return bool(facts) and not facts[-1][0].startswith(ENDS)

    def has_finding(self):
        return bool(self.of("violation", "refusal", "unreadable", "finding")) or any(it["failures"] or it["stopped"] for _, it in self.of("summary"))

    def results(self):
        """A test for each monitor, for each refusal, and for what rv-coverage finds; what is said twice counts once."""
        results, told = [], {}
        for line, it in self.of("violation"):
            told.setdefault(it["monitor"], []).append(line)
        for _, it in dict(self.of("summary")).items():
            why = [counted(it["failures"], "failure")] if it["failures"] else []
            why += [f"{it['stopped']} stopped"] if it["stopped"] else []
            results.append(Result(it["monitor"], ", ".join(why) or None, told.pop(it["monitor"], ())))
        for monitor in self.unsummed():
            results.append(Result(monitor, f"{counted(len(told[monitor]), 'violation')} and no summary", told[monitor]))
        # (no monitor has the name of another test: its name has no dash)
        monitors = {it.name for it in results}
        for line, it in dict(self.of("refusal", "unreadable")).items():
            results.append(Result("rv-refusal" if "rv" in monitors else "rv", said_of_refusal(it), [line], True))
        findings = list(dict(self.of("finding")))
        if findings or self.of("fact"):
            why = [counted(len(findings), "finding")] if findings else []
            why += ["no last line"] if self._lacks_last() else []
            results.append(Result("rv-coverage" if "coverage" in monitors else "coverage", ", ".join(why) or None, findings))
        return results


def said_of_refusal(it):
    if it["type"] == "unreadable":
        return f"cannot read {it['file']}"
    return f"refused {it['number']}" + (f" in {it['file']}" if it["file"] is not None else "") + (f" line {it['line']}" if it["line"] else "")


# ---- forms

CUT = "the text was cut, and is the front of one"


def json_lines(printed):
    """The objects; bytes that are no UTF-8 text are replaced, since JSON is text."""
    for it in printed.objects + ([{"type": "cut"}] if printed.is_cut() else []):
        plain = {key: value.encode("utf-8", "surrogateescape").decode("utf-8", "replace") if isinstance(value, str) else value for key, value in it.items()}
        yield json.dumps(plain, ensure_ascii=False)


def seen(text):
    """A text that XML can hold, in which nothing is hidden."""
    shown = lambda letter: f"\\x{letter & 0xff:02x}" if letter < 0x100 or 0xdc80 <= letter < 0xdd00 else f"\\u{letter:04x}"
    return UNSEEN.sub(lambda it: shown(ord(it[0])), text)


def of_ktap(text):
    """A text of a name, as of a file: to no reader it ends the line, and it makes of no test one that is skipped."""
    return seen(text).replace("\n", "\\n").replace("#", "\\#")


def ktap_lines(printed, trouble=None):
    """KTAP version 1. `trouble` is why the tests ended before their end, where that is known otherwise than by the text."""
    results = printed.results()
    yield "KTAP version 1"
    yield f"1..{len(results)}"
    for line, _ in printed.of("violation", "finding", "watch", "text"):
        yield f"# {seen(line)}"
    for number, it in enumerate(results, 1):
        yield f"not ok {number} {it.name} # {of_ktap(it.why)}" if it.why else f"ok {number} {it.name}"
    if trouble or printed.is_cut():
        yield f"Bail out! {of_ktap(trouble or CUT)}"


def junit_text(printed):
    """JUnit's XML: a test case for each result."""
    results = printed.results() + ([Result("rv", CUT, is_error=True)] if printed.is_cut() else [])
    count = lambda is_error: str(sum(it.why is not None and it.is_error == is_error for it in results))
    suites = ElementTree.Element("testsuites")
    suite = ElementTree.SubElement(suites, "testsuite", name="rv", tests=str(len(results)), failures=count(False), errors=count(True))
    for it in results:
        case = ElementTree.SubElement(suite, "testcase", classname="rv", name=seen(it.name))
        if it.why:
            ElementTree.SubElement(case, "error" if it.is_error else "failure", message=seen(it.why)).text = seen("\n".join(it.lines))
    ElementTree.indent(suites)
    return '<?xml version="1.0" encoding="UTF-8"?>\n' + ElementTree.tostring(suites, encoding="unicode")


def lava_lines(printed):
    """A command of LAVA's for each result; its names have no colon."""
    for it in printed.results():
        yield f"lava-test-case {it.name.replace(':', '.')} --result {'fail' if it.why else 'pass'}"
    if printed.is_cut():
        yield "lava-test-case rv.whole --result fail"


def escaped(text, is_property=False):
    """A text of a workflow command."""
    for letter in "%\r\n" + (":," if is_property else ""):
        text = text.replace(letter, f"%{ord(letter):02X}")
    return text


def mark(level, text, file=None, line=None):
    place = [f"file={escaped(file, True)}"] if file is not None else []
    place += [f"line={line}"] if file is not None and line else []
    return f"::{level}{' ' if place else ''}{','.join(place)}::{escaped(text)}"


def marks_of(printed):
    """The marks, each with its level."""
    told = {it["monitor"] for _, it in printed.of("violation")}
    seen_lines = set()
    for line, it in zip(printed.lines, printed.objects):
        if line in seen_lines and it["type"] != "violation":
            continue
        seen_lines.add(line)
        if it["type"] == "violation":
            yield "error", mark("error", line.removeprefix("rv: "), it.get("trace"), it["line"])
        elif it["type"] in ("refusal", "unreadable"):
            yield "error", mark("error", line.removeprefix("rv: "), it["file"], it.get("line"))
        elif it["type"] == "finding":
            yield "error", mark("error", f"{it['finding']}: {it['text']}", it["file"], it["line"])
        elif it["type"] == "summary":
            # (failures of a monitor without `react` have no line of their own)
            level = "error" if it["failures"] and it["monitor"] not in told else "warning" if it["stopped"] else "notice"
            yield level, mark(level, line)
    if printed.is_cut():
        yield "error", mark("error", CUT)


def github_lines(printed):
    """The marks, ten of a level at most: where there are more, the last one counts the rest."""
    marks, left = list(marks_of(printed)), {}
    for level in ("error", "warning", "notice"):
        number = sum(it == level for it, _ in marks)
        left[level] = [MARKS, 0] if number <= MARKS else [MARKS - 1, number - MARKS + 1]
    for level, line in marks:
        left[level][0] -= 1
        if left[level][0] >= 0:
            yield line
    for level, (_, rest) in left.items():
        if rest:
            yield mark(level, f"and {rest} more of these: the report has them all")
