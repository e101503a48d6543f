"""What tools/rv-explain knows: for each kind of file, where it goes wrong, why, and how it is mended."""
import difflib
import functools
import os
import re

import rv_texts
from rv_tool import quoted


class Finding:
    """A cause with its mend, and the place in the file where one can tell: the line, and the columns from and to."""

    def __init__(self, cause, mend, line=None, start=None, end=None):
        self.cause, self.mend, self.line, self.start, self.end = cause, mend, line, start, end


# The cause and the mend of a line whose last word has a carriage return, which is to go first, whatever else is wrong.
CARRIAGE_RETURN = "the line ends in a carriage return, as Windows writes it, and it belongs to the last word", "take them out of the whole file: `tr -d '\\r' < FILE > MENDED`"


SPELLED = 200  # letters of a word that is compared by its spelling, which takes the product of two lengths
COMPARED = 1000  # words that one is compared with


def nearest(word, known):
    """The known word that is spelled most like this one, or None."""
    if len(word) > SPELLED:
        return None
    lower = {it.lower(): it for it in reversed(list(known)[:COMPARED]) if len(it) <= SPELLED}
    found = difflib.get_close_matches(word.lower(), lower, 1, 0.6)
    return lower[found[0]] if found else None


def one_of(words):
    """The words in backquotes, as a list that is read aloud."""
    words = [f"`{word}`" for word in words]
    return words[0] if len(words) == 1 else ", ".join(words[:-1]) + " or " + words[-1] if words else "none"


def did_you_mean(word, known, what):
    """A mend by the nearest of the known words, or by the list of all."""
    known = list(known)
    likely = nearest(word, known)
    if likely:
        return f"write `{likely}`" + (f"; {what} are {', '.join(known)}" if 1 < len(known) <= 12 else "")
    shown = ", ".join(known[:12]) + (f" and {len(known) - 12} more" if len(known) > 12 else "")
    return f"{what} are {shown}" if known else f"there are no {what}"


ENGLISH = {"gzip": "zcat", "zstd": "zstdcat", "xz": "xzcat", "bzip2": "bzcat", "lz4": "lz4cat"}
FIRST_BYTES = [
    (b"\x1f\x8b", "gzip"), (b"\x28\xb5\x2f\xfd", "zstd"), (b"\xfd7zXZ", "xz"), (b"BZh", "bzip2"), (b"\x04\x22\x4d\x18", "lz4"),
    (b"\x17\x08\x44tracing", "trace.dat"), (b"PERFILE2", "perf.data"), (b"PK\x03\x04", "zip"), (b"\x7fELF", "program"),
    (b"\xff\xfe", "UTF-16"), (b"\xfe\xff", "UTF-16"), (b"\xef\xbb\xbf", "BOM"),
]
# How the first words of each text look, behind comments.
FORMS = {
    "automaton": re.compile(r"(?:/\*|(?:strict\s+)?(?:di)?graph\b)", re.I),
    "rule": re.compile(r"[A-Za-z_][A-Za-z0-9_]*\s*:?=(?!=)"),
    "bindings": re.compile(r"(?:monitor|container)[ \t]+[^ \t\n=]+"),
    "control script": re.compile(r"(?:read|write|append)[ \t]+[a-z_]+(?:/|[ \t]|$)"),
    "journal": re.compile(r"[0-9]+ (?:look|raise|lower|clear|deliver) [0-9]"),
    "report": re.compile(r"rv: (?:panic: )?(?:monitor|refused|cannot read) |[a-z0-9_:]+: instances [0-9]"),
}
SHOWN = {
    "automaton": "an automaton file (DOT)", "rule": "a rule file", "bindings": "a bindings file", "control script": "a control script",
    "journal": "a journal of `rv journal`", "report": "a report of rv", "trace": "the text of a trace",
}


@functools.lru_cache(maxsize=1)
def read_again(path):
    """The text of a file that rv read; an OSError where it cannot be read here, as the standard input of rv, which is another one than this tool's."""
    if rv_texts.is_standard_input(path):
        raise OSError("it was the standard input of rv")
    return rv_texts.read_text(path)


def kind_by_bytes(text):
    """What the first bytes of a file that is no plain text tell, or None."""
    front = text[:512].encode("utf-8", "surrogateescape")[:512]
    for bytes_, kind in FIRST_BYTES:
        if front.startswith(bytes_):
            return kind
    if front[1::2].count(0) > len(front) // 4 or front[0::2].count(0) > len(front) // 4:
        return "UTF-16"
    return "binary" if b"\0" in front else None


def kind_by_text(text):
    """Which of rv's files a text looks like, or None."""
    lines = [line[:1000] for line in text[:65536].split("\n")[:200]]
    if any(rv_texts.event_of(line) for line in lines):
        return "trace"
    plain = [line.lstrip() for line in lines if line.strip() and not line.startswith(("#", "//"))]
    for kind, form in FORMS.items():
        if plain and form.match(plain[0]):
            return kind
    return "trace" if text.startswith("# tracer:") or re.match(r"cpus=[0-9]+\n", text) else None


def foreign(path, text, wanted):
    """The finding of a file that is none of the wanted kind at all, or None."""
    kind = kind_by_bytes(text)
    name, file = os.path.basename(path), quoted(path)
    if kind in ENGLISH:
        trace = f"rv replay BINDINGS <({ENGLISH[kind]} {file})" if wanted == "trace" else f"{ENGLISH[kind]} {file} > plain"
        return Finding(f"{path} is compressed by {kind}", f"unpack it: `{trace}`", 1)
    if kind == "trace.dat":
        text = "trace.txt" if name != "trace.txt" else "text.txt"
        return Finding(f"{path} is trace-cmd's own file, and no text", f"print it first: `trace-cmd report -N -i {file} | grep -vE '^(cpus=|CPU [0-9]+ is empty)' > {text}`", 1)
    if kind == "perf.data":
        return Finding(f"{path} is a recording of perf", "record with tracefs or trace-cmd (docs/TRACES.md): the text of `perf script` has other columns", 1)
    if kind == "UTF-16":
        return Finding(f"{path} is UTF-16 text, two bytes a letter", f"turn it into plain text: `iconv -f UTF-16 -t UTF-8 {file} > plain.txt`", 1)
    if kind == "BOM" and wanted != "trace":
        return Finding("three invisible bytes, a byte order mark, stand before the first letter", f"take them out: `sed -i '1s/^\\xef\\xbb\\xbf//' {file}`", 1, 0, 1)
    if kind in ("zip", "program", "binary"):
        return Finding(f"{path} is {'an archive' if kind == 'zip' else 'a program' if kind == 'program' else 'no text'}", f"give {SHOWN[wanted]}", 1)
    found = kind_by_text(text)
    if found and found != wanted:
        return Finding(f"{path} looks like {SHOWN[found]}, and {SHOWN[wanted]} is wanted here", exchange(found, wanted), first_line(text))
    return None


def first_line(text):
    """The number of the first line that is no comment."""
    for number, line in enumerate(rv_texts.lines_of(text), 1):
        if line.strip() and not line.startswith(("#", "//")):
            return number
    return 1


def exchange(found, wanted):
    if {found, wanted} == {"bindings", "trace"}:
        return "the bindings come first, the trace second: `rv replay BINDINGS TRACE`"
    if {found, wanted} == {"automaton", "rule"}:
        kind = "da" if found == "automaton" else "ltl"
        return f"the kind of an automaton is `da`, that of a rule `ltl`: write `{kind}` on its `monitor` line, or call `rv table {kind} FILE`"
    if wanted in ("automaton", "rule"):
        return "name the automaton file (`da`) or the rule file (`ltl`) on the `monitor` line"
    return f"give {SHOWN[wanted]} in its place"


def size_of(path):
    try:
        return os.stat(path).st_size
    except OSError:
        return 0
