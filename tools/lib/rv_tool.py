"""How a tool begins and ends: its words, its --help, its statuses, and outputs that cannot be written."""
import argparse
import contextlib
import os
import re
import shlex
import sys

from rv_terminal import Terminal

NAME = os.path.basename(sys.argv[0])
LEAST = 3, 9  # the version of Python that the tools want
# (each tool has this module before anything that an older version has not)
if sys.version_info[:2] < LEAST:
    sys.stderr.write(f"{NAME}: Python {'.'.join(map(str, LEAST))} or later is wanted, and this is {'.'.join(map(str, sys.version_info[:3]))}\n")
    sys.exit(3)
# Texts and names are bytes that stand for UTF-8 whatever the locale is: else an event of the bindings is none of the trace.
if sys.getfilesystemencoding() != "utf-8" and sys.executable:
    os.execv(sys.executable, [sys.executable, *(["-I"] if sys.flags.isolated else []), "-X", "utf8", *sys.argv])
FILE = os.path.basename(os.path.realpath(sys.argv[0]))  # an installed tool may have another name than its file
FINDINGS, WRONG_USE, UNREADABLE, INTERRUPTED = 1, 2, 3, 130


class Trouble(Exception):
    """What ends a tool: the exit status, and why."""

    def __init__(self, status, why):
        super().__init__(why)
        self.status = status


class Parser(argparse.ArgumentParser):
    """The words of a tool, whose text is --help. Wrong words end with 2, the usage, and a line that says why."""

    def __init__(self, text):
        """The text has a paragraph `usage: TOOL WORDS`, which --help prints first."""
        super().__init__(prog=NAME, add_help=False, allow_abbrev=False)
        usage = next(it for it in text.split("\n\n") if it.startswith("usage: "))
        self._usage = re.sub(rf"(?<![\w-]){re.escape(FILE)}(?![\w-])", NAME, usage) + "\n"
        self._help = f"{self._usage}\n" + text.replace(f"{usage}\n\n", "", 1)
        self.add_argument("-h", "--help", action="help")

    def format_usage(self):
        return self._usage

    def format_help(self):
        return self._help

    def print_help(self, file=None):
        print_lines(self._help, file)

    def error(self, message):
        for line in self._usage.splitlines():
            say(line, name="")
        raise Trouble(WRONG_USE, message)


def number_from(least, most):
    """The type of a word that is a number, in digits."""

    def read(text):
        if not re.fullmatch("[0-9]{1,18}", text) or not least <= int(text) <= most:
            raise argparse.ArgumentTypeError(f"{text} is no number from {least} to {most}")
        return int(text)

    return read


def say(text, name=NAME):
    """A line on standard error, where there is one that takes it."""
    if sys.stderr is None:  # (print would take standard output)
        return
    with contextlib.suppress(OSError):
        print(f"{name}: {text}" if name else text, file=sys.stderr, flush=True)


def quoted(path):
    """A path as a shell takes it, in a command that is to be pasted; one that begins with a dash is no option so."""
    return shlex.quote(f"./{path}" if path.startswith("-") else path)


def print_lines(text, file=None):
    """Prints a text of many lines: what print takes is one line, and a line end in it is shown on a terminal."""
    print(*text.removesuffix("\n").split("\n"), sep="\n", file=file)


def write_own(text):
    """Writes to standard output what the tool made itself, as colours around a text that is shown already (rv_terminal.shown)."""
    getattr(sys.stdout, "write_own", sys.stdout.write)(text)


def keep_bytes():
    """Standard input and outputs keep every byte, and a line ends at the byte 10 alone; a terminal shows what is not seen. A closed output
    fails at the first write."""
    if sys.stdout is None:
        sys.stdout = open(os.open(os.devnull, os.O_RDONLY), "w")
    for stream in filter(None, (sys.stdin, sys.stdout, sys.stderr)):
        stream.reconfigure(encoding="utf-8", errors="surrogateescape", newline="\n")
    # (a test tells of its cases in many lines)
    kept = "\t\n" if os.path.basename(os.path.dirname(os.path.realpath(sys.argv[0]))) == "test" else "\t"
    sys.stdout, sys.stderr = (Terminal(it, kept) if it is not None and it.isatty() else it for it in (sys.stdout, sys.stderr))


def drop_output():
    """Drops what was not written, so that nothing is said of it once more."""
    with contextlib.suppress(OSError):
        os.dup2(os.open(os.devnull, os.O_WRONLY), sys.stdout.fileno())


@contextlib.contextmanager
def writing(path):
    """Trouble where what is done within cannot write the file."""
    try:
        yield
    except OSError as error:
        raise Trouble(UNREADABLE, f"cannot write {path}: {error.strerror}") from error


def write_all(file, text):
    """Writes bytes to a file that holds nothing back, so that nothing is left to be written where a write fails."""
    text = memoryview(text)
    while text:
        text = text[file.write(text) :]


def status_of(main):
    """What main returns, and what there is to say. A write that fails ends with 3, and quietly where a pipe was closed."""
    try:
        try:
            return main(), None
        finally:
            sys.stdout.flush()
    except SystemExit as ended:
        return ended.code, None
    except Trouble as trouble:
        return trouble.status, str(trouble)
    except KeyboardInterrupt:
        return INTERRUPTED, None
    except BrokenPipeError:
        return UNREADABLE, None
    except MemoryError:
        return UNREADABLE, "there is not enough memory"
    except OSError as error:
        # (what is read says itself what cannot be read: what has no name is standard output)
        return UNREADABLE, f"cannot write: {error.strerror}" if error.filename is None else f"{error.filename}: {error.strerror}"


def run_tool(main, shown=lambda status: status):
    """Ends the process with what main returns, as a function shows it; trouble has one line on standard error."""
    keep_bytes()
    status, why = status_of(main)
    Terminal.drop_passing()
    if why is not None:
        say(why)
    try:
        sys.stdout.flush()
    except OSError:
        drop_output()
    sys.exit(shown(status))
