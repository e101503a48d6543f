"""What a terminal is shown of texts that come of files, and of their names: what is not seen of them is shown, and commands nothing.

As a program, `rv_terminal.py [--called COMMAND CALLED] PROGRAM WORD ..`: runs it, shows the terminal what it prints so, and ends as it
ends. ./rv and ./rv-coverage, which are COMMAND and were called as CALLED, do it where an output is a terminal; then a line on standard
error says what to do about a refusal, and that a write failed.
"""
import codecs
import contextlib
import os
import re
import shlex
import signal
import sys
import unicodedata

NAMES = {"\t": "\\t", "\r": "\\r", "\n": "\\n"}


def visible(letter):
    """A letter by its bytes, where it is none of printable ASCII."""
    if " " <= letter <= "~":
        return letter
    return NAMES.get(letter) or "".join(f"\\x{byte:02x}" for byte in letter.encode("utf-8", "surrogateescape"))


def shown(text, kept=""):
    """A text in which each letter is seen: control characters, marks that turn the writing, other letters without a picture and bytes that
    are no UTF-8 are shown by their bytes, but for those that are kept."""
    if text.isprintable():
        return text
    return "".join(letter if letter.isprintable() or letter in kept else visible(letter) for letter in text)


def width_of(text):
    """How many columns of a terminal a text takes whose letters are all seen."""
    if text.isascii():
        return len(text)
    return sum(0 if unicodedata.combining(letter) else 2 if unicodedata.east_asian_width(letter) in "WF" else 1 for letter in text)


def cut(text, width):
    """A text of no more columns; where it was cut it ends with two dots."""
    if width is None or width_of(text) <= width:
        return text
    text = text[:width]
    while text and width_of(text) > width - 2:
        text = text[:-1]
    return f"{text}.."[:width]


REFUSAL = re.compile(rb"^rv: refused ([0-9]{1,3})(?: in .*)?$", re.MULTILINE)
LONGEST = 1000  # letters of a command that is shown


def hint(status, printed, command, called, words, again=True):
    """What there is to say of a status on a terminal, else None. The command that explains a refusal runs the program again, or is given the
    line that it printed."""
    if status == 4:
        return "a write failed: what was written is the front of the text"
    found = REFUSAL.search(printed) if status == 2 else None
    if not found:
        return None
    root = os.path.dirname(os.path.dirname(os.path.dirname(os.path.realpath(__file__))))
    tool = "tools/rv-explain" if os.getcwd() == root else shlex.quote(f"{root}/tools/rv-explain")
    number = found[1].decode()
    given = shlex.join([*(["rv-coverage"] if command == "rv-coverage" else []), *words])
    if any(it.startswith("-") for it in words):
        given = f"-- {given}"
    if number == "1":
        line = f"{tool} 1 {given}".rstrip()
    elif again:
        line = f"{shlex.join([called, *words])} | {tool} {given}"
    else:
        line = f"echo {shlex.quote(os.fsdecode(found[0]))} | {tool} {given}"
    # (what a terminal does not show cannot be pasted, and some shells' echo changes a backslash)
    is_fit = line.isprintable() and len(line) <= LONGEST and (again or "\\" not in line)
    return f"`{line if is_fit else f'{tool} {number}'}` says more"


class Terminal:
    """A terminal in the place of an output: what is written is shown, and of line ends that one alone ends a line with which a text ends."""

    _passing = None  # the terminal that has a line which is to go

    def __init__(self, stream, kept="\t"):
        self._stream, self._kept = stream, kept
        self.buffer = Bytes(self)

    def show_passing(self, text):
        """Shows a line, in place of such a line that is there, which goes before anything else is written. It is cut, so that it stays one."""
        with contextlib.suppress(OSError, ValueError):
            self._stream.write(f"\r{cut(shown(text), max(1, os.get_terminal_size(self.fileno()).columns - 1))}\x1b[K")
            self._stream.flush()
            Terminal._passing = self

    @staticmethod
    def drop_passing():
        terminal, Terminal._passing = Terminal._passing, None
        if terminal:
            with contextlib.suppress(OSError, ValueError):
                terminal._stream.write("\r\x1b[K")
                terminal._stream.flush()

    def write(self, text):
        self.drop_passing()
        body, end = (text[:-1], "\n") if text.endswith("\n") else (text, "")
        return self._stream.write(shown(body, self._kept) + end)

    def writelines(self, lines):
        for line in lines:
            self.write(line)

    def write_own(self, text):
        """Writes a text of the tool's own making as it is, as with the colours around a text that is shown already."""
        self.drop_passing()
        return self._stream.write(text)

    def __getattr__(self, name):
        return getattr(self._stream, name)


class Bytes:
    """The bytes of a terminal: each line is a text."""

    def __init__(self, terminal):
        self._terminal = terminal

    def write(self, data):
        self._terminal.writelines(it.decode("utf-8", "surrogateescape") for it in bytes(data).splitlines(keepends=True))
        return len(data)

    def flush(self):
        self._terminal.flush()


class Output:
    """What a program writes, a piece at a time; a name that has a line end is one of its words, and is shown too."""

    def __init__(self, words):
        self.decoder, self.kept = codecs.getincrementaldecoder("utf-8")("surrogateescape"), b""
        self.names = sorted({os.fsencode(it) for it in words if "\n" in it}, key=len, reverse=True)

    def take(self, data, final=False):
        data = self.kept + data
        for name in self.names:
            data = data.replace(name, shown(os.fsdecode(name)).encode())
        # (a piece may end within such a name)
        begun = 0 if final else max((size for name in self.names for size in range(1, len(name)) if data.endswith(name[:size])), default=0)
        self.kept = data[len(data) - begun:]
        lines = self.decoder.decode(data[: len(data) - begun], final).split("\n")
        return "\n".join(shown(line, "\t") for line in lines).encode("utf-8")


def write_all(data):
    while data:
        data = data[os.write(1, data):]


HEAD = 1 << 20  # bytes of what is printed in which a refusal is looked for


def run(words, told=None):
    """Runs a program; a signal is handed on to it, and its status, or the signal that ended it, is that of this process. `told` has the
    command and how it was called, where hints are wanted."""
    is_shown, head = os.isatty(1), b""
    reading, writing = os.pipe()
    child = os.fork()
    if not child:
        try:
            if is_shown:
                os.dup2(writing, 1)
            for number in (signal.SIGPIPE, signal.SIGXFSZ):
                signal.signal(number, signal.SIG_DFL)
            os.execv(words[0], words)
        finally:
            os._exit(126)
    os.close(writing)
    for number in (signal.SIGHUP, signal.SIGINT, signal.SIGQUIT, signal.SIGTERM):
        signal.signal(number, lambda number, _: os.kill(child, number))
    output = Output(words[1:])
    try:
        data = True
        while data:
            data = os.read(reading, 1 << 16)
            head += data[: HEAD - len(head)]
            write_all(output.take(data, final=not data))
    except OSError:  # the terminal is gone
        os.close(reading)
    status = os.waitpid(child, 0)[1]
    if os.WIFSIGNALED(status):
        if os.WTERMSIG(status) != signal.SIGKILL:
            signal.signal(os.WTERMSIG(status), signal.SIG_DFL)
        os.kill(os.getpid(), os.WTERMSIG(status))
    status = os.WEXITSTATUS(status)
    if told and (is_shown or os.isatty(2)):
        text = hint(status, head, *told, words[1:])
        if text:
            with contextlib.suppress(OSError):
                os.write(2, f"{told[0]}: {text}\n".encode("utf-8", "surrogateescape"))
    return status


if __name__ == "__main__":
    given = sys.argv[1:]
    os._exit(run(given[3:], given[1:3]) if given[:1] == ["--called"] else run(given))
