"""An answer before any proof: ./rv --unproved and ./rv-coverage --unproved run this.

usage: rv_unproved.py COMMAND CRATE CALLED CRATES MINUTES WORD ..

COMMAND is the name of the program, CRATE its crate, CALLED what the user typed for ./rv; a proof takes CRATES crates and MINUTES minutes.

`rt try` of the kit compiles the sources and runs them with checks, in a folder that has the files that it is given and no others. So this
finds the files that the words and the bindings name. Each file of a word is given under a short name, and so is a specification
whose own name `rt try` does not take; in what the program prints the names are put back. Nothing is written into the checkout.

Exit status: that of the program; 125 where nothing could be tried, and the last line on standard error says why.
"""
import contextlib
import os
import re
import shlex
import shutil
import signal
import subprocess
import sys
import tempfile

sys.dont_write_bytecode = True
HERE = os.path.dirname(os.path.realpath(__file__))
sys.path.insert(0, HERE)
from rv_terminal import cut, hint, shown  # noqa: E402
from rv_texts import MOST_BYTES  # noqa: E402
from rv_tool import drop_output, keep_bytes  # noqa: E402

ROOT = os.path.dirname(os.path.dirname(HERE))
NOT_TRIED, WRITE_FAILED = 125, 4
MOST_MONITORS = 32  # what stands behind them in bindings is not read
FEW = 20  # lines of rt that are shown
WIDEST = 300  # columns of the words that the first line shows
SIGNALS = (signal.SIGHUP, signal.SIGINT, signal.SIGQUIT, signal.SIGTERM)

# The places of the files among the words of each form, the bindings first.
FORMS = {
    "rv": {
        ("replay", 3): (1, 2), ("feed", 3): (1, 2), ("feed", 4): (1, 2, 3), ("watch", 5): (1, 2), ("journal", 3): (1, 2), ("check", 4): (1, 2, 3),
        ("control", 3): (1, 2), ("table", 3): (2,), ("header", 3): (2,),
    },
    "rv-coverage": {2: (0, 1), 3: (0, 1)},
}
# a name that rt try takes as it is; one of one byte keeps it, since a line would grow by another
PLAIN = re.compile(rb"[A-Za-z0-9_+][A-Za-z0-9_.+-]*(?:/[A-Za-z0-9_+][A-Za-z0-9_.+-]*)*|[!-,0-<>-~-]")
TAKEN = re.compile(rb"program|stdin|stdout|stderr|case")
LETTERS = "abcdefghijklmnopqrstuvwxyzABCDEFGHIJKLMNOPQRSTUVWXYZ"
# the lines that name a file, as docs/FORMATS.md and docs/COVERAGE.md have them
REFUSED = re.compile(rb"(rv: refused [0-9]+ in |rv: cannot read )(~[0-9A-Za-z])((?: line [0-9]+)?)")
FOUND = re.compile(rb"()(~[0-9])(:[0-9]+: .*)", re.DOTALL)
DESCRIBED = re.compile(rb"((?:da|ltl) (?:global|cpu|task) )(~[A-Za-z])()")
ENDED = re.compile(rb"^run=ended status=([0-9]{1,3})(?: .*)?$", re.MULTILINE)


class NotTried(Exception):
    """Why nothing was tried, and the lines that rt said."""

    def __init__(self, why, lines=()):
        super().__init__(why)
        self.lines = lines


class Ended(BaseException):
    """A signal that ends this."""


def end(number, _):
    for it in SIGNALS:
        signal.signal(it, signal.SIG_IGN)
    raise Ended(number)


def is_text(name):
    """Whether a name is UTF-8 text, as the program wants it."""
    try:
        return name.decode("utf-8") is not None
    except UnicodeDecodeError:
        return False


def places_of(command, words):
    """The places of the words that name files, the bindings first, and whether there are bindings; none for words of no form."""
    if command == "rv-coverage":
        places = FORMS[command].get(len(words), ())
        return places if len(words) != 3 or words[2] == "edges" else ()
    return FORMS[command].get((words[0], len(words)), ()) if words else ()


class Files:
    """What rt try is given: the words, and the files by the names that these have for it."""

    def __init__(self, command, words, folder):
        self.command, self.folder, self.given, self.named, self.words = command, folder, {}, {}, list(words)
        self.is_control = command == "rv" and words[:1] == ["control"]
        has_bindings = command == "rv-coverage" or words[:1] not in (["table"], ["header"])
        for number, place in enumerate(places_of(command, words), 1):
            name = os.fsencode(words[place])
            # (the program refuses a word that is no text, and no file has an empty name)
            if name and is_text(name):
                alias = self.words[place] = f"~{number}"
                self.named[alias.encode()] = name
                if self.give(alias, name) and number == 1 and has_bindings:
                    self.bind(self.given[alias])

    def give(self, known, name):
        """Gives a copy of a file by the name by which it is known; a file that cannot be read is not given, which the program says itself."""
        if b"\0" in name or known in self.given:
            return known in self.given
        path = f"{self.folder}/{len(self.given)}"
        try:
            file = open(name, "rb")
        except OSError:
            return False
        with file, open(path, "wb") as copy:
            size, part = 0, True
            while part:
                try:
                    part = file.read(1 << 20)
                except OSError:
                    return False
                size += len(part)
                if size > MOST_BYTES:
                    raise NotTried(f"{os.fsdecode(name)} has more than {MOST_BYTES:,} bytes")
                copy.write(part)
        self.given[known] = path
        return True

    def bind(self, path):
        """Gives the files that bindings name. A name that rt try does not take has another one in the copy of the bindings, whose line keeps
        its length, since bindings have a limit."""
        with open(path, "rb") as file:
            lines = file.read().split(b"\n")
        others, left = {}, MOST_MONITORS
        for number, line in enumerate(lines):
            words = list(re.finditer(rb"[^ \t]+", line))
            if len(words) not in (5, 7) or words[0][0] != b"monitor" or len(words) == 7 and words[5][0] != b"in":
                continue
            name, (start, stop) = words[4][0], words[4].span()
            if not left or not is_text(name):
                break  # (the program refuses that line)
            left -= 1
            if PLAIN.fullmatch(name) and not TAKEN.match(name):
                self.give(name.decode(), name)
                continue
            if name not in others:
                others[name] = f"~{LETTERS[len(others)]}"
                self.named[others[name].encode()] = name
                self.give(others[name], name)
            lines[number] = line[:start] + others[name].encode().ljust(stop - start) + line[stop:]
        if others:
            with open(path, "wb") as file:
                file.write(b"\n".join(lines))

    def put_back(self, line):
        """A line that the program printed, with the names that the user knows."""
        for form in (REFUSED, *[FOUND] * (self.command == "rv-coverage"), *[DESCRIBED] * self.is_control):
            found = form.fullmatch(line)
            if found and found[2] in self.named:
                return found[1] + self.named[found[2]] + found[3]
        return line


def try_program(crate, files):
    """Runs rt try, and returns the status of the program, its text and what rt said."""
    words = ["rt", "try"]
    for name, path in files.given.items():
        words += ["--data", f"{name}={path}"]
    words += ["--", *files.words]
    # (where this is killed, rt ends too)
    if shutil.which("setpriv") and not subprocess.run(["setpriv", "--pdeathsig", "TERM", "true"], stderr=subprocess.DEVNULL, check=False).returncode:
        words = ["setpriv", "--pdeathsig", "TERM", *words]
    environment = {name: value for name, value in os.environ.items() if name not in ("RT_ALLOW_C", "RT_BACKEND", "RT_SECONDS")}
    with open(f"{files.folder}/out", "w+b") as out, open(f"{files.folder}/said", "w+b") as said:
        running = subprocess.Popen(words, cwd=f"{ROOT}/crates/{crate}", stdin=subprocess.DEVNULL, stdout=out, stderr=said, env=environment)
        try:
            running.wait()
        finally:
            if running.poll() is None:
                running.terminate()
                running.wait()
        out.seek(0)
        said.seek(0)
        lines = said.read()
        ended = ENDED.findall(lines)
        if not ended:
            raise NotTried(why_of(lines), [line.decode("utf-8", "surrogateescape") for line in lines.splitlines()[-FEW:]])
        return int(ended[-1]), out.read()


def why_of(said):
    """What ended a try."""
    if b"did not end within the time limit" in said or b"may loop forever" in said:
        return "its run takes longer than rt try allows, 120 seconds with all checks: try the front of the trace"
    return "rt try gave no answer"


def say(text):
    """A line on standard error, where there is one that takes it; a terminal is shown what is not seen."""
    if sys.stderr is not None:
        with contextlib.suppress(OSError):
            print(text, file=sys.stderr, flush=True)


def quoted(words):
    """Words as a shell takes them, on one line and no longer than a line may be."""
    return cut(shown(shlex.join(words)), WIDEST)


def answer(command, crate, called, words, folder):
    """Tries the program on the words, prints what it prints, and returns its status."""
    try:
        files = Files(command, words, folder)
        status, text = try_program(crate, files)
    except OSError as error:
        raise NotTried(f"{error.filename or 'the folder for temporary files'}: {error.strerror}") from error
    except MemoryError as error:
        raise NotTried("there is not enough memory") from error
    lines = text.split(b"\n")
    last = lines.pop()
    try:
        for line in lines:
            sys.stdout.write(files.put_back(line).decode("utf-8", "surrogateescape") + "\n")
        sys.stdout.write(last.decode("utf-8", "surrogateescape"))
        sys.stdout.flush()
    except OSError:
        drop_output()
        status = WRITE_FAILED
    if sys.stdout.isatty() or status == WRITE_FAILED and sys.stderr is not None and sys.stderr.isatty():
        refused = next((it for it in lines if it.startswith(b"rv: refused ")), b"")
        told = hint(status, files.put_back(refused), command, called, words, again=False)
        if told:
            say(f"{command}: {told}")
    return status


def main(command, crate, called, crates, minutes, *words):
    for number in SIGNALS:
        signal.signal(number, end)
    say(f"{command}: this answer is unproved, and comes in a minute or two; `{quoted([called, *words])}` proves the program first ({crates} crates, about {minutes} minutes)")
    try:
        with tempfile.TemporaryDirectory(prefix="rv-unproved-") as folder:
            return answer(command, crate, called, list(words), folder)
    except NotTried as why:
        for line in why.lines:
            say(line)
        say(f"{command}: cannot try the program: {why}; `{quoted([called, *words])}` proves it first, and has no such limits")
        return NOT_TRIED
    except OSError as error:
        say(f"{command}: cannot try the program: {error.filename or 'the folder for temporary files'}: {error.strerror}")
        return NOT_TRIED


if __name__ == "__main__":
    keep_bytes()
    try:
        result = main(*sys.argv[1:])
    except Ended as ended:
        number = ended.args[0]
        signal.signal(number, signal.SIG_DFL)
        os.kill(os.getpid(), number)
        result = 128 + number
    sys.exit(result)
