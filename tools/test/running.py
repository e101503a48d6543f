"""Which tests there are, and what one came to: what tools/test/all and pytest (conftest.py) share."""
import os
import re
import signal
import subprocess
import tempfile
import threading
from pathlib import Path

FOLDER = Path(__file__).resolve().parent
LIST = FOLDER / "list"  # the tests that have to be there
LONGEST = 1800  # seconds for a test
GRACE = 5  # seconds between the signal that asks a test to end and the one that ends it
SKIPPED = 3
PASSED, LEFT_OUT, FAILED = "ok", "skipped", "FAILED"
ALL_SKIPPED = re.compile(r"\S+: skipped: all \(Debian's [a-z0-9][a-z0-9.+-]+\)")
SKIPS = re.compile(r"(?:^|[:;] )skipped: (.+)$")
SKIP = re.compile(r"[^(), ][^()]*\([^()]*\)")


class Ended:
    """What a test came to: in a word, in a line, what it has left out, and all that it said."""

    def __init__(self, word, line, skips=(), text=""):
        self.word, self.line, self.skips, self.text = word, line, list(skips), text


def listed():
    """The names of the tests, as they are listed."""
    return [line for line in LIST.read_text(encoding="utf-8").splitlines() if line and not line.startswith("#")]


def lacking(name):
    """Why a listed test cannot run, or None."""
    path = FOLDER / name
    if "/" in name or not path.is_file():
        return "it is in tools/test/list, and not there"
    if not os.access(path, os.X_OK):
        return "its file has no mode to run (chmod +x)"
    return None


def is_script(path):
    with open(path, "rb") as file:
        return file.read(2) == b"#!"


def mistakes():
    """What is wrong of the list: names that stand twice, and scripts of this folder that it lacks."""
    names = listed()
    yield from (f"tools/test/list has {name} twice" for name in sorted({it for it in names if names.count(it) > 1}))
    for path in sorted(FOLDER.iterdir()):
        if path.is_file() and path.name not in (*names, "all") and (is_script(path) or os.access(path, os.X_OK)):
            yield f"tools/test/list lacks {path.name}"


class Runner:
    """Runs tests, each in a group of processes of its own."""

    def __init__(self, limit=LONGEST):
        self._limit, self._lock, self._groups, self._has_ended = limit, threading.Lock(), set(), False

    def run(self, name):
        why = lacking(name)
        if why:
            return Ended(FAILED, why)
        with tempfile.TemporaryFile() as said:  # (a file: what a test leaves running holds no pipe open)
            try:
                status = self._status(name, said)
            except OSError as error:
                return Ended(FAILED, f"it cannot be started: {error.strerror}")
            said.seek(0)
            text = said.read().decode("utf-8", "surrogateescape")
        return ended(status, text, self._limit)

    def _status(self, name, said):
        """The status of a test; None where it was not done in time."""
        with self._lock:
            if self._has_ended:
                return None
            process = subprocess.Popen([FOLDER / name], stdin=subprocess.DEVNULL, stdout=said, stderr=subprocess.STDOUT, start_new_session=True)
            self._groups.add(process.pid)
        try:
            return process.wait(self._limit)
        except subprocess.TimeoutExpired:
            send(process.pid, signal.SIGTERM)
            try:
                process.wait(GRACE)
            except subprocess.TimeoutExpired:
                pass
            return None
        finally:
            # (what a test leaves running would run on beside the next ones)
            send(process.pid, signal.SIGKILL)
            process.wait()
            with self._lock:
                self._groups.discard(process.pid)

    def end(self):
        """Ends all tests that run; no further one begins."""
        with self._lock:
            self._has_ended = True
            for group in self._groups:
                send(group, signal.SIGKILL)


def send(group, number):
    try:
        os.killpg(group, number)
    except (ProcessLookupError, PermissionError):
        pass


def ended(status, text, limit):
    """What a status and what was said come to."""
    last = text.rstrip("\n").rpartition("\n")[2]
    skips = SKIPS.search(last)
    if status is None:
        return Ended(FAILED, f"it was not done after {limit} seconds", text=text)
    if status == 0:
        if not last.strip():
            return Ended(FAILED, "it ended with 0, and its last line says nothing", text=text)
        if skips and not SKIP.findall(skips[1]):
            return Ended(FAILED, "its last line does not say why it left something out", text=text)
        return Ended(PASSED, last, SKIP.findall(skips[1]) if skips else (), text)
    if status == SKIPPED:
        if ALL_SKIPPED.fullmatch(last):
            return Ended(LEFT_OUT, last, SKIP.findall(skips[1]), text)
        return Ended(FAILED, "it ended with 3, and its last line names no Debian package that is missing", text=text)
    return Ended(FAILED, f"status {status}", text=text)
