"""The program rv: where it is found, and what it prints."""
import os
import shutil
import subprocess
import sys

from rv_terminal import Terminal
from rv_tool import UNREADABLE, Trouble

ROOT = os.path.dirname(os.path.dirname(os.path.dirname(os.path.realpath(__file__))))
BUILT = os.path.join(ROOT, "crates", "rv", "out", "rv")


class Program:
    """The program to run: the given one, the one that this checkout built, or the one on the PATH."""

    name, built = "rv", BUILT

    def __init__(self, given=None):
        for it in [given] if given else [self.built, shutil.which(self.name)]:
            # (a name is first looked for on the PATH: the folder where one stands may be another's)
            path = it and (shutil.which(it) or it)
            if path and os.path.isfile(path):
                self.path = os.path.abspath(path)
                return
        raise Trouble(UNREADABLE, f"no program {given or f'{self.name}: build it by ./{self.name}, or name it by --{self.name}'}")

    def run(self, *words, folder=None):
        """The status and the text of a command. What is said on standard error, as where a script builds it first, goes to the user.

        It has the standard input of the tool where that is a regular file, so that /dev/stdin is the same text to both, and else none.
        """
        given = None if sys.stdin is not None and os.path.isfile("/dev/stdin") else subprocess.DEVNULL
        if any("\0" in it for it in words):
            raise Trouble(UNREADABLE, f"no file has such a name: {' '.join(words)}")
        Terminal.drop_passing()  # (a program may say something)
        try:
            done = subprocess.run([self.path, *words], cwd=folder, stdin=given, stdout=subprocess.PIPE, check=False)
        except OSError as error:
            raise Trouble(UNREADABLE, f"cannot run {self.path}: {error.strerror}") from error
        return done.returncode, done.stdout.decode("utf-8", "surrogateescape")

    def text(self, *words, statuses=(0,), folder=None):
        """The text of a command that has to end with one of the statuses."""
        status, text = self.run(*words, folder=folder)
        if status not in statuses:
            raise Trouble(UNREADABLE, text.strip() or f"{self.name} {' '.join(words)} ended with {status}")
        return text


class Coverage(Program):
    """The program that tells what a run has watched."""

    name, built = "rv-coverage", os.path.join(ROOT, "crates", "coverage", "out", "coverage")


def add_rv_option(parser):
    parser.add_argument("--rv", metavar="PROGRAM")
