"""How a test ends: with 0 where all agrees, 1 where something differs or could not be tried, 2 after wrong words, and 3 where it needs a
Debian package that is missing.

A file, a tool or a program of this repository that is missing is a 1: no test passes because it did not run. The last line of a test
names what was left out, as `skipped: WHAT (WHY), WHAT (WHY)`, and running.py counts it.
"""
import os
import shutil
import sys

sys.dont_write_bytecode = True
sys.path.insert(0, os.path.join(os.path.dirname(os.path.dirname(os.path.realpath(__file__))), "lib"))
from rv_tool import NAME, UNREADABLE, Trouble, run_tool  # noqa: E402

DIFFERS, SKIPPED = 1, 3
# Debian's packages of the tools that have another name
PACKAGES = {"dot": "graphviz", "dpkg-deb": "dpkg", "man": "man-db", "objdump": "binutils", "pytest-3": "python3-pytest", "zcat": "gzip"}


class Missing(Exception):
    """A Debian package without which a test tries nothing."""


class Skips:
    """What a test has left out, and why."""

    def __init__(self):
        self._told = {}

    def add(self, what, why):
        self._told[f"{what} ({why})"] = None

    def has(self, tool, what, *others):
        """The path of a tool, or of another program of its package; without one `what` is left out."""
        path = next(filter(None, map(shutil.which, (tool, *others))), None)
        if path is None:
            self.add(what, f"Debian's {package_of(tool)}")
        return path

    def __str__(self):
        """The end of a last line."""
        return f"; skipped: {', '.join(self._told)}" if self._told else ""


def package_of(tool):
    return PACKAGES.get(tool, tool)


def need(tool):
    """Ends the test where a tool is missing."""
    if not shutil.which(tool):
        raise Missing(package_of(tool))


def check_built(program, command):
    """A test without the program fails."""
    if os.path.isdir(program) or not os.access(program, os.X_OK):
        raise Trouble(DIFFERS, f"{program} is not the built program; ./{command} builds it")


def run_test(main):
    """Ends the process with what main returns."""
    run_tool(lambda: _ended(main))


def _ended(main):
    try:
        return main()
    except Missing as missing:
        print(f"{NAME}: skipped: all (Debian's {missing})")
        return SKIPPED
    except BrokenPipeError:
        raise
    except OSError as error:
        raise Trouble(DIFFERS, str(error)) from error
    except Trouble as trouble:
        raise Trouble(DIFFERS if trouble.status == UNREADABLE else trouble.status, str(trouble)) from trouble
