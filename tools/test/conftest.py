"""The tests of tools/test/list for pytest, where it is installed (Debian's python3-pytest): the same tests, which come to the same.

pytest tools/test, with `-k NAME`, `--junit-xml FILE`, and, with python3-pytest-xdist, `-n N`. What a test has left out is a warning.
"""
import sys
import warnings
from pathlib import Path

import pytest

sys.dont_write_bytecode = True
sys.path.insert(0, str(Path(__file__).resolve().parent))
import running  # noqa: E402


def pytest_addoption(parser):
    parser.addoption("--limit", type=int, default=running.LONGEST, help="seconds for a test, in place of 1800")


def pytest_collect_file(file_path, parent):
    return Listed.from_parent(parent, path=file_path) if file_path == running.LIST else None


class Listed(pytest.File):
    """The list, and with it the look at what it lacks."""

    def collect(self):
        yield Look.from_parent(self, name="list")
        for name in running.listed():
            yield Script.from_parent(self, name=name)


class Failed(Exception):
    """What a test came to that failed."""


class Item(pytest.Item):
    """A test, whose failure is told by what it said and by no trace of Python's."""

    def repr_failure(self, excinfo, style=None):
        return str(excinfo.value) if isinstance(excinfo.value, Failed) else super().repr_failure(excinfo, style)

    def reportinfo(self):
        return self.path, None, self.name


class Look(Item):
    def runtest(self):
        mistakes = list(running.mistakes())
        if mistakes:
            raise Failed("\n".join(mistakes))


class Script(Item):
    def runtest(self):
        runner = running.Runner(self.config.getoption("limit"))
        try:
            came = runner.run(self.name)
        finally:
            runner.end()
        if came.word == running.LEFT_OUT:
            pytest.skip(came.line)
        if came.word == running.FAILED:
            raise Failed(f"{came.line}\n{came.text}".encode("utf-8", "replace").decode())
        for part in came.skips:
            warnings.warn(f"{self.name} left out: {part}")
