"""How far a tool is that takes long: one line on standard error, where that is a terminal; it is written anew, and goes."""
import os
import sys
import time

from rv_terminal import Terminal
from rv_tool import NAME

BEGUN = time.monotonic()
AFTER, EVERY = 2, 0.2  # seconds from the tool's beginning to the first such line, and from each to the next


def lines_read(file, name):
    """The lines of a file, as they are read; of one that is no regular file the whole is not known."""
    return progress(file, f"reads {name}", os.fstat(file.fileno()).st_size, len) if isinstance(sys.stderr, Terminal) else file


def progress(items, doing, whole=None, size_of=lambda item: 1):
    """The items, as they are taken, with what is done with them told: how much of the whole, or how much where that is not known."""
    return _told(items, doing, whole, size_of) if isinstance(sys.stderr, Terminal) else items


def _told(items, doing, whole, size_of):
    done, due = 0, BEGUN + AFTER
    try:
        for item in items:
            now = time.monotonic()
            if now >= due:
                sys.stderr.show_passing(f"{NAME}: {doing}: {min(100, 100 * done // whole)} %" if whole else f"{NAME}: {doing}: {done:,} so far")
                due = now + EVERY
            yield item
            done += size_of(item)
    finally:
        Terminal.drop_passing()
