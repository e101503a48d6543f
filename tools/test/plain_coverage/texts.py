"""Bytes, lines, words and numbers, and how files are read: docs/FORMATS.md, and docs/DECISIONS.md, "Texts and numbers"."""
import re

READ_LIMIT = 134_217_729  # bytes that are read of a file
FILE_LIMIT = 1_048_576  # bytes of an automaton or a rule, and of bindings up to the end of a line


class Refused(Exception):
    """A refusal: its number, the file at fault, and the line."""

    def __init__(self, number, file=None, line=None):
        super().__init__(number, file, line)
        self.number, self.file, self.line = number, file, line


class Unread(Exception):
    """A file that is missing, or whose read failed."""


def read(name):
    """The front of a file that is read."""
    try:
        with open(name, "rb") as file:
            return file.read(READ_LIMIT)
    except (OSError, ValueError) as error:
        raise Unread(name) from error


def lines_of(text):
    """For each line its number, its bytes without the line end, and the place where it ends, its line end included."""
    place, number = 0, 0
    while place < len(text):
        found = text.find(b"\n", place)
        stop, end = (len(text), len(text)) if found < 0 else (found, found + 1)
        number += 1
        yield number, text[place:stop], end
        place = end


def words_of(line):
    return re.findall(rb"[^ \t]+", line)


def number_of(digits, most):
    """The number that one or more digits spell, where it is at most this; leading zeros count for nothing."""
    if digits is None or not digits.isdigit():  # (of bytes: one or more of ASCII)
        return None
    short = digits.lstrip(b"0")
    if len(short) > len(str(most)):
        return None
    number = int(short or b"0")
    return number if number <= most else None


def shown(word):
    """A word of a file as it is printed: each byte that is no printed one of ASCII, and the backslash, as four."""
    return b"".join(bytes([byte]) if 32 < byte < 127 and byte != 92 else b"\\x%02x" % byte for byte in word)
