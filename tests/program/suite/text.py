"""The words of the data: escapes and ranges."""
import re
from typing import List

ESCAPE = re.compile(rb"\\(x[0-9a-fA-F]{2}|.?)")
ESCAPED = {b"n": b"\n", b"r": b"\r", b"t": b"\t", b"s": b" ", b"\\": b"\\", b"e": b""}
RANGE = re.compile(rb"\{(\d+)-(\d+)(?:x(\d+))?\}")


class DataFault(Exception):
    """A line of the data is broken, or what it names is not there."""

    def __init__(self, path: str, line: int, why: str):
        super().__init__(f"{path}:{line}: {why}")


def unescaped(word: bytes) -> bytes:
    """Returns a word with its escapes replaced."""

    def one(match: "re.Match[bytes]") -> bytes:
        name = match.group(1)
        if name[:1] == b"x" and len(name) == 3:
            return bytes([int(name[1:], 16)])
        if name not in ESCAPED:
            raise ValueError(f"`{match.group().decode(errors='replace')}` is no escape")
        return ESCAPED[name]

    return ESCAPE.sub(one, word)


def expanded(word: bytes) -> List[bytes]:
    """Returns the words or lines that replace one with ranges: with `{A-B}` one for each number from A to B, and with
    `{A-BxN}` N times these. All its ranges advance together. If A begins with 0, all numbers have its width."""
    ranges = [numbers(match) for match in RANGE.finditer(word)]
    if not ranges:
        return [word]
    if len({len(each) for each in ranges}) != 1:
        raise ValueError("ranges of different lengths")
    return [RANGE.sub(lambda _, step=iter(step): next(step), word) for step in zip(*ranges)]


def numbers(match: "re.Match[bytes]") -> List[bytes]:
    first, last, times = match.groups()
    width = len(first) if first[:1] == b"0" else 1
    once = [b"%0*d" % (width, number) for number in range(int(first), int(last) + 1)]
    if not once:
        raise ValueError("a range of nothing")
    return once * int(times or 1)


def words(line: bytes) -> List[bytes]:
    """Returns the words of a line, expanded and with their escapes replaced."""
    return [unescaped(one) for word in line.split() for one in expanded(word)]
