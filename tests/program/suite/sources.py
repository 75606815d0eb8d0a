"""The sources of bytes of files and of expected outputs, which README.md lists."""
import os
from typing import Callable, Dict, List

from suite.classes import Classes, cut
from suite.text import unescaped, words

PROGRAM = os.path.normpath(os.path.join(os.path.dirname(os.path.abspath(__file__)), ".."))
# In a pack, and in a clone.
FOLDERS = [os.path.join(PROGRAM, "files"), os.path.normpath(os.path.join(PROGRAM, "..", "..", "crates", "dexcases_calls", "data"))]


def data_folder() -> str:
    """Returns the folder with the files of the index lines, or where it would be in a pack."""
    return next((folder for folder in FOLDERS if os.path.isdir(folder)), FOLDERS[0])


class Sources:
    """The files of a folder of data, and what is made from them."""

    def __init__(self, data: str):
        self.data = data
        self.kept: Dict[bytes, bytes] = {}
        self.made: Dict[bytes, Callable[[bytes], bytes]] = {
            b"nothing": lambda rest: b"",
            b"text": unescaped,
            b"hex": lambda rest: bytes.fromhex(rest.decode("ascii")),
            b"zeros": lambda rest: bytes(int(rest)),
            b"lines": lambda rest: b"".join(word + b"\n" for word in words(rest)),
            b"front": self.front,
            b"after": self.after,
            b"cut": self.cut,
            b"then": self.joined,
            b"classes": lambda rest: classes(rest.split()).canonical(),
            b"counts": lambda rest: classes(rest.split()).counts(),
            b"counted": counted,
            b"listing": lambda rest: classes(rest.split()).listing(),
            b"digests": digests,
            b"packaged": lambda rest: packaged(rest.split()).canonical(),
            b"packages": lambda rest: packaged(rest.split()).package_lines(),
        }

    def file(self, name: bytes) -> bytes:
        """Returns the bytes of a file of the data, and raises ValueError if it is not there."""
        path = os.path.join(os.fsencode(self.data), name)
        try:
            with open(path, "rb") as file:
                return file.read()
        except OSError as error:
            raise ValueError(f"{os.fsdecode(name)}: {error.strerror}") from None

    def files(self) -> Dict[bytes, bytes]:
        """Returns all files of the data, by their paths from its folder."""
        folder = os.fsencode(self.data)
        paths = (os.path.join(at, name) for at, _, names in os.walk(folder) for name in names)
        return {name: self.file(name) for name in (os.path.relpath(path, folder) for path in paths)}

    def bytes(self, source: bytes) -> bytes:
        """Returns the bytes of a source, and raises ValueError if there is none."""
        if source not in self.kept:
            kind, _, rest = source.strip().partition(b" ")
            if kind in self.made:
                self.kept[source] = self.made[kind](rest)
            elif b"/" in kind and not rest:
                self.kept[source] = self.file(kind)
            else:
                raise ValueError(f"`{source.decode(errors='replace')}` is no source")
        return self.kept[source]

    def front(self, rest: bytes) -> bytes:
        """`front N SOURCE`: its first N bytes."""
        count, _, source = rest.partition(b" ")
        whole = self.bytes(source)
        if int(count) > len(whole):
            raise ValueError(f"there are only {len(whole)} bytes")
        return whole[: int(count)]

    def after(self, rest: bytes) -> bytes:
        """`after N SOURCE`: all but its first N bytes."""
        count, _, source = rest.partition(b" ")
        return self.bytes(source)[int(count) :]

    def cut(self, rest: bytes) -> bytes:
        """`cut N MENDED SOURCE`: its first N bytes, with fields of the header set right; -N leaves out as many."""
        count, mended, source = rest.split(None, 2)
        whole = self.bytes(source)
        length = int(count) if int(count) >= 0 else len(whole) + int(count)
        return cut(whole, length, mended.decode())

    def joined(self, rest: bytes) -> bytes:
        """`then SOURCE | SOURCE ..`: one after the other."""
        return b"".join(self.bytes(each.strip()) for each in rest.split(b" | "))


def classes(rest: List[bytes]) -> Classes:
    """Returns the classes of `FIRST LAST` or `FIRST LAST WIDTH`."""
    if len(rest) not in (2, 3):
        raise ValueError("classes are `FIRST LAST`, or `FIRST LAST WIDTH`")
    return Classes(*(int(word) for word in rest))


def packaged(rest: List[bytes]) -> Classes:
    """Returns the classes of `FIRST LAST SIZE`."""
    if len(rest) != 3:
        raise ValueError("classes of packages are `FIRST LAST SIZE`")
    return Classes.packaged(*(int(word) for word in rest))


def counted(rest: bytes) -> bytes:
    """`counted FILE FIRST LAST [WIDTH]`."""
    name, *numbers = rest.split()
    return classes(numbers).counted(unescaped(name))


def digests(rest: bytes) -> bytes:
    """`digests FILE FIRST LAST [WIDTH]`."""
    name, *numbers = rest.split()
    return classes(numbers).digests(unescaped(name))
