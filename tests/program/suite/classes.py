"""Canonical files of empty classes, and what `dexkit` prints of them, written out by hand from docs/FORMAT.md.

A class has a number. Its name is `L`, the number in `width` digits, and `;`. It is public, under Ljava/lang/Object;, and
has no members.
"""
import hashlib
import struct
import zlib
from typing import List

OBJECT = "Ljava/lang/Object;"
NONE = 0xFFFFFFFF
PUBLIC = 1
HEADER, STRING, TYPE, CLASS, MAP, STRING_DATA = 0x0000, 0x0001, 0x0002, 0x0006, 0x1000, 0x2002


class Classes:
    """The classes with the numbers from `first` to `last`."""

    def __init__(self, first: int, last: int, width: int = 6):
        self.names = [f"L{number:0{width}};" for number in range(first, last + 1)]
        if not self.names or len(str(last)) > width:
            raise ValueError("no classes, or numbers that are wider than their width")

    def texts(self) -> List[str]:
        """Returns the texts of the pool: digits stand before letters, so the names of the classes rise."""
        return self.names + [OBJECT]

    def canonical(self) -> bytes:
        """Returns the canonical file."""
        texts = [text.encode("ascii") for text in self.texts()]
        count = len(texts)
        strings = 112
        types = strings + 4 * count
        classes = types + 4 * count
        data = classes + 32 * len(self.names)
        items, offsets = bytearray(), []
        for text in texts:
            offsets.append(data + len(items))
            items += uleb(len(text)) + text + b"\0"
        items += bytes(-(data + len(items)) % 4)
        map_off = data + len(items)
        sections = [
            (HEADER, 1, 0), (STRING, count, strings), (TYPE, count, types), (CLASS, len(self.names), classes),
            (STRING_DATA, count, data), (MAP, 1, map_off),
        ]
        size = map_off + 4 + 12 * len(sections)
        body = struct.pack("<20I", size, 112, 0x12345678, 0, 0, map_off, count, strings, count, types, 0, 0, 0, 0, 0, 0,
                           len(self.names), classes, size - data, data)
        body += struct.pack(f"<{count}I", *offsets) + struct.pack(f"<{count}I", *range(count))
        body += b"".join(struct.pack("<8I", row, PUBLIC, count - 1, 0, NONE, 0, 0, 0) for row in range(len(self.names)))
        body += bytes(items) + struct.pack("<I", len(sections))
        for kind, number, offset in sections:
            body += struct.pack("<HHII", kind, 0, number, offset)
        return with_sums(b"dex\n035\0" + bytes(24) + body)

    def weight(self) -> int:
        texts = self.texts()
        return 1024 + sum(10 + 3 * len(text) for text in texts) + 4 * len(texts) + 96 * len(self.names)

    def counts(self) -> bytes:
        """Returns what `count` prints of files that have these classes."""
        pool = len(self.names) + 1
        return (
            f"types {pool} of 65535\nprotos 0 of 65535\nfields 0 of 65536\nmethods 0 of 65536\n"
            f"short-strings 0 of 65536\nweight {self.weight()} of 1073741824\nclasses {pool - 1}\nstrings {pool}\n"
        ).encode()

    def counted(self, file: bytes) -> bytes:
        """Returns what `count --each` prints of a file of this name that has these classes."""
        pool = len(self.names) + 1
        return f"{pool}\t0\t0\t0\t0\t{self.weight()}\t{pool - 1}\t{pool}\t".encode() + file + b"\n"

    def listing(self) -> bytes:
        """Returns what `dump` prints of a file of these classes."""
        return "".join(f"class {name} flags=0x1(public) super={OBJECT}\n" for name in self.names).encode()

    def digests(self, file: bytes) -> bytes:
        """Returns what `digest` prints of a file of this name that has these classes."""
        lines = bytearray()
        for name in self.names:
            alone = Classes.named([name]).canonical()
            lines += f"{alone[12:32].hex()}\t{name}\t".encode() + file + b"\n"
        return bytes(lines)

    def package_lines(self) -> bytes:
        """Returns what `count --by package` prints of files that have these classes, of which each is in a package."""
        packages = {}
        for name in self.names:
            packages.setdefault(name[1:].rpartition("/")[0], []).append(name)
        lines = bytearray()
        for package in sorted(packages):
            lines += Classes.named(packages[package]).counted(package.encode())
        return bytes(lines)

    @staticmethod
    def packaged(first: int, last: int, size: int) -> "Classes":
        """Returns classes in packages of `size` of them: the name of number n is `L`, n // size and n in six digits each,
        with a slash between them, and `;`."""
        if size < 1 or last >= 1000000:
            raise ValueError("packages are of one class or more, and numbers have six digits")
        return Classes.named([f"L{number // size:06}/{number:06};" for number in range(first, last + 1)])

    @staticmethod
    def named(names: List[str]) -> "Classes":
        """Returns classes of names that rise, each less than that of the superclass."""
        classes = Classes(0, 0)
        classes.names = names
        return classes


def uleb(number: int) -> bytes:
    out = bytearray()
    while number >= 0x80:
        out.append(number & 0x7F | 0x80)
        number >>= 7
    return bytes(out + bytes([number]))


def with_sums(file: bytes) -> bytes:
    """Returns a file of at least 32 bytes with its signature and then its checksum set right."""
    signed = hashlib.sha1(file[32:]).digest() + file[32:]
    return file[:8] + struct.pack("<I", zlib.adler32(signed)) + signed


def cut(file: bytes, length: int, mended: str) -> bytes:
    """Returns the first bytes of a file, with fields of its header set right: `nothing`, the `size` of the file and its
    sums, or these and the size of the `data`."""
    front = file[:length]
    if mended == "nothing" or length < 112:
        return front
    if mended == "data":
        data_off = struct.unpack_from("<I", front, 108)[0]
        front = front[:104] + struct.pack("<I", max(length - data_off, 0)) + front[108:]
    elif mended != "size":
        raise ValueError(f"`{mended}` is not nothing, size or data")
    return with_sums(front[:32] + struct.pack("<I", length) + front[36:])
