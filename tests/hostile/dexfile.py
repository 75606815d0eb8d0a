"""Writes DEX files of items that are placed one after the other, and of which many rows may name one."""
import hashlib
import struct
import zlib

OBJECT = "Ljava/lang/Object;"
NONE = 0xFFFFFFFF
PUBLIC, PUBLIC_STATIC = 1, 9
(CODE, STRING_DATA, ARRAY, CLASS_DATA, ANNOTATION, TYPE_LIST, REF_LIST, SET, DIRECTORY, DEBUG) = (
    0x2001, 0x2002, 0x2005, 0x2000, 0x2004, 0x1001, 0x1002, 0x1003, 0x2006, 0x2003
)
RETURN_VOID, NOP, PACKED_SWITCH = 0x0E, 0, 0x2B


def uleb(number):
    out = bytearray()
    while number >= 0x80:
        out.append(number & 0x7F | 0x80)
        number >>= 7
    return bytes(out + bytes([number]))


def ushorts(numbers):
    return struct.pack(f"<{len(numbers)}H", *numbers)


def uints(numbers):
    return struct.pack(f"<{len(numbers)}I", *numbers)


class File:
    """A file of pools, then items in the order in which they are placed, then the map. Texts are ASCII."""

    def __init__(self, texts, types, protos=(), fields=(), methods=(), classes=0):
        self.texts = sorted({*texts, *types})
        self.text = {text: i for i, text in enumerate(self.texts)}
        self.types = sorted(types)
        self.type = {name: i for i, name in enumerate(self.types)}
        self.protos, self.fields, self.methods = protos, fields, methods
        self.sizes = [len(self.texts), len(self.types), len(protos), len(fields), len(methods), classes]
        self.data_off = 112 + sum(size * width for size, width in zip(self.sizes, (4, 4, 12, 8, 8, 32)))
        self.data = bytearray()
        self.sections = []

    def place(self, kind, item, count=1):
        """Puts an item, or several, and returns the offset."""
        if kind in (CODE, TYPE_LIST, REF_LIST, SET, DIRECTORY):
            self.data += bytes(-(self.data_off + len(self.data)) % 4)
        at = self.data_off + len(self.data)
        self.data += item
        if not self.sections or self.sections[-1][0] != kind:
            self.sections.append([kind, 0, at])
        self.sections[-1][1] += count
        return at

    def place_code(self, units, tries=0, following=b""):
        return self.place(CODE, struct.pack("<4HII", 1, 0, 0, tries, 0, len(units)) + ushorts(units) + following)

    def done(self, rows, strings=()):
        """Returns the bytes; a class row is name, superclass, interfaces_off, directory, class data, static values. The
        offsets of texts that are placed already are given."""
        strings = list(strings)
        for text in self.texts:
            strings.append(self.place(STRING_DATA, uleb(len(text)) + text.encode() + b"\0"))
        self.data += bytes(-(self.data_off + len(self.data)) % 4)
        map_off = self.data_off + len(self.data)
        offsets, at = [], 112
        for size, width in zip(self.sizes, (4, 4, 12, 8, 8, 32)):
            offsets.append(at if size else 0)
            at += size * width
        entries = [(0, 1, 0)] + [(k + 1, size, off) for k, (size, off) in enumerate(zip(self.sizes, offsets)) if size]
        entries += [tuple(section) for section in self.sections] + [(0x1000, 1, map_off)]
        self.data += uints([len(entries)]) + b"".join(struct.pack("<HHII", kind, 0, size, off) for kind, size, off in entries)
        pools = bytearray(uints(strings) + uints([self.text[name] for name in self.types]))
        pools += b"".join(struct.pack("<3I", self.text[short], self.type[back], off) for short, back, off in self.protos)
        for row in [*self.fields, *self.methods]:
            owner, kind, name = row
            number = self.type[kind] if isinstance(kind, str) else kind
            pools += struct.pack("<HHI", self.type[owner], number, self.text[name])
        for name, above, interfaces, directory, data, values in rows:
            above = self.type[above] if above else NONE
            pools += struct.pack("<8I", self.type[name], PUBLIC, above, interfaces, NONE, directory, data, values)
        file = bytearray(112) + pools + self.data
        file[:8] = b"dex\n035\0"
        struct.pack_into("<6I", file, 32, len(file), 112, 0x12345678, 0, 0, map_off)
        for k in range(6):
            struct.pack_into("<2I", file, 56 + 8 * k, self.sizes[k], offsets[k])
        struct.pack_into("<2I", file, 104, len(self.data), self.data_off)
        file[12:32] = hashlib.sha1(file[32:]).digest()
        file[8:12] = uints([zlib.adler32(file[12:])])
        return bytes(file)


def class_data(fields=(), methods=()):
    """Returns class data of static fields and of direct methods, given as (index, code_off)."""
    out, before = uleb(len(fields)) + b"\0" + uleb(len(methods)) + b"\0", 0
    for index in fields:
        out += uleb(index - before) + uleb(PUBLIC_STATIC)
        before = index
    before = 0
    items = []
    for index, code in methods:
        items.append(uleb(index - before) + uleb(PUBLIC_STATIC) + uleb(code))
        before = index
    return out + b"".join(items)
