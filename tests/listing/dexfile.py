"""Reads the class definitions of a DEX file that is accepted, as docs/FORMAT.md has them. Nothing is checked.

A text is a `str` with a character for each of its 16-bit units, so that texts are ordered as section 3 says."""
import struct
from typing import Any, Dict, Iterator, List, NamedTuple, Optional, Tuple

from instructions import signed

NO_INDEX = 0xFFFFFFFF
BYTE, SHORT, CHAR, INT, LONG, FLOAT, DOUBLE = 0x00, 0x02, 0x03, 0x04, 0x06, 0x10, 0x11
STRING, TYPE, FIELD, METHOD, ENUM = 0x17, 0x18, 0x19, 0x1A, 0x1B
ARRAY, ANNOTATION, NULL, BOOLEAN = 0x1C, 0x1D, 0x1E, 0x1F

# The debug operations that are not special, with the kinds of their operands.
COUNT_OPERAND, LINES_OPERAND, REGISTER_OPERAND, TEXT_OPERAND, TYPE_OPERAND = range(5)
LOCAL = [REGISTER_OPERAND, TEXT_OPERAND, TYPE_OPERAND]
ADVANCE_PC, ADVANCE_LINE, FIRST_SPECIAL = 1, 2, 10
OPERATIONS: Dict[int, Tuple[str, List[int]]] = {
    ADVANCE_PC: ("advance-pc", [COUNT_OPERAND]),
    ADVANCE_LINE: ("advance-line", [LINES_OPERAND]),
    3: ("start-local", LOCAL),
    4: ("start-local-extended", LOCAL + [TEXT_OPERAND]),
    5: ("end-local", [REGISTER_OPERAND]),
    6: ("restart-local", [REGISTER_OPERAND]),
    7: ("set-prologue-end", []),
    8: ("set-epilogue-begin", []),
    9: ("set-file", [TEXT_OPERAND]),
}

Proto = NamedTuple("Proto", [("result", str), ("parameters", List[str])])
Field = NamedTuple("Field", [("owner", str), ("name", str), ("type", str)])
Method = NamedTuple("Method", [("owner", str), ("name", str), ("proto", Proto)])
# A value has its type by section 10, and is a number, a symbol, a list of values, or a type with elements.
Value = NamedTuple("Value", [("kind", int), ("content", Any)])
Elements = List[Tuple[str, Value]]
Annotation = NamedTuple("Annotation", [("visibility", int), ("type", str), ("elements", Elements)])
Set = List[Annotation]
Handler = NamedTuple("Handler", [("catches", List[Tuple[str, int]]), ("catch_all", Optional[int])])
Try = NamedTuple("Try", [("start", int), ("count", int), ("handler", Handler)])
# A debug operation is its byte and its operands.
Operation = NamedTuple("Operation", [("opcode", int), ("operands", List[Any])])
Debug = NamedTuple("Debug", [("line_start", int), ("names", List[Optional[str]]), ("operations", List[Operation])])
Code = NamedTuple("Code", [
    ("registers", int), ("ins", int), ("outs", int), ("units", List[int]), ("tries", List[Try]), ("debug", Optional[Debug])])
# The annotations of a class, and by the rows of the members those of fields, methods and parameters.
Directory = NamedTuple("Directory", [
    ("own", Set), ("fields", Dict[int, Set]), ("methods", Dict[int, Set]), ("parameters", Dict[int, List[Set]])])


class FieldDef(NamedTuple):
    field: Field
    flags: int
    annotations: Set
    value: Optional[Value]


class MethodDef(NamedTuple):
    method: Method
    flags: int
    annotations: Set
    parameters: List[Set]
    code: Optional[Code]


class Class(NamedTuple):
    name: str
    flags: int
    superclass: Optional[str]
    interfaces: List[str]
    source: Optional[str]
    annotations: Set
    static_fields: List[FieldDef]
    instance_fields: List[FieldDef]
    direct_methods: List[MethodDef]
    virtual_methods: List[MethodDef]


class Reader:
    """Reads numbers from an offset on."""

    def __init__(self, data: bytes, at: int):
        self.data, self.at = data, at

    def fixed(self, form: str, count: int) -> List[int]:
        """Returns that many numbers of a fixed size."""
        found = struct.unpack_from(f"<{count}{form}", self.data, self.at)
        self.at += struct.calcsize(form) * count
        return list(found)

    def leb(self) -> Tuple[int, int]:
        """Returns the sum of the groups, and how many bits they have."""
        number = bits = 0
        while True:
            byte = self.data[self.at]
            self.at += 1
            number += (byte & 0x7F) << bits
            bits += 7
            if byte < 0x80:
                return number, bits

    def uleb(self) -> int:
        return self.leb()[0]

    def sleb(self) -> int:
        return signed(*self.leb())


class File:
    """A file, with its pools as the symbols that their rows name."""

    def __init__(self, data: bytes):
        self.data = data
        self.texts = texts = [self.text(off) for (off,) in self.rows(56, "I")]
        self.types = types = [texts[text] for (text,) in self.rows(64, "I")]
        self.protos = [Proto(types[result], self.type_list(off)) for _, result, off in self.rows(72, "III")]
        self.fields = [Field(types[owner], texts[name], types[kind]) for owner, kind, name in self.rows(80, "HHI")]
        self.methods = [Method(types[owner], texts[name], self.protos[proto]) for owner, proto, name in self.rows(88, "HHI")]
        self.pools: Dict[str, List[Any]] = {"string": texts, "type": types, "field": self.fields, "method": self.methods}

    def uints(self, off: int, count: int) -> List[int]:
        return Reader(self.data, off).fixed("I", count)

    def rows(self, field: int, form: str) -> Iterator[Tuple[int, ...]]:
        """Yields the rows of the pool of which the header has the size at an offset."""
        size, off = self.uints(field, 2)
        for row in range(size):
            yield struct.unpack_from("<" + form, self.data, off + row * struct.calcsize("<" + form))

    def text(self, off: int) -> str:
        item = Reader(self.data, off)
        item.uleb()
        units = self.data[item.at : self.data.index(b"\0", item.at)]
        return units.replace(b"\xc0\x80", b"\0").decode("utf-8", "surrogatepass")

    def type_list(self, off: int) -> List[str]:
        return [self.types[i] for i in Reader(self.data, off + 4).fixed("H", self.uints(off, 1)[0])] if off else []

    def classes(self) -> List[Class]:
        """Returns the class definitions in class order: by depth, then by name."""
        rows = list(self.rows(96, "8I"))
        depths: Dict[str, int] = {}
        # A superclass or interface that the file defines has an earlier row.
        for name, _, above, interfaces, *_ in rows:
            others = self.type_list(interfaces) + ([] if above == NO_INDEX else [self.types[above]])
            depths[self.types[name]] = max((depths[other] + 1 for other in others if other in depths), default=0)
        return sorted(map(self.definition, rows), key=lambda each: (depths[each.name], each.name))

    def definition(self, row: Tuple[int, ...]) -> Class:
        name, flags, above, interfaces, source, directory_off, data_off, values_off = row
        directory = self.directory(directory_off) if directory_off else Directory([], {}, {}, {})
        values = self.array(Reader(self.data, values_off)) if values_off else []
        item = Reader(self.data, data_off)
        counts = [item.uleb() for _ in range(4)] if data_off else [0] * 4
        return Class(
            self.types[name], flags, None if above == NO_INDEX else self.types[above], self.type_list(interfaces),
            None if source == NO_INDEX else self.texts[source], directory.own,
            self.declared_fields(item, counts[0], directory, values), self.declared_fields(item, counts[1], directory, []),
            self.declared_methods(item, counts[2], directory), self.declared_methods(item, counts[3], directory),
        )

    def declared_fields(self, item: Reader, count: int, directory: Directory, values: List[Value]) -> List[FieldDef]:
        row, found = 0, []
        for number in range(count):
            row += item.uleb()
            value = values[number] if number < len(values) else None
            found.append(FieldDef(self.fields[row], item.uleb(), directory.fields.get(row, []), value))
        return found

    def declared_methods(self, item: Reader, count: int, directory: Directory) -> List[MethodDef]:
        row, found = 0, []
        for _ in range(count):
            row += item.uleb()
            flags, off = item.uleb(), item.uleb()
            sets = directory.methods.get(row, []), directory.parameters.get(row, [])
            found.append(MethodDef(self.methods[row], flags, *sets, self.code(off) if off else None))
        return found

    def directory(self, off: int) -> Directory:
        item = Reader(self.data, off)
        own, *sizes = item.fixed("I", 4)
        fields, methods, parameters = ([item.fixed("I", 2) for _ in range(size)] for size in sizes)
        return Directory(
            self.set(own), {row: self.set(at) for row, at in fields}, {row: self.set(at) for row, at in methods},
            {row: [self.set(each) for each in self.uints(at + 4, self.uints(at, 1)[0])] for row, at in parameters},
        )

    def set(self, off: int) -> Set:
        return [self.annotation(at) for at in self.uints(off + 4, self.uints(off, 1)[0])] if off else []

    def annotation(self, off: int) -> Annotation:
        return Annotation(self.data[off], *self.encoded_annotation(Reader(self.data, off + 1)))

    def encoded_annotation(self, item: Reader) -> Tuple[str, Elements]:
        kind, size = self.types[item.uleb()], item.uleb()
        return kind, [(self.texts[item.uleb()], self.value(item)) for _ in range(size)]

    def array(self, item: Reader) -> List[Value]:
        return [self.value(item) for _ in range(item.uleb())]

    def value(self, item: Reader) -> Value:
        first = item.fixed("B", 1)[0]
        arg, kind = first >> 5, first & 0x1F
        if kind == ARRAY:
            return Value(kind, self.array(item))
        if kind == ANNOTATION:
            return Value(kind, self.encoded_annotation(item))
        if kind in (NULL, BOOLEAN):
            return Value(kind, bool(arg))
        some = bytes(item.fixed("B", arg + 1))
        if kind in (FLOAT, DOUBLE):
            some = some.rjust(4 if kind == FLOAT else 8, b"\0")
        number = int.from_bytes(some, "little", signed=kind in (BYTE, SHORT, INT, LONG))
        pools = {STRING: self.texts, TYPE: self.types, FIELD: self.fields, METHOD: self.methods, ENUM: self.fields}
        return Value(kind, pools[kind][number] if kind in pools else number)

    def code(self, off: int) -> Code:
        item = Reader(self.data, off)
        registers, ins, outs, size = item.fixed("H", 4)
        debug_off, count = item.fixed("I", 2)
        units = item.fixed("H", count)
        item.at += 2 if size and count % 2 else 0
        rows = [item.fixed("I", 1) + item.fixed("H", 2) for _ in range(size)]
        tries = [Try(start, covered, self.handler(item.at + at)) for start, covered, at in rows]
        return Code(registers, ins, outs, units, tries, self.debug(debug_off) if debug_off else None)

    def handler(self, off: int) -> Handler:
        item = Reader(self.data, off)
        size = item.sleb()
        catches = [(self.types[item.uleb()], item.uleb()) for _ in range(abs(size))]
        return Handler(catches, item.uleb() if size <= 0 else None)

    def debug(self, off: int) -> Debug:
        item = Reader(self.data, off)
        line_start = item.uleb()
        names = [self.operand(item, TEXT_OPERAND) for _ in range(item.uleb())]
        operations = []
        for opcode in iter(lambda: item.fixed("B", 1)[0], 0):
            kinds = OPERATIONS[opcode][1] if opcode in OPERATIONS else []
            operations.append(Operation(opcode, [self.operand(item, kind) for kind in kinds]))
        return Debug(line_start, names, operations)

    def operand(self, item: Reader, kind: int) -> Any:
        number = item.sleb() if kind == LINES_OPERAND else item.uleb()
        pool = {TEXT_OPERAND: self.texts, TYPE_OPERAND: self.types}.get(kind)
        return number if pool is None else pool[number - 1] if number else None
