"""Files of many owners over few items, from a description of both; and such descriptions made from a seed."""
import dataclasses
import random
import struct
from typing import Callable, Optional

from dexfile import (
    ANNOTATION, ARRAY, CLASS_DATA, CODE, DEBUG, DIRECTORY, File, NOP, OBJECT, PACKED_SWITCH, REF_LIST, RETURN_VOID, SET,
    TYPE_LIST, class_data, uints, uleb, ushorts,
)

MOST_WEIGHT = 1 << 30
CONST_STRING = 0x1A
# The first texts: one that nothing names, and one that items name.
UNUSED, TEXT = "!", "!t"
START_LOCAL = 3
NO_KIND, STRING, ANNOTATED, ARRAYED, NULL = 0x01, 0x17, 0x1D, 0x1C, 0x1E


@dataclasses.dataclass
class Item:
    """What many owners name: its weight, as a file's classes are weighed, and what it is in a file: bytes, or of code the
    units, the number of tries, and the bytes after the units."""

    weight: int
    put: Callable


@dataclasses.dataclass
class Shape:
    """Classes with as many members each, all of which name the same items."""

    classes: int = 1
    methods: int = 0
    fields: int = 0
    # The first letters of the classes' names, so that those of several files differ.
    prefix: str = "C"
    # Whether a text comes first that nothing names: then the canonical form has other numbers throughout.
    unused: bool = False
    # The interfaces of each class: how many, and whether they are classes of the file, or lists that overlap.
    interfaces: int = 0
    defined: bool = False
    overlapping: bool = False
    # The parameters of each method without code, and by how many protos they are shared.
    parameters: int = 0
    protos: int = 1
    # The code of each method, of which that many equal items take turns, and its debug program.
    code: Optional[Item] = None
    codes: int = 1
    debug: Optional[Item] = None
    # The annotations of one set, how many copies of it take turns, and what has it: classes, fields, methods, parameters.
    annotations: int = 0
    sets: int = 1
    annotated: str = "fields"
    listed: int = 1
    # The static value of each class.
    value: Optional[Item] = None
    # Whether the value of the last class is of no kind.
    bad: bool = False


# The bytes of a type in a file, with its text of eight characters: a row each, and the length and the end of the text.
NAMED_TYPE = 4 + 4 + 10


@dataclasses.dataclass
class Built:
    """A file, about what it weighs, and about how many bytes the canonical files of its classes have, each alone."""

    data: bytes
    weight: int
    alone: int


def names_of(shape):
    return [f"L{shape.prefix}{i:05};" for i in range(shape.classes)]


def put_interfaces(file, shape, names):
    """Places the lists of interfaces, and returns the offset of each class's."""
    if not shape.interfaces:
        return [0] * shape.classes
    if shape.overlapping:
        # Each list begins 4 bytes after the one before. The numbers are in turn the count and 0, so each list has as
        # many; type 0 and the type of the count's number are classes that the file does not define.
        at = file.place(TYPE_LIST, ushorts([shape.interfaces, 0] * (shape.interfaces // 2 + shape.classes + 2)))
        return [at + 4 * i for i in range(shape.classes)]
    if shape.defined:
        numbers = [file.type[name] for name in names[: shape.interfaces]]
        at = file.place(TYPE_LIST, uints([len(numbers)]) + ushorts(numbers))
        return [0] * len(numbers) + [at] * (shape.classes - len(numbers))
    at = file.place(TYPE_LIST, uints([shape.interfaces]) + ushorts([file.type[OBJECT]] * shape.interfaces))
    return [at] * shape.classes


def put_sets(file, shape):
    """Places the sets of annotations, and their lists for parameters, and returns offsets that owners take in turn."""
    items = [file.place(ANNOTATION, b"\1" + uleb(file.type[f"LN{i:05};"]) + b"\0") for i in range(shape.annotations)]
    sets = [file.place(SET, uints([len(items)] + items)) for _ in range(shape.sets)]
    if shape.annotated != "parameters":
        return sets
    return [file.place(REF_LIST, uints([shape.listed] + [one] * shape.listed)) for one in sets]


def put_codes(file, shape):
    """Places the code items with their debug program, and returns their offsets."""
    if not shape.code:
        return [0]
    debug = file.place(DEBUG, shape.debug.put(file)) if shape.debug else 0
    units, tries, following = shape.code.put(file)
    item = struct.pack("<4HII", 1, 0, 0, tries, debug, len(units)) + ushorts(units) + following
    item += bytes(-len(item) % 4)
    return [file.place(CODE, item) for _ in range(shape.codes)]


def directories(file, shape, sets):
    """Places a directory for each class, and returns their offsets."""
    places, field, method = [], 0, 0
    for i in range(shape.classes):
        own, pairs = 0, []
        if shape.annotated == "classes":
            own = sets[i % len(sets)]
        first, count = (field, shape.fields) if shape.annotated == "fields" else (method, shape.methods)
        if shape.annotated != "classes":
            pairs = [number for k in range(first, first + count) for number in (k, sets[k % len(sets)])]
        counts = {kind: count if kind == shape.annotated else 0 for kind in ("fields", "methods", "parameters")}
        places.append(file.place(DIRECTORY, uints([own, *counts.values(), *pairs])))
        field, method = field + shape.fields, method + shape.methods
    return places


def body_weight(shape):
    """Returns what the classes of a shape weigh without the symbols."""
    items = [item.weight for item in (shape.code, shape.debug) if item]
    body = 96 + 2 * shape.interfaces + 18 * shape.fields + (31 + sum(items)) * shape.methods + set_weight(shape)
    return (body + (shape.value.weight if shape.value else 0)) * shape.classes


def alone(file, shape):
    """Returns about how many bytes the canonical files of the classes have, each alone: in one only code is repeated."""
    one = 300 + 2 * shape.interfaces + (8 + NAMED_TYPE) * shape.annotations + 40 * (shape.fields + shape.methods)
    one += NAMED_TYPE * shape.interfaces if shape.defined else 0
    if shape.code:
        units, tries, following = shape.code.put(file)
        one += (16 + 2 * len(units) + 8 * tries + len(following)) * shape.methods
    one += sum(len(item.put(file)) for item in (shape.debug, shape.value) if item)
    if shape.methods and not shape.code:
        # The list of parameters, and the text that spells it.
        one += 3 * shape.parameters
    return one * shape.classes


def set_weight(shape):
    """Returns what the annotations of one class weigh."""
    if not shape.annotations:
        return 0
    one = 8 + 16 * shape.annotations
    if shape.annotated == "parameters":
        one = 8 + (4 + one) * shape.listed
    return one * {"classes": 1, "fields": shape.fields}.get(shape.annotated, shape.methods)


def built(shape):
    """Returns the file of a shape."""
    names = names_of(shape)
    backs = [f"LR{i:05};" for i in range(shape.protos)]
    outside = [f"LA{i:05};" for i in range(shape.interfaces + 1)] if shape.overlapping else []
    shown = [f"LN{i:05};" for i in range(shape.annotations)]
    shorty = "L" * (shape.parameters + 1)
    method_names = [f"m{i:05}" for i in range(shape.methods)]
    field_names = [f"f{i:05}" for i in range(shape.fields)]
    many = shape.protos if not shape.code else 1
    members = [(name, (i + k) % many, each) for i, name in enumerate(names) for k, each in enumerate(method_names)]
    texts = [TEXT, shorty, "V", *method_names, *field_names] + [UNUSED] * shape.unused
    types = ["V", OBJECT, *names, *outside, *shown, *(backs if shape.methods and not shape.code else [])]
    protos = [("V", "V", 0)] if shape.code else [(shorty, back, 0) for back in backs if shape.methods]
    owned = [(name, OBJECT, each) for name in names for each in field_names]
    file = File(texts, types, protos, owned, members, shape.classes)
    lists = put_interfaces(file, shape, names)
    if protos and shape.parameters and not shape.code:
        at = file.place(TYPE_LIST, uints([shape.parameters]) + ushorts([file.type[OBJECT]] * shape.parameters))
        file.protos = [(shorty, back, at) for back in backs]
    sets = put_sets(file, shape) if shape.annotations else []
    codes = put_codes(file, shape)
    places = directories(file, shape, sets) if sets else [0] * shape.classes
    datas = [class_data_of(file, shape, i, codes) for i in range(shape.classes)]
    values = put_values(file, shape)
    rows = [(name, OBJECT, *rest) for name, *rest in zip(names, lists, places, datas, values)]
    symbols = (20 + 2 * shape.parameters) * len(protos) + 30 * len(file.texts) + 3 * len(shorty) + 8 * len(owned + members)
    return Built(file.done(rows), body_weight(shape) + symbols, alone(file, shape))


def class_data_of(file, shape, i, codes):
    """Places the class data of class i."""
    if not shape.fields and not shape.methods:
        return 0
    fields = range(i * shape.fields, (i + 1) * shape.fields)
    methods = [(k, codes[k % len(codes)]) for k in range(i * shape.methods, (i + 1) * shape.methods)]
    return file.place(CLASS_DATA, class_data(fields, methods))


def put_values(file, shape):
    """Places the static values, and returns the offset of each class's."""
    if not shape.value:
        return [0] * shape.classes
    values = [file.place(ARRAY, b"\1" + shape.value.put(file))] * shape.classes
    if shape.bad:
        values[-1] = file.place(ARRAY, bytes([1, NO_KIND]))
    return values


# ---- items


def nops(count):
    """Returns code of that many nops and a return."""
    return Item(26 + 2 * count, lambda file: ([NOP] * count + [RETURN_VOID], 0, b""))


def strings(count):
    """Returns code that loads a text that many times."""
    return Item(26 + 4 * count, lambda file: ([CONST_STRING, file.text[TEXT]] * count + [RETURN_VOID], 0, b""))


def payload(size):
    """Returns code with array data of that many units."""
    units = [RETURN_VOID, NOP, 0x0300, 2, size & 0xFFFF, size >> 16] + [0] * size
    return Item(24 + 2 * len(units), lambda file: (units, 0, b""))


def switch(targets):
    """Returns code of a switch with that many targets, each the switch itself."""
    units = [PACKED_SWITCH, 4, 0, RETURN_VOID, 0x0100, targets, 0, 0] + [0, 0] * targets
    return Item(24 + 2 * len(units), lambda file: (units, 0, b""))


def code_to_try(count):
    """Returns units of which that many can be tried, an even number of them."""
    return [NOP] * count + [RETURN_VOID] + [NOP] * (count % 2 == 0)


def tried(count):
    """Returns code with that many tries of one handler, which catches all at unit 0."""
    units = code_to_try(count)
    tries = b"".join(struct.pack("<IHH", i, 1, 1) for i in range(count))
    return Item(24 + 2 * len(units) + 8 * count + 15, lambda file: (units, count, tries + b"\1\0\0"))


def handled(count):
    """Returns code with that many tries, less than 64, each of a handler of its own: the first has one pair, the next two,
    and so on."""

    def put(file):
        handlers, tries = bytearray(uleb(count)), b""
        for k in range(count):
            tries += struct.pack("<IHH", k, 1, len(handlers))
            handlers += bytes([k + 1]) + (uleb(file.type[OBJECT]) + b"\0") * (k + 1)
        return units, count, tries + bytes(handlers)

    units = code_to_try(count)
    handlers = sum(10 + 8 * (k + 1) for k in range(count))
    return Item(24 + 2 * len(units) + 8 * count + 5 + handlers, put)


def lines(count):
    """Returns a debug program of that many operations without operands."""
    return Item(11 + count, lambda file: b"\1\0" + b"\x0e" * count + b"\0")


def local_names(count):
    """Returns a debug program that begins that many locals."""

    def put(file):
        begin = bytes([START_LOCAL, 0]) + uleb(file.text[TEXT] + 1) + uleb(file.type[OBJECT] + 1)
        return b"\1\0" + begin * count + b"\0"

    return Item(11 + 16 * count, put)


def array(count, one, weight):
    """Returns an array of that many equal values, of which one is written so."""
    return Item(12 + weight * count, lambda file: bytes([ARRAYED]) + uleb(count) + one(file) * count)


def nulls(count):
    return array(count, lambda file: bytes([NULL]), 9)


def texts_array(count):
    return array(count, lambda file: bytes([STRING, file.text[TEXT]]), 9)


def annotated_array(count):
    return array(count, lambda file: bytes([ANNOTATED]) + uleb(file.type[OBJECT]) + b"\0", 12)


# ---- shapes from a seed

OWNERS = [(1, 60_000), (60, 1_000), (3_000, 20), (60_000, 1)]
CODES = [(nops, 2, 1_000_000), (strings, 4, 300_000), (payload, 2, 500_000), (switch, 4, 60_000), (tried, 10, 30_000)]
VALUES = [(nulls, 9), (texts_array, 9), (annotated_array, 12)]
SHARES = [0.02, 0.2, 0.6]


def shapes_of(seed):
    """Returns the shapes of the files of a seed, which are merged with each other."""
    chance = random.Random(seed)
    files = chance.choice([1, 1, 1, 2, 5])
    classes, each = chance.choice(OWNERS)
    if files > 1:
        classes, each = (classes, max(1, each // files)) if each > 1 else (classes // files, 1)
    base = Shape(classes=classes, unused=chance.random() < 0.5)
    heavy = chance.random() < 0.2
    pieces = chance.sample(["interfaces", "parameters", "code", "debug", "sets", "values"], chance.choice([1, 2, 3]))
    room = MOST_WEIGHT * (8 if heavy else chance.choice(SHARES)) / len(pieces) / classes / files
    for piece in pieces:
        add(base, piece, each, room, chance)
    if not heavy and base.value and chance.random() < 0.3:
        base.bad = True
    return [dataclasses.replace(base, prefix=f"C{k}x") for k in range(files)]


def add(shape, piece, each, room, chance):
    """Lets every owner of a shape name an item more, all of which weigh about this much for each class."""
    if piece == "interfaces":
        kind = chance.choice(["shared", "defined", "overlapping"])
        shape.defined, shape.overlapping = kind == "defined", kind == "overlapping"
        most = {"shared": 1_000_000, "defined": shape.classes // 2, "overlapping": 2_000}[kind]
        shape.interfaces = int(min(most, max(1, room / 2))) & ~1
    elif piece == "parameters" and not shape.code:
        shape.methods = max(shape.methods, each)
        shape.protos = min(1_000, shape.classes * shape.methods)
        shape.parameters = int(min(400_000, max(1, room * shape.classes / shape.protos / 2)))
    elif piece in ("code", "debug") and not shape.parameters:
        shape.methods = max(shape.methods, each)
        if piece == "code" or not shape.code:
            make, weight, most = chance.choice(CODES) if piece == "code" else (nops, 2, 1)
            shape.code = make(int(min(most, max(1, room / each / weight))))
        if piece == "debug":
            make, weight = chance.choice([(lines, 1), (local_names, 16)])
            shape.debug = make(int(min(1_000_000, max(1, room / each / weight))))
        shape.codes = chance.choice([1, 2, each])
    elif piece == "sets":
        shape.annotated = chance.choice(["classes", "fields", "methods", "parameters"])
        owners = 1 if shape.annotated == "classes" else each
        shape.listed = chance.choice([1, 10]) if shape.annotated == "parameters" else 1
        shape.annotations = int(min(2_000, max(1, room / owners / shape.listed / 16)))
        shape.sets = chance.choice([1, 1, 20])
        if shape.annotated == "fields":
            shape.fields = max(shape.fields, each)
        elif shape.annotated != "classes":
            shape.methods = max(shape.methods, each)
    elif piece == "values":
        shape.fields = max(shape.fields, 1)
        make, weight = chance.choice(VALUES)
        shape.value = make(int(min(1_000_000, max(1, room / weight))))


def verdict(shape, weight):
    """Returns what `check` says of a file of a shape that weighs about this much."""
    if shape.bad:
        return f"refused 21 Values at {shape.classes - 1}"
    if weight > 1.1 * MOST_WEIGHT:
        return "refused 23 Weight at "
    return f"ok classes={shape.classes}" if weight < 0.9 * MOST_WEIGHT else ""
