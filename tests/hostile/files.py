"""Hostile files by name, each with the verdict that its making gives it."""
import dataclasses
import struct
from typing import Callable, List

import shapes
from dexfile import (
    ANNOTATION, ARRAY, CLASS_DATA, CODE, DEBUG, DIRECTORY, File, NOP, OBJECT, PACKED_SWITCH, REF_LIST, RETURN_VOID, SET,
    STRING_DATA, TYPE_LIST, class_data, uints, uleb, ushorts,
)
from shapes import Built, Shape


def one_method(units, tries=0, following=b""):
    """Returns LA; with a method m()V of this code."""
    file = File(["m"], ["LA;", "V", OBJECT], [("V", "V", 0)], (), [("LA;", 0, "m")], 1)
    code = file.place_code(units, tries, following)
    data = file.place(CLASS_DATA, class_data(methods=[(0, code)]))
    return file.done([("LA;", OBJECT, 0, 0, data, 0)])


def shared_code(methods, units):
    """Returns LA; with that many methods over one code item."""
    names = [f"m{i:05}" for i in range(methods)]
    file = File(names, ["LA;", "V", OBJECT], [("V", "V", 0)], (), [("LA;", 0, name) for name in names], 1)
    code = file.place_code(units)
    data = file.place(CLASS_DATA, class_data(methods=[(i, code) for i in range(methods)]))
    return file.done([("LA;", OBJECT, 0, 0, data, 0)])


def codes_in_turn(methods, units):
    """Returns LA; with that many methods, over two equal code items in turn."""
    names = [f"m{i:05}" for i in range(methods)]
    file = File(names, ["LA;", "V", OBJECT], [("V", "V", 0)], (), [("LA;", 0, name) for name in names], 1)
    codes = [file.place_code(units), file.place_code(units)]
    data = file.place(CLASS_DATA, class_data(methods=[(i, codes[i % 2]) for i in range(methods)]))
    return file.done([("LA;", OBJECT, 0, 0, data, 0)])


def shared_debug(methods, operations):
    """Returns LA; with methods, each with its own code, that share a debug program of that many special operations."""
    names = [f"m{i:05}" for i in range(methods)]
    file = File(names, ["LA;", "V", OBJECT], [("V", "V", 0)], (), [("LA;", 0, name) for name in names], 1)
    debug = file.place(DEBUG, b"\1\0" + b"\x0e" * operations + b"\0")
    item = struct.pack("<4HII", 1, 0, 0, 0, debug, 1) + ushorts([RETURN_VOID])
    codes = [file.place(CODE, item) for _ in names]
    data = file.place(CLASS_DATA, class_data(methods=list(enumerate(codes))))
    return file.done([("LA;", OBJECT, 0, 0, data, 0)])


def shared_values(classes, values):
    """Returns classes with a static field each, whose initial value is one shared array of that many nulls."""
    names = [f"L{i:05};" for i in range(classes)]
    file = File(["x"], names + ["[I", OBJECT], (), [(name, "[I", "x") for name in names], (), classes)
    at = file.place(ARRAY, b"\1" + null_array(values))
    datas = [file.place(CLASS_DATA, class_data(fields=[i])) for i in range(classes)]
    return file.done([(name, OBJECT, 0, 0, data, at) for name, data in zip(names, datas)])


def array_payload(units):
    """Returns return-void and the data of an array, of that many units together."""
    size = units - 6
    return [RETURN_VOID, NOP, 0x0300, 2, size & 0xFFFF, size >> 16] + [0] * size


def shared_lists(protos):
    """Returns protos that differ in their return types alone, and share one list of a million parameters."""
    names = [f"L{i:05};" for i in range(protos)]
    shorty = "L" * 1_000_001
    file = File([shorty], names, [(shorty, name, 0) for name in names])
    at = file.place(TYPE_LIST, uints([1_000_000]) + bytes(2_000_000))
    file.protos = [(shorty, name, at) for name in names]
    return file.done([])


def methods_of_shared_list(methods, parameters):
    """Returns LA; with that many abstract methods, each of another return type, that share one list of parameters."""
    shorty = "L" * (parameters + 1)
    backs = [f"L{i:05};" for i in range(methods)]
    named = [("LA;", i, "m") for i in range(methods)]
    file = File([shorty, "m"], backs + ["LA;", OBJECT], [(shorty, back, 0) for back in backs], (), named, 1)
    at = file.place(TYPE_LIST, uints([parameters]) + bytes(2 * parameters))
    file.protos = [(shorty, back, at) for back in backs]
    data = file.place(CLASS_DATA, class_data(methods=[(i, 0) for i in range(methods)]))
    return file.done([("LA;", OBJECT, 0, 0, data, 0)])


def overlapping_lists(protos):
    """Returns protos whose lists of 65,537 parameters overlap: each begins 4 bytes after the one before. They are in
    order, since they differ at their ends alone."""
    names = [f"L{i:05};" for i in range(2 * protos + 2)]
    shorty = "L" * 65_538
    file = File([shorty], names, [(shorty, names[0], 0)] * protos)
    ends = list(range(2, 2 * protos + 2))
    at = file.place(TYPE_LIST, ushorts([1] * (65_537 + 2)) + ushorts(ends))
    file.protos = [(shorty, names[0], at + 4 * i) for i in range(protos)]
    return file.done([])


def directory_of_one_set(fields, annotations):
    """Returns LA; with that many fields, each with the same set of that many annotations without elements."""
    names = [f"f{i:05}" for i in range(fields)]
    types = [f"LN{i:05};" for i in range(annotations)]
    file = File(names, ["I", "LA;", OBJECT] + types, (), [("LA;", "I", name) for name in names], (), 1)
    items = [file.place(ANNOTATION, b"\1" + uleb(file.type[name]) + b"\0") for name in types]
    at = file.place(SET, uints([len(items)]) + uints(items))
    pairs = b"".join(uints([i, at]) for i in range(fields))
    directory = file.place(DIRECTORY, uints([0, fields, 0, 0]) + pairs)
    data = file.place(CLASS_DATA, class_data(fields=range(fields)))
    return file.done([("LA;", OBJECT, 0, directory, data, 0)])


def directory_of_one_list(methods, sets):
    """Returns LA; with methods whose parameters share one list, which has one set of one annotation many times."""
    names = [f"m{i:05}" for i in range(methods)]
    file = File(names, ["LA;", "LN;", "V", OBJECT], [("V", "V", 0)], (), [("LA;", 0, name) for name in names], 1)
    item = file.place(ANNOTATION, b"\1" + uleb(file.type["LN;"]) + b"\0")
    one = file.place(SET, uints([1, item]))
    at = file.place(REF_LIST, uints([sets] + [one] * sets))
    pairs = b"".join(uints([i, at]) for i in range(methods))
    directory = file.place(DIRECTORY, uints([0, 0, 0, methods]) + pairs)
    data = file.place(CLASS_DATA, class_data(methods=[(i, 0) for i in range(methods)]))
    return file.done([("LA;", OBJECT, 0, directory, data, 0)])


def static_value(value):
    """Returns LA; with a static field x whose initial value has these bytes."""
    file = File(["x"], ["[I", "LA;", OBJECT], (), [("LA;", "[I", "x")], (), 1)
    values = file.place(ARRAY, b"\1" + value)
    data = file.place(CLASS_DATA, class_data(fields=[0]))
    return file.done([("LA;", OBJECT, 0, 0, data, values)])


def array_of(values):
    return b"\x1c" + uleb(len(values)) + b"".join(values)


def null_array(count):
    return b"\x1c" + uleb(count) + b"\x1e" * count


def nested_arrays(count):
    """Returns arrays in arrays, 32 deep, with that many of the deepest."""
    deepest = b"\x1c\1" * 30 + b"\x1e"
    return static_value(array_of([deepest] * count))


def switches(count, targets):
    """Returns that many packed-switches that share one payload of that many targets, all of them instructions."""
    # The switches are at every third unit. After them are as many instructions of one unit as a target may reach.
    reach = 3 * 1024
    places = 3 * count + reach
    payload = places + places % 2 + 0
    units = []
    for i in range(count):
        units += [PACKED_SWITCH, (payload - 3 * i) & 0xFFFF, (payload - 3 * i) >> 16]
    units += [NOP] * (reach - 1) + [RETURN_VOID] + [NOP] * (payload - places)
    units += [0x0100, targets, 0, 0]
    for i in range(targets):
        units += [3 * (i % 1024), 0]
    return one_method(units)


def short_switches(count):
    """Returns that many packed-switches, each with its own payload of two targets."""
    # A switch has three units, and a payload has eight, at an even unit.
    first = 3 * count + 1 + (3 * count + 1) % 2
    units = []
    for i in range(count):
        reach = first + 8 * i - 3 * i
        units += [PACKED_SWITCH, reach & 0xFFFF, reach >> 16]
    units += [RETURN_VOID] + [NOP] * (first - 3 * count - 1)
    for i in range(count):
        units += [0x0100, 2, 0, 0, 3, 0, 3, 0] if i + 1 < count else [0x0100, 2, 0, 0, 0, 0, 0, 0]
    return one_method(units)


def handlers(count):
    """Returns a method with that many handlers, of which its one try names the first."""
    units = [NOP, RETURN_VOID]
    # start 0, 1 unit, and the first handler after the size of the list
    size = uleb(count)
    return one_method(units, 1, struct.pack("<IHH", 0, 1, len(size)) + size + b"\0\1" * count)


def deep_classes(count):
    """Returns that many classes, each under the one before it."""
    names = [f"L{i:05};" for i in range(count)]
    file = File([], names + [OBJECT], classes=count)
    above = [OBJECT] + names[:-1]
    return file.done([(name, up, 0, 0, 0, 0) for name, up in zip(names, above)])


def many_interfaces(count):
    """Returns a class with that many interfaces."""
    names = [f"L{i:05};" for i in range(count)]
    file = File([], names + ["LA;", OBJECT], classes=1)
    at = file.place(TYPE_LIST, uints([count]) + ushorts([file.type[name] for name in names]))
    return file.done([("LA;", OBJECT, at, 0, 0, 0)])


def classes_share_a_list(classes, count):
    """Returns classes that share one list of interfaces, the same one that many times."""
    names = [f"L{i:05};" for i in range(classes)]
    file = File([], names + [OBJECT], classes=classes)
    at = file.place(TYPE_LIST, uints([count]) + ushorts([file.type[OBJECT]] * count))
    return file.done([(name, OBJECT, at, 0, 0, 0) for name in names])


def classes_over_overlapping_lists(classes):
    """Returns classes whose lists of 65,537 interfaces overlap: each begins 4 bytes after the one before. In a list
    each number is 1, that of a type which the file does not define."""
    names = ["LA;"] + [f"LC{i:05};" for i in range(classes - 1)]
    file = File([], names + ["LB;", OBJECT], classes=classes)
    at = file.place(TYPE_LIST, ushorts([1] * (2 * classes + 65_537)))
    return file.done([(name, OBJECT, at + 4 * i, 0, 0, 0) for i, name in enumerate(names)])


def fields_of_one_name(side, length):
    """Returns a field of each class and type of that many, all of one name of that length."""
    names = [f"L{i:05};" for i in range(side)]
    text = "x" * length
    return File([text], names, (), [(owner, kind, text) for owner in names for kind in names]).done([])


def overlapping_texts(groups):
    """Returns texts of which each lies within those before it: of groups of three bytes, each that can spell the number
    of units after it does, and begins a text."""
    text, starts = bytearray(), []
    for i in range(groups):
        units = 2 * (groups - 1 - i)
        size = bytes([0x80 | units & 0x7F, 0x80 | units >> 7 & 0x7F, units >> 14])
        begins = 0xC2 <= size[0] <= 0xDF and size[1] <= 0xBF and size[2] > 0
        if begins:
            starts.append(len(text))
        text += size if begins else "\u00ffz".encode()
    file = File([], [])
    file.sizes[0] = len(starts)
    file.data_off += 4 * len(starts)
    at = file.place(STRING_DATA, bytes(text) + b"\0", len(starts))
    starts.sort(key=lambda start: text[start + 3 :])
    return file.done([], [at + start for start in starts])


def methods_of_overlapping_lists(protos):
    """Returns LA; with an abstract method of each of that many protos, whose lists of 65,537 parameters overlap."""
    names = ["LA;", OBJECT] + [f"L{i:05};" for i in range(2 * protos + 2)]
    shorty = "L" * 65_538
    file = File([shorty, "m"], names, [(shorty, "L00000;", 0)] * protos, (), [("LA;", i, "m") for i in range(protos)], 1)
    at = file.place(TYPE_LIST, ushorts([1] * (65_537 + 2)) + ushorts(range(2, 2 * protos + 2)))
    file.protos = [(shorty, "L00000;", at + 4 * i) for i in range(protos)]
    data = file.place(CLASS_DATA, class_data(methods=[(i, 0) for i in range(protos)]))
    return file.done([("LA;", OBJECT, 0, 0, data, 0)])


@dataclasses.dataclass
class Hostile:
    """A file, or files that are merged: what `check` says of each, how they are made, and whether they can be merged."""

    name: str
    said: List[str]
    make: Callable[[], List[Built]]
    merged: bool = True


def one(name, said, make, alone=0):
    """Returns the case of one file. `alone`: about how many bytes the canonical files of its classes have, each alone."""
    return Hostile(name, [said], lambda: [Built(make(), 0, alone)], said.startswith("ok"))


def shaped(name, shape):
    """Returns the case of the file of a shape, which is not too heavy."""
    said = shapes.verdict(shape, 0)
    return Hostile(name, [said], lambda: [shapes.built(shape)], said.startswith("ok"))


def several(name, files, merged=True):
    """Returns the case of the files of these shapes, each accepted."""
    return Hostile(name, [shapes.verdict(shape, 0) for shape in files], lambda: [shapes.built(shape) for shape in files], merged)


NAMED = [
    one("methods-over-one-code", "refused 23 Weight at 0", lambda: shared_code(65_536, array_payload(1 << 20))),
    one("methods-over-nops", "refused 23 Weight at 0", lambda: shared_code(65_536, [NOP] * 1_799_999 + [RETURN_VOID])),
    one("methods-over-two-codes", "refused 23 Weight at 0", lambda: codes_in_turn(65_536, [NOP] * 899_999 + [RETURN_VOID])),
    one("methods-over-one-debug", "ok classes=1", lambda: shared_debug(60_000, 10_000)),
    one("classes-over-one-value", "ok classes=60000", lambda: shared_values(60_000, 1_000), 60_000 * 1_000),
    one("protos-share-a-list", "ok classes=0", lambda: shared_lists(65_535)),
    one("methods-share-a-list", "ok classes=1", lambda: methods_of_shared_list(1_000, 400_000)),
    one("methods-share-a-long-list", "refused 23 Weight at 0", lambda: methods_of_shared_list(60_000, 400_000)),
    one("lists-overlap", "ok classes=0", lambda: overlapping_lists(30_000)),
    one("one-set-a-thousand-times", "ok classes=1", lambda: directory_of_one_set(1_000, 10_000)),
    one("one-set-for-all-fields", "ok classes=1", lambda: directory_of_one_set(60_000, 1_000)),
    one("one-list-a-thousand-times", "ok classes=1", lambda: directory_of_one_list(1_000, 10_000)),
    one("null-values", "ok classes=1", lambda: static_value(null_array(1_000_000))),
    one("hundred-million-nulls", "ok classes=1", lambda: static_value(null_array(100_000_000)), 100_000_000),
    one("empty-arrays", "ok classes=1", lambda: static_value(array_of([b"\x1c\0"] * 1_000_000))),
    one("nested-arrays", "ok classes=1", lambda: nested_arrays(100_000)),
    one("switches-to-one-payload", "ok classes=1", lambda: switches(200_000, 65_535)),
    one("million-switches-to-one-payload", "ok classes=1", lambda: switches(1_000_000, 65_535)),
    one("switches-of-two-targets", "ok classes=1", lambda: short_switches(200_000)),
    one("handlers", "ok classes=1", lambda: handlers(1_000_000)),
    one("classes-in-a-row", "ok classes=60000", lambda: deep_classes(60_000)),
    one("interfaces", "ok classes=1", lambda: many_interfaces(60_000)),
    one("fields-of-one-name", "ok classes=0", lambda: fields_of_one_name(256, 1_000_000)),
    one("classes-share-a-list", "ok classes=60000", lambda: classes_share_a_list(60_000, 8_000), 60_000 * 16_000),
    one("classes-share-a-long-list", "refused 23 Weight at 536", lambda: classes_share_a_list(60_000, 1_000_000)),
    one("texts-overlap", "ok classes=0", lambda: overlapping_texts(200_000)),
    one("classes-over-overlapping-lists", "refused 23 Weight at 8185", lambda: classes_over_overlapping_lists(60_000)),
]

# Many owners over few items, from `shapes`.
MANY = 60_000
OF_MANY = [
    shaped("lists-of-many-overlap", Shape(classes=50_000, interfaces=2_000, overlapping=True)),
    shaped("lists-of-defined", Shape(classes=56_000, interfaces=4_000, defined=True)),
    shaped("lists-renumbered", Shape(classes=MANY, interfaces=4_000, unused=True)),
    shaped("classes-share-a-set", Shape(classes=MANY, annotations=1_000, annotated="classes")),
    shaped("classes-share-a-set-renumbered", Shape(classes=MANY, annotations=500, annotated="classes", unused=True)),
    shaped("sets-of-one-directory", Shape(fields=MANY, annotations=1, sets=MANY)),
    shaped("ref-lists-of-many", Shape(methods=MANY, annotations=1, annotated="parameters", listed=500)),
    shaped("methods-share-tries", Shape(methods=MANY, code=shapes.tried(1_000))),
    shaped("methods-share-handlers", Shape(methods=MANY, code=shapes.handled(40))),
    shaped("methods-share-nops", Shape(methods=MANY, code=shapes.nops(6_000))),
    shaped("methods-share-strings", Shape(methods=MANY, code=shapes.strings(3_000))),
    shaped("methods-share-strings-renumbered", Shape(methods=MANY, code=shapes.strings(3_000), unused=True)),
    shaped("methods-share-a-payload", Shape(methods=MANY, code=shapes.payload(4_000))),
    shaped("methods-share-a-switch", Shape(methods=MANY, code=shapes.switch(2_000))),
    shaped("methods-share-locals", Shape(methods=MANY, code=shapes.nops(1), codes=MANY, debug=shapes.local_names(900))),
    shaped("classes-over-one-code", Shape(classes=MANY, methods=1, code=shapes.nops(2_000))),
    shaped("classes-over-texts", Shape(classes=MANY, fields=1, value=shapes.texts_array(1_500), unused=True)),
    shaped("classes-over-annotations", Shape(classes=MANY, fields=1, value=shapes.annotated_array(1_000))),
    shaped("last-value-is-none", Shape(classes=MANY, fields=1, value=shapes.nulls(1_000), bad=True)),
    shaped("methods-share-parameters", Shape(methods=MANY, parameters=200_000, protos=1_000)),
    shaped("classes-share-parameters", Shape(classes=60, methods=1_000, parameters=300_000, protos=1_000)),
    one("methods-over-overlapping-lists", "ok classes=1", lambda: methods_of_overlapping_lists(3_000)),
]

# Files that are merged with each other.
MERGED = [
    several("ten-files-share-lists", [Shape(prefix=f"C{k}x", classes=6_000, interfaces=8_000) for k in range(10)]),
    several("ten-files-share-code", [Shape(prefix=f"C{k}x", methods=6_000, code=shapes.strings(3_000)) for k in range(10)]),
    several("too-many-methods", [Shape(prefix=f"C{k}x", methods=40_000, code=shapes.nops(6_000)) for k in range(2)], False),
    several("too-heavy", [Shape(prefix=f"C{k}x", classes=20_000, interfaces=8_000) for k in range(4)], False),
    several("equal-copies", [Shape(classes=20_000, fields=1, value=shapes.nulls(1_000))] * 4),
    several("others-at-the-end", [Shape(classes=20_000, interfaces=8_000), Shape(classes=20_000, interfaces=7_999)], False),
]

HOSTILE = NAMED + OF_MANY + MERGED


def of_seed(seed):
    """Returns the case of a seed. Near the most that files may weigh, the verdict is not known."""
    files = shapes.shapes_of(seed)
    built = [shapes.built(shape) for shape in files]
    said = [shapes.verdict(shape, file.weight) for shape, file in zip(files, built)]
    together = shapes.verdict(files[0], sum(file.weight for file in built))
    return Hostile(f"seed-{seed}", said, lambda: built, together.startswith("ok"))
