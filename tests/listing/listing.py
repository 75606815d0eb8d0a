"""The full listing of classes, as section 19.1 of docs/FORMAT.md has it."""
from typing import Any, Callable, Dict, Iterator, List, Optional

import dexfile
from dexfile import Class, Code, Debug, Elements, Field, FieldDef, File, Method, MethodDef, Proto, Set, Try, Value
from instructions import address, literal, pieces

PLAIN = frozenset("abcdefghijklmnopqrstuvwxyzABCDEFGHIJKLMNOPQRSTUVWXYZ0123456789$-<>_")
VISIBILITIES = ["build", "runtime", "system"]
FLAGS = {
    0x1: "public", 0x2: "private", 0x4: "protected", 0x8: "static", 0x10: "final", 0x20: "synchronized", 0x100: "native",
    0x200: "interface", 0x400: "abstract", 0x800: "strict", 0x1000: "synthetic", 0x2000: "annotation", 0x4000: "enum",
    0x10000: "constructor", 0x20000: "declared-synchronized",
}
FIELD_FLAGS = {**FLAGS, 0x40: "volatile", 0x80: "transient"}
METHOD_FLAGS = {**FLAGS, 0x40: "bridge", 0x80: "varargs"}


# ---- texts, names and symbols


def escaped(unit: str) -> str:
    return f"\\u{ord(unit):04x}"


def shown(text: str) -> str:
    """Returns a type, or a text between its quotes."""
    return "".join("\\" + unit if unit in '"\\' else unit if " " <= unit <= "~" else escaped(unit) for unit in text)


def quoted(text: str) -> str:
    return f'"{shown(text)}"'


def plain(name: str) -> str:
    """Returns the name of a member or of an element of an annotation."""
    return "".join(unit if unit in PLAIN else escaped(unit) for unit in name)


def or_dash(form: Callable[[str], str], text: Optional[str]) -> str:
    return "-" if text is None else form(text)


def proto_text(proto: Proto) -> str:
    return f"({''.join(map(shown, proto.parameters))}){shown(proto.result)}"


def field_text(field: Field) -> str:
    return f"{shown(field.owner)}->{plain(field.name)}:{shown(field.type)}"


def method_text(method: Method) -> str:
    return f"{shown(method.owner)}->{plain(method.name)}{proto_text(method.proto)}"


SYMBOLS: Dict[str, Callable[[Any], str]] = {"string": quoted, "type": shown, "field": field_text, "method": method_text}


def flags_text(flags: int, names: Dict[int, str]) -> str:
    return f"{flags:#x}({','.join(name for bit, name in sorted(names.items()) if flags & bit)})"


# ---- values and annotations

VALUES: Dict[int, Callable[[Any], str]] = {
    dexfile.BYTE: lambda number: f"byte {literal(number)}",
    dexfile.SHORT: lambda number: f"short {literal(number)}",
    dexfile.CHAR: lambda unit: f"char {unit:04x}",
    dexfile.INT: lambda number: f"int {literal(number)}",
    dexfile.LONG: lambda number: f"long {literal(number)}",
    dexfile.FLOAT: lambda bits: f"float-bits {bits:04x}",
    dexfile.DOUBLE: lambda bits: f"double-bits {bits:04x}",
    dexfile.STRING: lambda text: f"string {quoted(text)}",
    dexfile.TYPE: lambda text: f"type {shown(text)}",
    dexfile.FIELD: lambda field: f"field {field_text(field)}",
    dexfile.METHOD: lambda method: f"method {method_text(method)}",
    dexfile.ENUM: lambda field: f"enum {field_text(field)}",
    dexfile.ARRAY: lambda values: f"array {{{''.join(f' {value_text(each)}' for each in values)} }}",
    dexfile.ANNOTATION: lambda encoded: f"annotation {annotation_text(*encoded)}",
    dexfile.NULL: lambda _: "null",
    dexfile.BOOLEAN: lambda is_true: "true" if is_true else "false",
}


def value_text(value: Value) -> str:
    return VALUES[value.kind](value.content)


def annotation_text(kind: str, elements: Elements) -> str:
    return f"{shown(kind)} {{{''.join(f' {plain(name)}={value_text(value)}' for name, value in elements)} }}"


def set_lines(blanks: str, annotations: Set) -> Iterator[str]:
    for visibility, kind, elements in annotations:
        yield f"{blanks}annotation {VISIBILITIES[visibility]} {annotation_text(kind, elements)}"


# ---- code


def code_lines(file: File, method: str, code: Code) -> Iterator[str]:
    counts = f"registers={code.registers} ins={code.ins} outs={code.outs} units={len(code.units)} tries={len(code.tries)}"
    yield f"    code {counts}"
    for at, units, text, index in pieces(code.units):
        symbol = f", {SYMBOLS[index[0]](file.pools[index[0]][index[1]])}" if index else ""
        yield f"    {address(at)}: {''.join(f'{unit:04x} ' for unit in units)}| {text}{symbol}\t{method}"
    for each in code.tries:
        yield from try_lines(each)
    if code.debug:
        yield from debug_lines(code.debug)


def try_lines(each: Try) -> Iterator[str]:
    yield f"    try {address(each.start)} units={each.count}"
    for kind, at in each.handler.catches:
        yield f"      catch {shown(kind)} {address(at)}"
    if each.handler.catch_all is not None:
        yield f"      catch-all {address(each.handler.catch_all)}"


def debug_lines(debug: Debug) -> Iterator[str]:
    yield f"    line-start {debug.line_start}"
    for name in debug.names:
        yield f"      parameter {or_dash(quoted, name)}"
    at, line = 0, debug.line_start
    for opcode, operands in debug.operations:
        if opcode >= dexfile.FIRST_SPECIAL:
            line += -4 + (opcode - 10) % 15
            at += (opcode - 10) // 15
            yield f"      position {address(at)} line={line:+d} opcode={opcode}"
            continue
        at += operands[0] if opcode == dexfile.ADVANCE_PC else 0
        line += operands[0] if opcode == dexfile.ADVANCE_LINE else 0
        name, kinds = dexfile.OPERATIONS[opcode]
        yield "      " + " ".join([name, *(OPERANDS[kind](operand) for kind, operand in zip(kinds, operands))])


OPERANDS: Dict[int, Callable[[Any], str]] = {
    dexfile.COUNT_OPERAND: str,
    dexfile.LINES_OPERAND: lambda lines: f"{lines:+d}",
    dexfile.REGISTER_OPERAND: lambda register: f"v{register}",
    dexfile.TEXT_OPERAND: lambda text: or_dash(quoted, text),
    dexfile.TYPE_OPERAND: lambda text: or_dash(shown, text),
}


# ---- classes


def field_lines(kind: str, each: FieldDef) -> Iterator[str]:
    value = f" value={value_text(each.value)}" if each.value else ""
    yield f"  {kind} {plain(each.field.name)}:{shown(each.field.type)} flags={flags_text(each.flags, FIELD_FLAGS)}{value}"
    yield from set_lines("    ", each.annotations)


def method_lines(file: File, kind: str, each: MethodDef) -> Iterator[str]:
    _, name, proto = each.method
    yield f"  {kind} {plain(name)}{proto_text(proto)} flags={flags_text(each.flags, METHOD_FLAGS)}"
    yield from set_lines("    ", each.annotations)
    for number, annotations in enumerate(each.parameters):
        yield f"    parameter {number}"
        yield from set_lines("      ", annotations)
    if each.code:
        yield from code_lines(file, method_text(each.method), each.code)


def class_lines(file: File, each: Class) -> Iterator[str]:
    yield f"class {shown(each.name)} flags={flags_text(each.flags, FLAGS)} super={or_dash(shown, each.superclass)}"
    for name in each.interfaces:
        yield f"  interface {shown(name)}"
    if each.source is not None:
        yield f"  source {quoted(each.source)}"
    yield from set_lines("  ", each.annotations)
    for kind, fields in (("static-field", each.static_fields), ("instance-field", each.instance_fields)):
        for field in fields:
            yield from field_lines(kind, field)
    for kind, methods in (("direct-method", each.direct_methods), ("virtual-method", each.virtual_methods)):
        for method in methods:
            yield from method_lines(file, kind, method)


def full_listing(data: bytes) -> List[str]:
    """Returns the lines of the full listing of a file."""
    file = File(data)
    return [line for each in file.classes() for line in class_lines(file, each)]
