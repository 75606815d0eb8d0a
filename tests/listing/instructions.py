"""Instructions and payloads, as sections 8.2 to 8.5 of docs/FORMAT.md have them, and as 19.1 lists them."""
from typing import Dict, Iterator, List, NamedTuple, Optional, Tuple

# The units and the operands of each format, as the page "Dalvik Executable instruction formats" has them. A letter is four
# bits, and in a later unit higher ones. `v` is before a register, `#` a literal, `+` a branch offset and `@` an index. The
# format 21h of 64 bits is 21h+.
FORMATS = {
    "10x": ("00op", ""), "11x": ("AAop", "vA"), "10t": ("AAop", "+A"),
    "12x": ("BAop", "vA, vB"), "11n": ("BAop", "vA, #B"),
    "20t": ("00op AAAA", "+A"), "30t": ("00op AAAA AAAA", "+A"), "32x": ("00op AAAA BBBB", "vA, vB"),
    "22x": ("AAop BBBB", "vA, vB"), "21t": ("AAop BBBB", "vA, +B"), "21c": ("AAop BBBB", "vA, @B"),
    "21s": ("AAop BBBB", "vA, #B"), "21h": ("AAop BBBB", "vA, #B0000"), "21h+": ("AAop BBBB", "vA, #B000000000000"),
    "23x": ("AAop CCBB", "vA, vB, vC"), "22b": ("AAop CCBB", "vA, vB, #C"),
    "22t": ("BAop CCCC", "vA, vB, +C"), "22s": ("BAop CCCC", "vA, vB, #C"), "22c": ("BAop CCCC", "vA, vB, @C"),
    "31i": ("AAop BBBB BBBB", "vA, #B"), "31t": ("AAop BBBB BBBB", "vA, +B"), "31c": ("AAop BBBB BBBB", "vA, @B"),
    "35c": ("AGop BBBB FEDC", "{C..G}, @B"), "3rc": ("AAop BBBB CCCC", "{C..N}, @B"),
    "51l": ("AAop BBBB BBBB BBBB BBBB", "vA, #B"),
}

# Of each run of opcodes the first one, the format with the pool of its index, and the mnemonics. One with * has the kinds
# of values in its place, those with ( ) the operations of arithmetic.
OPCODE_RUNS = """
00 10x nop
01 12x move; 02 22x move/from16; 03 32x move/16
04 12x move-wide; 05 22x move-wide/from16; 06 32x move-wide/16
07 12x move-object; 08 22x move-object/from16; 09 32x move-object/16
0a 11x move-result move-result-wide move-result-object move-exception
0e 10x return-void; 0f 11x return return-wide return-object
12 11n const/4; 13 21s const/16; 14 31i const; 15 21h const/high16
16 21s const-wide/16; 17 31i const-wide/32; 18 51l const-wide; 19 21h+ const-wide/high16
1a 21c-string const-string; 1b 31c-string const-string/jumbo; 1c 21c-type const-class
1d 11x monitor-enter monitor-exit
1f 21c-type check-cast; 20 22c-type instance-of; 21 12x array-length; 22 21c-type new-instance; 23 22c-type new-array
24 35c-type filled-new-array; 25 3rc-type filled-new-array/range; 26 31t fill-array-data
27 11x throw; 28 10t goto; 29 20t goto/16; 2a 30t goto/32; 2b 31t packed-switch sparse-switch
2d 23x cmpl-float cmpg-float cmpl-double cmpg-double cmp-long
32 22t if-eq if-ne if-lt if-ge if-gt if-le; 38 21t if-eqz if-nez if-ltz if-gez if-gtz if-lez
44 23x aget* aput*; 52 22c-field iget* iput*; 60 21c-field sget* sput*
6e 35c-method invoke-virtual invoke-super invoke-direct invoke-static invoke-interface
74 3rc-method invoke-virtual/range invoke-super/range invoke-direct/range invoke-static/range invoke-interface/range
7b 12x neg-int not-int neg-long not-long neg-float neg-double
81 12x int-to-long int-to-float int-to-double long-to-int long-to-float long-to-double
87 12x float-to-int float-to-long float-to-double double-to-int double-to-long double-to-float
8d 12x int-to-byte int-to-char int-to-short
90 23x (whole)-int (whole)-long (float)-float (float)-double
b0 12x (whole)-int/2addr (whole)-long/2addr (float)-float/2addr (float)-double/2addr
d0 22s add-int/lit16 rsub-int mul-int/lit16 div-int/lit16 rem-int/lit16 and-int/lit16 or-int/lit16 xor-int/lit16
d8 22b add-int/lit8 rsub-int/lit8 mul-int/lit8 div-int/lit8 rem-int/lit8 and-int/lit8 or-int/lit8 xor-int/lit8
e0 22b shl-int/lit8 shr-int/lit8 ushr-int/lit8
"""
WHOLE = "add sub mul div rem and or xor shl shr ushr".split()
SEVERAL = {"*": ["", "-wide", "-object", "-boolean", "-byte", "-char", "-short"], "(whole)": WHOLE, "(float)": WHOLE[:5]}
PACKED_SWITCH, SPARSE_SWITCH, ARRAY_DATA = 0x0100, 0x0200, 0x0300


class Opcode(NamedTuple):
    mnemonic: str
    layout: List[str]
    operands: str
    pool: str


class Piece(NamedTuple):
    """An instruction or a payload: its first unit, its units with zeros for those of an index, what it is with its operands,
    and the pool and the row of its index."""

    at: int
    units: List[int]
    text: str
    index: Optional[Tuple[str, int]] = None


def opcodes() -> Dict[int, Opcode]:
    found = {}
    for run in OPCODE_RUNS.replace("\n", ";").strip(";").split(";"):
        first, form, *names = run.split()
        form, _, pool = form.partition("-")
        for number, name in enumerate(each for name in names for each in several(name)):
            found[int(first, 16) + number] = Opcode(name, FORMATS[form][0].split(), FORMATS[form][1], pool)
    return found


def several(name: str) -> List[str]:
    part = next((part for part in SEVERAL if part in name), "")
    return [name.replace(part, each) for each in SEVERAL[part]] if part else [name]


OPCODES = opcodes()


def address(at: int) -> str:
    return f"{at:04x}"


def literal(number: int) -> str:
    return f"#{number:+d}"


def signed(number: int, bits: int) -> int:
    """Returns what a number of that many bits is in two's complement."""
    return number - (1 << bits) if number >> (bits - 1) else number


def pieces(units: List[int]) -> Iterator[Piece]:
    """Yields the instructions and payloads of code, in order."""
    at = 0
    while at < len(units):
        is_payload = units[at] in (PACKED_SWITCH, SPARSE_SWITCH, ARRAY_DATA)
        piece = payload(units, at) if is_payload else instruction(units, at)
        yield piece
        at += len(piece.units)


def instruction(units: List[int], at: int) -> Piece:
    opcode = OPCODES[units[at] & 0xFF]
    own = units[at : at + len(opcode.layout)]
    digits = digits_of(opcode.layout, own)
    words = [operand(word, digits, at) for word in opcode.operands.split(", ") if word and word[0] != "@"]
    text = " ".join([opcode.mnemonic] + [", ".join(words)] * bool(words))
    if not opcode.pool:
        return Piece(at, own, text)
    letter = opcode.operands[-1]
    without = [0 if set(word) == {letter} else unit for word, unit in zip(opcode.layout, own)]
    return Piece(at, without, text, (opcode.pool, int(digits[letter], 16)))


def digits_of(layout: List[str], units: List[int]) -> Dict[str, str]:
    """Returns the hexadecimal digits of each letter of a layout."""
    found: Dict[str, str] = {}
    for word, unit in zip(layout, units):
        here: Dict[str, str] = {}
        for letter, digit in zip(word, address(unit)):
            here[letter] = here.get(letter, "") + digit
        found.update({letter: digits + found.get(letter, "") for letter, digits in here.items()})
    return found


def operand(word: str, digits: Dict[str, str], at: int) -> str:
    """Returns an operand of the instruction at a unit as it is listed."""
    if word == "{C..G}":
        return f"{{{', '.join(f'v{int(digits[letter], 16)}' for letter in 'CDEFG'[: int(digits['A'], 16)])}}}"
    if word == "{C..N}":
        first, count = int(digits["C"], 16), int(digits["A"], 16)
        return f"{{v{first} .. v{first + count - 1}}}" if count else "{}"
    own = digits[word[1]] + word[2:]
    if word[0] == "v":
        return f"v{int(own, 16)}"
    number = signed(int(own, 16), 4 * len(own))
    return literal(number) if word[0] == "#" else address(at + number)


def payload(units: List[int], at: int) -> Piece:
    ident, size = units[at : at + 2]
    if ident == PACKED_SWITCH:
        (first, *targets), count = ints(units, at + 2, 1 + size), 4 + 2 * size
        text = f"packed-switch-payload size={size} first={literal(first)} targets={listed(targets, '{:+d}')}"
    elif ident == SPARSE_SWITCH:
        keys, targets, count = ints(units, at + 2, size), ints(units, at + 2 + 2 * size, size), 2 + 4 * size
        text = f"sparse-switch-payload size={size} keys={listed(keys, '#{:+d}')} targets={listed(targets, '{:+d}')}"
    else:
        width, size = size, units[at + 2] | units[at + 3] << 16
        count = 4 + (size * width + 1) // 2
        text = f"fill-array-data-payload width={width} size={size}"
    return Piece(at, units[at : at + count], text)


def ints(units: List[int], at: int, count: int) -> List[int]:
    return [signed(units[at + 2 * i] | units[at + 2 * i + 1] << 16, 32) for i in range(count)]


def listed(numbers: List[int], form: str) -> str:
    return "".join(" " + form.format(number) for number in numbers)
