"""The command lines of the lines of index files, as README.md has them."""
import os
import re
from typing import Callable, Dict, Iterator, List, NamedTuple, Optional, Tuple, Union

from suite.calls import Outcome
from suite.sources import Sources
from suite.text import DataFault

CONDITIONS = (
    "Size Magic Version Lengths Endian Link Checksum Signature Layout Map Strings Types Protos Fields Methods Classes "
    "Members Code Tries Debug Values Annotations Weight"
).split()
KINDS = (
    "check checkrun cuts weight class slices normalise strip dump merge mergestrip regroup measure countrun digestrun "
    "digeststrip repairrun symbol join"
).split()
GREATEST = [65535, 65535, 65536, 65536, 65536, 1073741824]
CAPS = ["types", "protos", "fields", "methods", "short-strings", "weight"]
COUNTED = CAPS + ["classes", "strings"]
SHORT_STRINGS = 4
# A file that weighs more would be held in memory by `count`.
MOST_WEIGHT = 1 << 26
OUT = b"OUT"
Plan = Union[int, List["Plan"]]


class Line(NamedTuple):
    """A line of an index, and the folder from which its files are named."""

    folder: str
    path: str
    number: int
    kind: str
    rest: str

    def __str__(self) -> str:
        return f"{self.path}:{self.number}: {self.kind} {self.rest}"


class Ask(NamedTuple):
    """A command line, and its expected outcomes, any one of which is right; each with the bytes of OUT, or None if it is not
    made. If `part` is given, a part of standard output is compared, see `part_of`."""

    words: List[bytes]
    expected: List[Tuple[Outcome, Optional[bytes]]]
    part: str = ""


class Unsaid(Exception):
    """No command line asks what this line does."""


def lines_of(data: str, path: str) -> List[Line]:
    """Returns the lines of an index, and raises DataFault at one of no kind and at one that is written twice."""
    lines: List[Line] = []
    seen: Dict[str, int] = {}
    try:
        with open(os.path.join(data, path), encoding="ascii") as file:
            texts = file.read().split("\n")
    except (OSError, UnicodeDecodeError) as error:
        raise DataFault(path, 0, str(error)) from None
    for number, text in enumerate(texts, 1):
        if not text or text.startswith("#"):
            continue
        kind, _, rest = text.partition(" ")
        if kind not in KINDS:
            raise DataFault(path, number, f"`{kind}` is no kind of line")
        if text in seen:
            raise DataFault(path, number, f"the same as line {seen[text]}")
        seen[text] = number
        lines.append(Line(os.path.dirname(path), path, number, kind, rest))
    return lines


NUMBER = r"(?:0|[1-9]\d*)"
# Of the conditions before this one, the first that fails is reported.
FIRST_OF_ANY = 17


def refusal(text: str) -> str:
    """Returns `NUMBER NAME at PLACE` for a number and a place."""
    if not re.fullmatch(f"{NUMBER} {NUMBER}", text):
        raise ValueError(f"`{text}` is no number and place")
    number, place = text.split()
    if not 1 <= int(number) <= len(CONDITIONS):
        raise ValueError(f"there is no condition {number}")
    return f"{number} {CONDITIONS[int(number) - 1]} at {place}"


def verdicts(rest: str) -> List[str]:
    """Returns what `check` may print after `FILE: `, for what a line says after FILE."""
    if re.fullmatch(f"ok {NUMBER}", rest):
        return [f"ok classes={rest[3:]}"]
    if not rest.startswith("refused "):
        raise ValueError("neither `ok` and a number nor `refused`")
    each = rest[8:].split(" | ")
    if len(each) > 1 and any(int(one.split(" ")[0]) < FIRST_OF_ANY for one in each):
        raise ValueError("only of conditions 17 to 23 any that fails may be reported")
    return ["refused " + refusal(one) for one in each]


def done(stdout: bytes = b"", out: Optional[bytes] = None) -> List[Tuple[Outcome, Optional[bytes]]]:
    """Returns the expected outcomes of a run that prints and writes this, and ends with 0."""
    return [(Outcome(0, stdout, b""), out)]


def faults(causes: str, files: List[str]) -> List[Tuple[Outcome, Optional[bytes]]]:
    """Returns the expected outcomes of a run that is refused for any one of these causes."""
    return [(Outcome(1, b"", f"dexkit: {fault(cause, files)}\n".encode()), None) for cause in causes.split(" | ")]


def fault(cause: str, files: List[str]) -> str:
    """Returns what is printed of a cause after `dexkit: `."""
    kind, _, rest = cause.partition(" ")
    match = re.fullmatch(f"({NUMBER}) refused (.*)", rest)
    if kind == "input" and match:
        return f"{files[int(match.group(1))]}: refused {refusal(match.group(2))}"
    if kind in ("conflict", "cycle") and rest or kind == "cap" and rest in CAPS:
        return cause
    raise ValueError(f"`{cause}` is no cause")


class Asks:
    """Makes command lines of lines of an index."""

    def __init__(self, sources: Sources):
        self.sources = sources
        # What is called with a line, its first word and the rest.
        self.kinds: Dict[str, Callable[[Line, str, str], Iterator[Ask]]] = {
            "checkrun": self.checkrun,
            "class": self.class_line,
            "countrun": self.measure,
            "digestrun": self.digestrun,
            "digeststrip": self.digeststrip,
            "dump": self.dump,
            "measure": self.measure,
            "merge": self.merge,
            "mergestrip": self.mergestrip,
            "normalise": self.normalise,
            "regroup": self.regroup,
            "repairrun": self.repairrun,
            "slices": self.slices,
            "strip": self.strip,
            "weight": self.weight,
        }

    def file(self, line: Line, name: str) -> bytes:
        return self.sources.file(os.path.normpath(os.path.join(line.folder, name)).encode())

    def of(self, line: Line) -> List[Ask]:
        """Returns the command lines of a line that is run alone. Raises Unsaid if there are none, and DataFault if the line
        is broken."""
        if line.kind not in self.kinds:
            raise Unsaid("of calls that no command makes alone")
        try:
            first, _, rest = line.rest.partition(" ")
            return list(self.kinds[line.kind](line, first, rest))
        except (ValueError, IndexError) as error:
            raise DataFault(line.path, line.number, str(error)) from None

    def checkrun(self, line: Line, name: str, rest: str) -> Iterator[Ask]:
        status, text = rest.split(" ", 1)
        self.file(line, name)
        yield Ask([b"check", name.encode()], [(Outcome(int(status), text.encode() + b"\n", b""), None)])

    def dump(self, line: Line, name: str, listing: str) -> Iterator[Ask]:
        yield Ask([b"dump", name.encode()], done(self.file(line, listing)))

    def normalise(self, line: Line, name: str, canon: str) -> Iterator[Ask]:
        yield Ask([b"normalise", name.encode(), OUT], done(out=self.file(line, canon)))

    def slices(self, line: Line, name: str, rest: str) -> Iterator[Ask]:
        _most, _count, canon = rest.split()
        yield from self.normalise(line, name, canon)

    def strip(self, line: Line, name: str, canon: str) -> Iterator[Ask]:
        yield Ask([b"merge", b"--strip", b"-o", OUT, name.encode()], done(out=self.file(line, canon)))

    def repairrun(self, line: Line, name: str, rest: str) -> Iterator[Ask]:
        self.file(line, name)
        kind, right = rest.split(" ", 1)
        expected = done(out=self.file(line, right)) if kind == "ok" else faults(fault_words(rest), [name])
        yield Ask([b"repair", name.encode(), OUT], expected)

    def digestrun(self, line: Line, name: str, rest: str) -> Iterator[Ask]:
        yield from self.digested(line, [], name, rest)

    def digeststrip(self, line: Line, name: str, rest: str) -> Iterator[Ask]:
        yield from self.digested(line, [b"--strip"], name, rest)

    def digested(self, line: Line, options: List[bytes], name: str, rest: str) -> Iterator[Ask]:
        self.file(line, name)
        words = [b"digest"] + options + [name.encode()]
        if not rest.startswith("ok "):
            yield Ask(words, faults(fault_words(rest), [name]))
            return
        cells = [] if rest == "ok -" else rest[3:].split("\t")
        if len(cells) % 2:
            raise ValueError("a digest without a class")
        yield Ask(words, done("".join(
            f"{digest}\t{text}\t{name}\n" for digest, text in zip(cells[::2], cells[1::2])).encode()))

    def weight(self, line: Line, name: str, weight: str) -> Iterator[Ask]:
        self.file(line, name)
        if not re.fullmatch(NUMBER, weight):
            raise ValueError(f"`{weight}` is no weight")
        if int(weight) > MOST_WEIGHT:
            raise Unsaid("a file that takes a gigabyte of memory")
        yield Ask([b"count", name.encode()], done(f"weight {weight} of 1073741824\n".encode()), "weight ")

    def class_line(self, line: Line, name: str, rest: str) -> Iterator[Ask]:
        row, text, superclass = rest.split(" ")
        self.file(line, name)
        yield Ask([b"dump", name.encode()], done(f"{row} {text} super={superclass}\n".encode()), "class ")

    def measure(self, line: Line, word: str, rest: str) -> Iterator[Ask]:
        names, right = rest.split(" is ", 1)
        files = self.files(line, word, names)
        if re.fullmatch(f"{NUMBER}( {NUMBER}){{7}}", right):
            greatest = [f" of {most}" for most in GREATEST] + ["", ""]
            expected = done("".join(f"{kind} {count}{most}\n" for kind, count, most in zip(COUNTED, right.split(), greatest)).encode())
            alone = done("\t".join(right.split() + files).encode() + b"\n")
        else:
            expected = alone = faults(right, files)
        yield Ask([b"count"] + [name.encode() for name in files], expected)
        if len(files) == 1:
            yield Ask([b"count", b"--each", files[0].encode()], alone)

    def files(self, line: Line, word: str, names: str) -> List[str]:
        """Returns the names of files after the word `files`."""
        if word != "files":
            raise ValueError("no word `files`")
        if names == "-":
            raise Unsaid("no files")
        for name in names.split(" "):
            self.file(line, name)
        return names.split(" ")

    def merge(self, line: Line, plan: str, rest: str) -> Iterator[Ask]:
        yield from self.merged(line, [])

    def mergestrip(self, line: Line, plan: str, rest: str) -> Iterator[Ask]:
        yield from self.merged(line, [b"--strip"])

    def merged(self, line: Line, options: List[bytes]) -> Iterator[Ask]:
        plan_text, rest = line.rest.split(" caps ", 1)
        if rest.endswith(" badplan"):
            raise Unsaid("a bad plan, which the program never makes")
        options, files, expected = self.merge_parts(line, rest, options)
        order, fan = plan_of(plan_text, expected[0][0].status == 0)
        if len(expected) > 1 and not fan:
            raise ValueError("a flat merge has one cause that is right")
        names = [files[number].encode() for number in order]
        yield Ask([b"merge", b"-o", OUT] + fan + options + names, expected)

    def regroup(self, line: Line, rounds: str, rest: str) -> Iterator[Ask]:
        """Some groupings: the files in order; in reverse order and again in order; in reverse order, two at a time."""
        if int(rounds) < 1 or not rest.startswith("caps "):
            raise ValueError("no rounds, or no caps")
        options, files, expected = self.merge_parts(line, rest[5:], [])
        names = [name.encode() for name in files]
        for words in (names, names[::-1] + names, [b"--fan", b"2"] + names[::-1]):
            yield Ask([b"merge", b"--out", OUT] + options + words, expected)

    def merge_parts(self, line: Line, rest: str, options: List[bytes]) -> Tuple[List[bytes], List[str], List]:
        """Returns the options, the files and the expected outcomes of what follows `caps`."""
        caps_text, rest = rest.split(" files ", 1)
        match = re.fullmatch(r"(.*?) (ok (?P<canon>\S+)|fault (?P<causes>.*))", rest)
        if not match:
            raise ValueError("neither ok nor fault")
        files = self.files(line, "files", match.group(1))
        caps = [int(cap) for cap in caps_text.split()]
        causes = match.group("causes")
        if len(caps) != len(CAPS) or any(cap > most for cap, most in zip(caps, GREATEST)):
            raise ValueError("these are no caps")
        if caps[SHORT_STRINGS] != GREATEST[SHORT_STRINGS] and causes and "cap short-strings" in causes:
            raise Unsaid("a cap on short strings, for which there is no option")
        words = [word for kind, cap, most in zip(CAPS, caps, GREATEST) if cap != most and kind != "short-strings"
                 for word in (f"--max-{kind}".encode(), str(cap).encode())]
        expected = faults(causes, files) if causes else done(out=self.file(line, match.group("canon")))
        return options + words, files, expected


def fault_words(rest: str) -> str:
    if not rest.startswith("fault "):
        raise ValueError("neither ok nor fault")
    return rest[6:]


def parsed(text: str) -> Plan:
    """Returns the plan that a text of numbers and brackets denotes."""
    open_lists: List[List[Plan]] = [[]]
    for token in re.findall(r"\d+|[()]|\S", text):
        if token == "(":
            open_lists.append([])
        elif token == ")":
            closed = open_lists.pop()
            open_lists[-1].append(closed)
        else:
            open_lists[-1].append(int(token))
    if len(open_lists) != 1 or len(open_lists[0]) != 1:
        raise ValueError(f"`{text}` is no plan")
    return open_lists[0][0]


def leaves(plan: Plan) -> List[int]:
    return [plan] if isinstance(plan, int) else [leaf for part in plan for leaf in leaves(part)]


def fan_plan(order: List[int], fan: int) -> Plan:
    """Returns the plan of `--fan` over these files."""
    level: List[Plan] = list(order)
    while len(level) > 1:
        level = [level[at : at + fan] for at in range(0, len(level), fan)]
    return level[0]


def plan_of(text: str, is_ok: bool) -> Tuple[List[int], List[bytes]]:
    """Returns the files of a plan in their order, and the option `--fan` that makes it. A plan that none makes is taken as a
    flat one if the merge is not refused, since grouping does not change the bytes."""
    plan = parsed(text)
    order = leaves(plan)
    if plan == order:
        return order, []
    for fan in range(2, max(len(order), 2) + 1):
        if order and fan_plan(order, fan) == plan:
            return order, [b"--fan", str(fan).encode()]
    if is_ok and order:
        return order, []
    raise Unsaid("refused by a plan that no --fan makes: a flat merge may report another cause")


def part_of(ask: Ask, outcome: Outcome) -> Outcome:
    """Returns what is compared of an outcome: all, or with a part the line that begins with it. Of `dump` it is the line of
    the class with the row that is expected, after that row and without its flags."""
    if not ask.part or outcome.status:
        return outcome
    lines = [line for line in outcome.stdout.decode(errors="replace").split("\n") if line.startswith(ask.part)]
    if ask.part == "class ":
        row = int(ask.expected[0][0].stdout.split()[0])
        lines = [re.sub(r"^class (\S+) flags=\S+", rf"{row} \1", line) for line in lines[row : row + 1]]
    return outcome._replace(stdout="".join(line + "\n" for line in lines).encode())
