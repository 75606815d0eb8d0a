"""Cases: the files `*.cases` of the data, in the form that README.md describes."""
import os
import re
import shutil
import tempfile
from typing import Dict, Iterator, List, NamedTuple, Optional, Tuple

from suite.calls import Hang, Program, Streams
from suite.sources import Sources
from suite.text import RANGE, DataFault, expanded, unescaped, words

MOST_SHOWN = 160
# What a cell of a table replaces.
COLUMN = re.compile(rb"\$([A-Z]+)")


class Output:
    """What is expected of an output: its bytes, or patterns that are found in it."""

    def __init__(self) -> None:
        self.exact = bytearray()
        self.patterns: List["re.Pattern[bytes]"] = []

    def trouble(self, name: str, got: bytes) -> Optional[str]:
        """Returns what is wrong with these bytes, or None."""
        if not self.patterns:
            return difference(name, bytes(self.exact), got)
        for pattern in self.patterns:
            if not pattern.search(got):
                return f"{name} is not like {pattern.pattern.decode()}: {shown(got)}"
        return None


def shown(some: bytes) -> str:
    """Returns the first of some bytes, to be printed."""
    dots = f".. ({len(some)} bytes)" if len(some) > MOST_SHOWN else ""
    return repr(some[:MOST_SHOWN])[1:] + dots


def difference(name: str, right: bytes, got: bytes) -> Optional[str]:
    """Returns how bytes differ from those that are expected, or None."""
    if right == got:
        return None
    at = next((i for i, (a, b) in enumerate(zip(right, got)) if a != b), min(len(right), len(got)))
    begin = max(right.rfind(b"\n", 0, at) + 1, at - 40)
    return (
        f"{name} has {len(got)} bytes, not {len(right)}, and at {at} (from {begin} on) "
        f"{shown(got[begin:])}, not {shown(right[begin:])}"
    )


class Case:
    """A command line, the files that are there before, and what is expected."""

    def __init__(self, path: str, line: int, title: bytes):
        self.path, self.line, self.title = path, line, title
        self.lines: List[bytes] = []
        self.words: Optional[List[bytes]] = None
        self.files: Dict[bytes, bytes] = {}
        self.folders: List[bytes] = []
        self.modes: List[Tuple[bytes, int]] = []
        self.streams = Streams()
        self.status: Optional[int] = None
        self.outputs = {b"stdout": Output(), b"stderr": Output()}
        self.written: Dict[bytes, bytes] = {}

    def __str__(self) -> str:
        return f"{self.path}:{self.line}: {self.title.decode()}"

    def text(self) -> bytes:
        return b"\n".join([self.title] + self.lines)


class Reader:
    """Reads a file of cases."""

    def __init__(self, path: str, sources: Sources):
        self.path, self.sources, self.line = path, sources, 0

    def cases(self) -> Iterator[Case]:
        """Returns the cases of the file, in order, and raises DataFault at a broken line."""
        block: List[Tuple[int, bytes]] = []
        for number, line in enumerate(self.lines(self.path), 1):
            if line.startswith(b"case ") and block:
                yield from self.of_block(block)
                block = []
            if line and not line.startswith(b"#"):
                block.append((number, line))
        if block:
            yield from self.of_block(block)

    def lines(self, path: str) -> List[bytes]:
        try:
            with open(path, "rb") as file:
                return [line.rstrip() for line in file.read().split(b"\n")]
        except OSError as error:
            raise DataFault(self.path, self.line, f"{os.path.basename(path)}: {error.strerror}") from None

    def of_block(self, block: List[Tuple[int, bytes]]) -> Iterator[Case]:
        """Returns the case of some lines; with a table, one for each of its rows."""
        tables = [(number, line[6:]) for number, line in block if line.startswith(b"table ")]
        if not tables:
            yield self.case(block)
            return
        self.line = tables[0][0]
        if len(tables) > 1:
            raise DataFault(self.path, tables[1][0], "a second table")
        for row in self.rows(tables[0][1]):
            yield self.case([(number, COLUMN.sub(lambda match: row.get(match.group(1), match.group()), line))
                             for number, line in block if not line.startswith(b"table ")])

    def rows(self, name: bytes) -> List[Dict[bytes, bytes]]:
        """Returns the rows of a table, whose first line has the names of its columns."""
        path = os.path.join(os.path.dirname(self.path), os.fsdecode(name))
        rows: List[Dict[bytes, bytes]] = []
        columns: List[bytes] = []
        for number, line in enumerate(self.lines(path), 1):
            cells = [cell.strip() for cell in line.split(b"|")]
            if not line or line.startswith(b"#"):
                continue
            if columns and len(cells) != len(columns):
                raise DataFault(path, number, f"{len(cells)} columns, not {len(columns)}")
            if not columns:
                columns = cells
            else:
                rows.append(dict(zip(columns, cells)))
        if not rows:
            raise DataFault(path, 0, "a table without rows")
        return rows

    def case(self, block: List[Tuple[int, bytes]]) -> Case:
        """Returns the case of some lines."""
        first, title = block[0]
        if not title.startswith(b"case "):
            raise DataFault(self.path, first, "a line before the first `case`")
        case = Case(os.path.basename(self.path), first, title[5:])
        for self.line, line in block[1:]:
            case.lines.append(line)
            kind, _, rest = line.partition(b" ")
            try:
                unknown = COLUMN.search(line)
                if unknown:
                    raise ValueError(f"`{unknown.group().decode()}` is no column")
                self.add(case, kind, rest)
            except (ValueError, IndexError, re.error) as error:
                raise DataFault(self.path, self.line, str(error)) from None
        if case.words is None or case.status is None:
            raise DataFault(self.path, first, "a case has a line `run` and a line `status`")
        return case

    def add(self, case: Case, kind: bytes, rest: bytes) -> None:
        """Adds a line to a case."""
        stream, _, form = kind.partition(b"-")
        if kind == b"run":
            if case.words is not None:
                raise ValueError("a second line `run`")
            case.words = words(rest)
        elif kind == b"files":
            for name in words(rest):
                add_new(case.files, name.rpartition(b"/")[2], self.sources.file(name))
        elif kind == b"file":
            for name, source in self.named(rest):
                add_new(case.files, name, source)
        elif kind == b"folder":
            case.folders += words(rest)
        elif kind == b"mode":
            name, mode = rest.split()
            case.modes.append((unescaped(name), int(mode, 8)))
        elif kind == b"stdin":
            is_closed = rest == b"closed"
            case.streams = case.streams._replace(
                stdin=b"" if is_closed else self.sources.bytes(rest), has_stdin=not is_closed)
        elif kind == b"to":
            name, where = rest.decode().split()
            if name not in ("stdout", "stderr") or where not in ("full", "gone", "closed"):
                raise ValueError("`to` has stdout or stderr, and full, gone or closed")
            case.streams = case.streams._replace(**{name: where})
        elif kind == b"unprivileged" and not rest:
            case.streams = case.streams._replace(is_unprivileged=True)
        elif kind == b"status":
            if case.status is not None:
                raise ValueError("a second line `status`")
            case.status = int(rest)
        elif stream in case.outputs:
            self.add_output(case.outputs[stream], form, rest)
        elif kind == b"made":
            for name, source in self.named(rest):
                add_new(case.written, name, source)
        elif kind in (b"untouched", b"absent"):
            if any((name in case.files) != (kind == b"untouched") for name in words(rest)):
                raise ValueError("only a file that a line before names is untouched, and only one that none names is absent")
        else:
            raise ValueError(f"`{kind.decode(errors='replace')}` begins no line of a case")

    def named(self, rest: bytes) -> Iterator[Tuple[bytes, bytes]]:
        """Returns the names and bytes of `NAME = SOURCE`."""
        name, equals, source = rest.partition(b" = ")
        if not equals:
            raise ValueError("it is `NAME = SOURCE`")
        for one in expanded(rest) if RANGE.search(name) else [rest]:
            name, _, source = one.partition(b" = ")
            yield unescaped(name), self.sources.bytes(source)

    def add_output(self, output: Output, form: bytes, rest: bytes) -> None:
        if bool(output.patterns) != (form in (b"like", b"has")) and (output.patterns or output.exact):
            raise ValueError("an output is exact, or like something")
        if form == b"":
            output.exact += b"".join(unescaped(one) + b"\n" for one in expanded(rest))
        elif form == b"is":
            output.exact += b"".join(self.sources.bytes(one) for one in expanded(rest))
        elif form == b"like":
            output.patterns.append(re.compile(rb"\A(?:" + rest + rb")\Z", re.DOTALL))
        elif form == b"has":
            output.patterns.append(re.compile(re.escape(unescaped(rest))))
        else:
            raise ValueError("an output is followed by nothing, -is, -like or -has")


def add_new(files: Dict[bytes, bytes], name: bytes, some: bytes) -> None:
    if name in files:
        raise ValueError(f"{name.decode(errors='replace')} twice")
    files[name] = some


class Run(NamedTuple):
    """The program, and a folder for what is made for the cases."""

    program: Program
    scratch: str

    def trouble(self, case: Case) -> Optional[str]:
        """Runs a case, and returns what is wrong, or None."""
        folder = os.fsencode(tempfile.mkdtemp(dir=self.scratch))
        try:
            return self.trouble_in(case, folder)
        except Hang as hang:
            return str(hang)
        except OSError as error:
            return f"it cannot be run: {error}"
        finally:
            for name, _ in case.modes:
                if os.path.exists(os.path.join(folder, name)):
                    os.chmod(os.path.join(folder, name), 0o700)
            shutil.rmtree(folder)

    def trouble_in(self, case: Case, folder: bytes) -> Optional[str]:
        for name in case.folders:
            os.makedirs(os.path.join(folder, name))
        for name, some in case.files.items():
            with open(os.path.join(folder, name), "wb") as file:
                file.write(some)
        for name, mode in case.modes:
            os.chmod(os.path.join(folder, name), mode)
        assert case.words is not None
        outcome = self.program.call(case.words, os.fsdecode(folder), case.streams)
        for name, mode in case.modes:
            os.chmod(os.path.join(folder, name), mode | 0o700)
        troubles = [] if outcome.status == case.status else [f"status {outcome.status}, not {case.status}"]
        troubles += [
            case.outputs[b"stdout"].trouble("standard output", outcome.stdout),
            case.outputs[b"stderr"].trouble("standard error", outcome.stderr),
            folder_trouble(folder, {**case.files, **case.written}),
        ]
        return "; ".join(each for each in troubles if each) or None


def folder_trouble(folder: bytes, right: Dict[bytes, bytes]) -> Optional[str]:
    """Returns how the files of a folder differ from those that are expected, or None."""
    found = set()
    for at, _, names in os.walk(folder):
        for name in names:
            path = os.path.join(at, name)
            relative = os.path.relpath(path, folder)
            found.add(relative)
            if relative not in right:
                return f"{os.fsdecode(relative)} was made"
            with open(path, "rb") as file:
                trouble = difference(os.fsdecode(relative), right[relative], file.read())
            if trouble:
                return trouble
    missing = set(right) - found
    return f"{os.fsdecode(min(missing))} was not made" if missing else None
