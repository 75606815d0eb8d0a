"""Reads sources of Rattle: what is code in them, and where blocks, arms and functions begin and end."""
import re
from typing import Iterator, List, NamedTuple, Tuple

# A text in quotes, a character or a comment. A lifetime has no second quote.
NO_CODE = re.compile(r'"(?:[^"\\]|\\.)*"|\'(?:[^\'\\\n]|\\(?:x[0-9a-f]{2}|u\{[0-9a-f]+\}|.))\'|//[^\n]*', re.S | re.I)
OWNER = re.compile(r"^[ \t]*(?:pub(?:\([^)]*\))? )?(?:impl\b|trait \w)", re.M)
FUNCTION = re.compile(r'^[ \t]*(pub(?:\([^)]*\))? )?(?:const |extern +(?:"C")? *)?fn (\w+)', re.M)
# What is after a brace that ends a part of a pattern, and not the arm before it.
PATTERN_GOES_ON = re.compile(r"\s*(?:\||if\b|$)")
CLAUSE = re.compile(r"\s*(requires|ensures)\b\s*([^{]*?)\s*(?=\{)")


class Clause(NamedTuple):
    """A clause: `requires` or `ensures`, what is before its text, such as its name, and its text."""

    kind: str
    name: str
    text: str


class Function(NamedTuple):
    """A function: the head of its `impl` or trait, its visibility, name, signature and clauses, and where its body is."""

    owner: str
    visibility: str
    name: str
    signature: str
    clauses: List[Clause]
    start: int
    body: Tuple[int, int]


def words(text: str) -> str:
    return " ".join(text.split())


def without_comments(text: str) -> str:
    """Returns a source of the same length, with blanks for its comments."""
    return NO_CODE.sub(lambda it: re.sub(r"[^\n]", " ", it[0]) if it[0].startswith("//") else it[0], text)


def code_of(text: str) -> str:
    """Returns a source of the same length, with blanks for its comments, texts and characters."""
    return NO_CODE.sub(lambda it: re.sub(r"[^\n]", " ", it[0]), text)


def block_end(code: str, start: int) -> int:
    """Returns the place after the brace that closes the one at a place."""
    depth = 0
    for brace in re.compile(r"[{}]").finditer(code, start):
        depth += 1 if brace[0] == "{" else -1
        if depth == 0:
            return brace.end()
    return len(code)


def ends_at(code: str, start: int, closers: str) -> int:
    """Returns the first place from a place on, outside of all brackets that open from there on, that has one of the closers."""
    depth = 0
    for at in range(start, len(code)):
        if depth == 0 and code[at] in closers:
            return at
        depth += (code[at] in "([{") - (code[at] in ")]}")
    return len(code)


def owners(code: str) -> Iterator[Tuple[int, int, str]]:
    """Yields where the block of each `impl` and trait begins and ends, and its head without lifetimes and bounds."""
    for found in OWNER.finditer(code):
        start = ends_at(code, found.start(), "{;")
        head = words(code[found.start() : start].split(" where ")[0])
        head = re.sub(r"^pub(\([^)]*\))? ", "", re.sub(r"'\w+\s*,?\s*|<\s*>", "", head))
        yield start, block_end(code, start), head


def signature_end(code: str, start: int) -> int:
    """Returns where the signature that begins at a place ends: at a clause, at the body or at a semicolon."""
    end = ends_at(code, start, "{;")
    clause = re.compile(r"\n\s*(?:requires|ensures)\b").search(code, start, end)
    return clause.start() if clause else end


def functions(text: str) -> Iterator[Function]:
    """Yields each function of a source, in order. One without a body has an empty one."""
    code, plain = code_of(text), without_comments(text)
    inside = list(owners(code))
    for found in FUNCTION.finditer(code):
        owner = next((head for start, end, head in inside if start < found.start() < end), "")
        stop = signature_end(code, found.start())
        signature, at, clauses = words(plain[found.start() : stop]), stop, []
        while clause := CLAUSE.match(code, at):
            at = block_end(code, clause.end())
            clauses.append(Clause(clause[1], words(clause[2]), words(plain[clause.end() : at])))
        body = ends_at(code, at, "{;")
        end = block_end(code, body) if code[body : body + 1] == "{" else body
        yield Function(owner, (found[1] or "").strip(), found[2], signature, clauses, found.start(), (body, end))


def arm_start(code: str, arrow: int) -> int:
    """Returns where the arm begins whose `=>` is at a place: after the arm or the brace before it."""
    depth = 0
    for at in range(arrow - 1, -1, -1):
        is_end_of_arm = code[at] == "}" and not PATTERN_GOES_ON.match(code, at + 1, arrow)
        if depth == 0 and (code[at] in "{([," or is_end_of_arm):
            return at + 1
        depth += (code[at] in ")]}") - (code[at] in "([{")
    return 0


def arms(code: str) -> Iterator[Tuple[int, int, int]]:
    """Yields of each arm of a match where its pattern and its value begin, and where this ends."""
    for arrow in re.finditer(r"=>(?=\s*(\{?))", code):
        end = block_end(code, arrow.start(1)) if arrow[1] else ends_at(code, arrow.end(), ",)]}")
        yield arm_start(code, arrow.start()), arrow.end(), end
