"""libdexkit by ctypes: checks, normalises, merges, strips, counts, lists and repairs DEX 035 files that lie in memory.

    import dexkit

    library = dexkit.Library()
    try:
        app = library.merge([first, second], strip=True)
    except dexkit.Conflict as why:
        print(why)                               # conflict La/B;

A call that refuses what it is given raises a subclass of `Refused`. A wrong cap, fan or list of files raises
`ValueError`, and a failed allocation `MemoryError`. ctypes gives up the interpreter's lock during a call, so threads
run calls at once.
"""
import ctypes
from dataclasses import astuple, dataclass
from typing import Any, Callable, List, NamedTuple, Optional, Sequence

__all__ = ["CapExceeded", "Caps", "ClassDigest", "Conflict", "Counts", "Cycle", "FileRefused", "Library", "Refused"]

ABI = 1
STRIP = 1
OK, REFUSED, USAGE, DEVICE, NO_MEMORY = range(5)


class Refused(Exception):
    """A file or a union is refused; its text is what the program prints of it."""


class FileRefused(Refused):
    """A file does not meet condition `number`, which is called `name`, at `place`. Files are counted from 0."""

    def __init__(self, file: int, number: int, name: str, place: int) -> None:
        super().__init__(f"refused {number} {name} at {place}")
        self.file, self.number, self.name, self.place = file, number, name, place


class Conflict(Refused):
    """A class has two different definitions."""


class Cycle(Refused):
    """A class is above itself, or below such a class."""


class CapExceeded(Refused):
    """The union exceeds a cap."""


@dataclass(frozen=True)
class Caps:
    """The most that a union may hold; these are the greatest caps."""

    types: int = 65535
    protos: int = 65535
    fields: int = 65536
    methods: int = 65536
    short_strings: int = 65536
    weight: int = 1 << 30


class Counts(NamedTuple):
    """What a union holds."""

    types: int
    protos: int
    fields: int
    methods: int
    short_strings: int
    weight: int
    classes: int
    strings: int


class ClassDigest(NamedTuple):
    """The digest of a class, and its name as the program prints it."""

    sha1: bytes
    name: str


class _Bytes(ctypes.Structure):
    _fields_ = [("bytes", ctypes.c_char_p), ("len", ctypes.c_size_t)]


class _Buffer(ctypes.Structure):
    _fields_ = [("bytes", ctypes.c_void_p), ("len", ctypes.c_size_t)]


class _Fault(ctypes.Structure):
    _fields_ = [
        ("kind", ctypes.c_uint32),
        ("number", ctypes.c_uint32),
        ("place", ctypes.c_uint32),
        ("reserved", ctypes.c_uint32),
        ("input", ctypes.c_size_t),
        ("text", ctypes.c_char_p),
    ]


class _Caps(ctypes.Structure):
    _fields_ = [(name, ctypes.c_uint32) for name in Caps.__dataclass_fields__]


class _Counts(ctypes.Structure):
    _fields_ = [(name, ctypes.c_uint64 if name == "weight" else ctypes.c_size_t) for name in Counts._fields]


class _Name(ctypes.Structure):
    _fields_ = [("text", ctypes.c_char * 16)]


_EACH = ctypes.CFUNCTYPE(
    ctypes.c_int, ctypes.c_void_p, ctypes.POINTER(ctypes.c_uint8 * 20), ctypes.c_char_p, ctypes.c_size_t
)

_FILE = [ctypes.c_char_p, ctypes.c_size_t]
_FILES = [ctypes.POINTER(_Bytes), ctypes.c_size_t]
_OUT = [ctypes.POINTER(_Buffer), ctypes.POINTER(_Fault)]
_PARAMETERS = {
    "dexkit_check": _FILE + [ctypes.POINTER(ctypes.c_size_t), ctypes.POINTER(_Fault)],
    "dexkit_normalise": _FILE + _OUT,
    "dexkit_repair": _FILE + _OUT,
    "dexkit_dump": _FILE + _OUT,
    "dexkit_merge": _FILES + [ctypes.POINTER(_Caps), ctypes.c_size_t, ctypes.c_uint32] + _OUT,
    "dexkit_count": _FILES + [ctypes.POINTER(_Counts), ctypes.POINTER(_Fault)],
    "dexkit_digests": _FILE + [_EACH, ctypes.c_void_p, ctypes.POINTER(_Fault)],
    "dexkit_buffer_free": [ctypes.POINTER(_Buffer)],
    "dexkit_fault_free": [ctypes.POINTER(_Fault)],
}


def _array(files: Sequence[bytes]) -> Any:
    return (_Bytes * len(files))(*[_Bytes(file, len(file)) for file in files])


class Library:
    """The library. Its calls take and return the bytes of files."""

    def __init__(self, path: str = "libdexkit.so.1") -> None:
        self._library = ctypes.CDLL(path)
        self._library.dexkit_abi.restype = ctypes.c_uint32
        self._library.dexkit_version.restype = ctypes.c_char_p
        self._library.dexkit_condition.restype = _Name
        self._library.dexkit_condition.argtypes = [ctypes.c_uint32]
        for name, parameters in _PARAMETERS.items():
            getattr(self._library, name).argtypes = parameters
        if self.abi != ABI:
            raise OSError(f"{path} has the ABI {self.abi}, and not {ABI}")

    @property
    def abi(self) -> int:
        return self._library.dexkit_abi()

    @property
    def version(self) -> str:
        return self._library.dexkit_version().decode()

    def condition(self, number: int) -> str:
        """The name of condition 1 to 23, or nothing."""
        return self._library.dexkit_condition(number).text.decode()

    def check(self, file: bytes) -> int:
        """The number of a file's classes, if it is accepted."""
        classes, fault = ctypes.c_size_t(), _Fault()
        self._end(self._library.dexkit_check(file, len(file), classes, fault), fault)
        return classes.value

    def normalise(self, file: bytes) -> bytes:
        """The canonical file of what a file holds."""
        return self._made(self._library.dexkit_normalise, file, len(file))

    def repair(self, file: bytes) -> bytes:
        """The file with its checksum and signature set right, if it is accepted then."""
        return self._made(self._library.dexkit_repair, file, len(file))

    def dump(self, file: bytes) -> str:
        """The listing of a file."""
        return self._made(self._library.dexkit_dump, file, len(file)).decode()

    def merge(
        self, files: Sequence[bytes], *, caps: Optional[Caps] = None, fan: int = 0, strip: bool = False
    ) -> bytes:
        """The canonical file of the union of files."""
        numbers = _Caps(*astuple(caps)) if caps else None
        return self._made(self._library.dexkit_merge, _array(files), len(files), numbers, fan, STRIP if strip else 0)

    def count(self, files: Sequence[bytes]) -> Counts:
        """What the union of files holds."""
        counts, fault = _Counts(), _Fault()
        self._end(self._library.dexkit_count(_array(files), len(files), counts, fault), fault)
        return Counts(*[getattr(counts, name) for name in Counts._fields])

    def digests(self, file: bytes) -> List[ClassDigest]:
        """The digest of each class of a file, in the order of a canonical file."""
        found: List[ClassDigest] = []

        def each(_context: Any, sha1: Any, name: bytes, _len: int) -> int:
            found.append(ClassDigest(bytes(sha1.contents), name.decode()))
            return 0

        fault = _Fault()
        self._end(self._library.dexkit_digests(file, len(file), _EACH(each), None, fault), fault)
        return found

    def _made(self, call: Callable[..., int], *words: Any) -> bytes:
        out, fault = _Buffer(), _Fault()
        self._end(call(*words, out, fault), fault)
        try:
            return ctypes.string_at(out.bytes, out.len) if out.len else b""
        finally:
            self._library.dexkit_buffer_free(out)

    def _end(self, status: int, fault: _Fault) -> None:
        """Raises what a status and a fault stand for, and frees the fault's text."""
        text = (fault.text or b"refused").decode()
        self._library.dexkit_fault_free(fault)
        if status == NO_MEMORY:
            raise MemoryError
        if status == USAGE:
            raise ValueError("no file, a cap above the greatest, or a fan of 1")
        if status == REFUSED and fault.kind == 1:
            raise FileRefused(fault.input, fault.number, self.condition(fault.number), fault.place)
        if status == REFUSED:
            raise {2: Conflict, 3: Cycle, 4: CapExceeded}[fault.kind](text)
