"""Calls of the program."""
import ctypes
import os
import resource
import signal
import subprocess
from typing import Callable, List, NamedTuple, Optional

PR_CAPBSET_DROP = 24
CAP_DAC_OVERRIDE, CAP_DAC_READ_SEARCH = 1, 2
FULL = "/dev/full"
MOST_OPEN = 64


class Outcome(NamedTuple):
    """What a call returned and printed. The status is -N if signal N ended it."""

    status: int
    stdout: bytes
    stderr: bytes


class Streams(NamedTuple):
    """The standard streams of a call. An output that is `read` is a pipe; others are `closed`, `full`, which is a device
    without room, or `gone`, which is a pipe without a reader. Without privileges modes of files are enforced, for root too."""

    stdin: bytes = b""
    has_stdin: bool = True
    stdout: str = "read"
    stderr: str = "read"
    is_unprivileged: bool = False


class Hang(Exception):
    """A call did not end in time."""


class Program:
    """The program, and how long a call of it may take."""

    def __init__(self, path: str, seconds: float):
        self.path = os.path.abspath(path)
        self.seconds = seconds
        self.calls = 0
        self.environment = dict(os.environ, LC_ALL="C")

    def call(self, words: List[bytes], folder: str, streams: Streams = Streams()) -> Outcome:
        """Calls the program in a folder with these arguments."""
        self.calls += 1
        open_ends: List[int] = []
        try:
            process = subprocess.Popen(
                [os.fsencode(self.path)] + words,
                cwd=folder,
                env=self.environment,
                stdin=subprocess.PIPE if streams.stdin else subprocess.DEVNULL,
                stdout=target(streams.stdout, open_ends),
                stderr=target(streams.stderr, open_ends),
                preexec_fn=preparation(streams),
                start_new_session=True,
            )
        except subprocess.SubprocessError as error:
            raise OSError(f"the process could not be prepared: {error}") from None
        finally:
            for end in open_ends:
                os.close(end)
        try:
            stdout, stderr = process.communicate(streams.stdin or None, self.seconds)
        except subprocess.TimeoutExpired:
            os.killpg(process.pid, signal.SIGKILL)
            process.communicate()
            raise Hang(f"it did not end in {self.seconds:g} seconds") from None
        return Outcome(process.returncode, stdout or b"", stderr or b"")


def target(stream: str, open_ends: List[int]) -> int:
    """Returns the output of a process for a stream, and adds what is to be closed once the process has begun."""
    if stream == "full":
        open_ends.append(os.open(FULL, os.O_WRONLY))
        return open_ends[-1]
    if stream == "gone":
        reader, writer = os.pipe()
        os.close(reader)
        open_ends.append(writer)
        return writer
    return subprocess.PIPE


def preparation(streams: Streams) -> Optional[Callable[[], None]]:
    """Returns what is done in the process before the program is executed, or None."""
    closed = [number for number, is_closed in enumerate(
        (not streams.has_stdin, streams.stdout == "closed", streams.stderr == "closed")) if is_closed]
    drops = streams.is_unprivileged and os.geteuid() == 0
    if not closed and not drops:
        return None

    def prepare() -> None:
        if drops:
            drop_overrides()
        for number in closed:
            os.close(number)

    return prepare


def drop_overrides() -> None:
    """Drops the capabilities by which root reads and writes files whatever their modes."""
    libc = ctypes.CDLL(None, use_errno=True)
    for capability in (CAP_DAC_OVERRIDE, CAP_DAC_READ_SEARCH):
        if libc.prctl(PR_CAPBSET_DROP, capability, 0, 0, 0):
            raise OSError(ctypes.get_errno(), "root cannot drop its capabilities")


def set_limits() -> None:
    """Lets no call leave a core file, or have many files open at a time."""
    for limit, most in ((resource.RLIMIT_CORE, 0), (resource.RLIMIT_NOFILE, MOST_OPEN)):
        resource.setrlimit(limit, (most, resource.getrlimit(limit)[1]))
