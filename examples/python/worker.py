#!/usr/bin/env python3
"""The worker of ../c/worker.c, by dexkit.py: a request a line, an answer a line.

    worker.py [LIBRARY]
"""
import sys
from typing import List, Tuple

from dexkit import Caps, Counts, FileRefused, Library, Refused


def load(name: str) -> bytes:
    with open(name, "rb") as file:
        return file.read()


def store(name: str, data: bytes) -> Tuple[int, str]:
    try:
        with open(name, "wb") as file:
            file.write(data)
    except OSError:
        return 3, f"dexkit: {name}: cannot be written"
    return 0, ""


def count_lines(counts: Counts) -> str:
    caps = Caps()
    lines = [f"{name.replace('_', '-')} {getattr(counts, name)} of {cap}" for name, cap in vars(caps).items()]
    return "\n".join(lines + [f"classes {counts.classes}", f"strings {counts.strings}", ""])


def digest_lines(library: Library, name: str, file: bytes) -> str:
    return "".join(f"{each.sha1.hex()}\t{each.name}\t{name}\n" for each in library.digests(file))


def serve(library: Library, call: str, words: List[str]) -> Tuple[int, str]:
    """The status and the line for a request."""
    one = {"normalise": library.normalise, "repair": library.repair}
    names: List[str] = []
    try:
        if call in ("check", "dump", "digest", *one):
            names = words[:1]
            (file,) = map(load, names)
            if call == "check":
                return 0, f"{names[0]}: ok classes={library.check(file)}"
            if call == "dump":
                return store(words[1], library.dump(file).encode())
            if call == "digest":
                return store(words[1], digest_lines(library, names[0], file).encode())
            return store(words[1], one[call](file))
        if call == "count":
            names = words[1:]
            return store(words[0], count_lines(library.count([load(name) for name in names])).encode())
        if call == "merge":
            out, numbers, fan, flags, *names = words
            caps = None if numbers == "-" else Caps(*map(int, numbers.split(",")))
            files = [load(name) for name in names]
            return store(out, library.merge(files, caps=caps, fan=int(fan), strip=flags == "1"))
        return 2, "dexkit: a bad request"
    except FileRefused as why:
        return 1, f"dexkit: {names[why.file]}: {why}"
    except Refused as why:
        return 1, f"dexkit: {why}"
    except OSError as why:
        return 3, f"dexkit: {why.filename}: cannot be read"
    except MemoryError:
        return 4, "dexkit: out of memory"
    except ValueError:
        return 2, "dexkit: a bad request"


def main() -> None:
    library = Library(*sys.argv[1:])
    for line in sys.stdin:
        call, *words = line.rstrip("\n").split("\t")
        status, text = serve(library, call, words)
        print(f"{status}\t{text}", flush=True)


if __name__ == "__main__":
    main()
