"""The files of the repository, for scripts that read them all. It asks git for nothing, so a copy without it will do."""
import os

TOP = os.path.dirname(os.path.dirname(os.path.abspath(__file__)))


def ignored():
    """Returns the names of the folders that .gitignore leaves out, as each of its lines must."""
    with open(os.path.join(TOP, ".gitignore"), encoding="utf-8") as file:
        lines = file.read().splitlines()
    if not all(line.endswith("/") and "*" not in line for line in lines):
        raise ValueError(".gitignore: a line is not the name of a folder, followed by /")
    return {line.strip("/") for line in lines}


def files():
    """Returns the paths of all files from the top, in their order, but those that .gitignore leaves out."""
    without, found = ignored() | {".git"}, []
    for at, folders, names in os.walk(TOP):
        folders[:] = [name for name in folders if name not in without]
        found += [os.path.relpath(os.path.join(at, name), TOP) for name in names if name != ".git"]
    return sorted(found)
