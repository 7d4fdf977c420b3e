"""The crates of the repository: what each uses, and the files that it's made from."""
import hashlib
import os
import re

TOP = os.path.dirname(os.path.dirname(os.path.realpath(__file__)))
PARTS = ("src", "specs", "proofs")


def crate_lines():
    """The lines of crates.txt by the crate that each is about."""
    with open(f"{TOP}/crates.txt", encoding="utf-8") as it:
        lines = [line.partition("#")[0].strip() for line in it]
    return {line.partition(":")[0].split()[0]: line for line in lines if ":" in line}


def dependencies():
    """The crates of the repository that each of them uses, by its name."""
    lines = crate_lines()
    return {name: [it for it in line.partition(":")[2].split() if it in lines] for name, line in lines.items()}


def lowest_first(uses, names):
    """These crates and all that they stand on, each after those that it uses."""
    found = []

    def visit(name):
        if name not in found:
            for it in uses[name]:
                visit(it)
            found.append(name)

    for name in names:
        visit(name)
    return found


def files_of(folder, parts=PARTS):
    """The paths of a crate's files in these parts of it, sorted."""
    found = []
    for part in parts:
        for place, _, names in os.walk(f"{folder}/{part}"):
            found += [os.path.relpath(f"{place}/{name}", folder) for name in names]
    return sorted(found)


def sum_of(folder):
    """A checksum of a crate's files."""
    made = hashlib.sha256()
    for path in files_of(folder):
        with open(f"{folder}/{path}", "rb") as it:
            made.update(repr((path, it.read())).encode())
    return made.hexdigest()


def has_tests(folder):
    """Whether a crate has functions that are tests."""
    for path in files_of(folder, ("src",)):
        with open(f"{folder}/{path}", encoding="utf-8") as it:
            if re.search(r"#\s*\[\s*test\b", it.read()):
                return True
    return False
