"""Trees of Linux as they are, beside their own `conf`, for tests/compare_projects.

Of each release in RELEASES the source is fetched as Debian's package, and what describes its configurations is unpacked. The
tree's own makefiles build what its conf is made of, to which tests/conf_many.c adds a `main` that reads the tree once for all
configurations of an architecture. That program and `kmin-answer` both run where the tree's Makefile would run conf, with the
compiler of this machine for every architecture: what counts is that both see the same.

Each configuration in arch/ARCHITECTURE/configs is compared by itself, in the parts that tests/linux_files.py describes. What was
compared stays in FOLDER/linux-VERSION.made/ARCHITECTURE, beside the answers of macros."""
import collections
import functools
import glob
import os
import shlex
import shutil
import typing

from linux_files import PARTS, Configuration, conf_symbols, differences, lines_beyond, values_tree
from project_runs import ANSWER, output_of, run
from rows import PROGRAM, TOP, side_by_side, write_file


class Release(typing.NamedTuple):
    """A release of Linux, the language in which `kmin` reads its tree, whether that language writes each implied symbol, and of
    the architectures whose trees stay refused the kind of fault: in mips of 6.1 a choice depends on a member of its own."""

    version: str
    language: str
    writes_implied: bool
    refused: dict


RELEASES = (Release("6.12", "linux-6.12", True, {}), Release("6.1", "linux-6.1", False, {"mips": "Cycle"}))
ARCHITECTURES = ("x86", "arm64", "arm", "riscv", "powerpc", "mips")
# the files that conf and the commands of macros read, and those that build conf
UNPACKED = ("*Kconfig*", "*Makefile*", "*Kbuild*", "*Platform", "scripts/*", "arch/*/configs/*", "arch/*/tools/*")
UNPACK = 'set -o pipefail; dpkg-deb --fsys-tarfile "$1" | tar -xO "$2" | tar -xJ -C "$3" --wildcards "${@:4}"'
BUILD = "$(MAKE) $(build)=scripts/basic scripts/basic/fixdep && $(MAKE) $(build)=scripts/kconfig scripts/kconfig/conf"
VALUES_TREE = "Kconfig.values"
SECONDS = 3600


class Tree(typing.NamedTuple):
    """A release's tree, the folder of what is made over it, and its program of tests/conf_many.c."""

    release: Release
    root: str
    made: str
    conf_many: str


def source(folder, package, to):
    """The folder of a package's tree, fetched and unpacked where that isn't done yet."""
    if not os.path.isdir(to):
        if not glob.glob(f"{folder}/{package}_*.deb"):
            output_of(["apt-get", "download", package], folder, {})
        (archive,) = glob.glob(f"{folder}/{package}_*.deb")
        os.makedirs(f"{to}.part", exist_ok=True)
        patterns = [f"{package}/{pattern}" for pattern in UNPACKED]
        output_of(["bash", "-c", UNPACK, "bash", archive, f"./usr/src/{package}.tar.xz", f"{to}.part", *patterns], folder, {})
        os.rename(f"{to}.part", to)
    return f"{to}/{package}"


def in_makefile(architecture, recipe):
    """The words that run a recipe where the tree's Makefile would run conf for an architecture."""
    return ["make", "-s", "--no-print-directory", f"ARCH={architecture}", "CROSS_COMPILE=", f"--eval=kminconfig:; @{recipe}", "kminconfig"]


def recipe_of(words):
    return shlex.join(words).replace("$", "$$")


def prepared(folder, release):
    """A release's tree, with its program of tests/conf_many.c."""
    root = source(folder, f"linux-source-{release.version}", f"{folder}/linux-{release.version}")
    made = f"{folder}/linux-{release.version}.made"
    os.makedirs(made, exist_ok=True)
    output_of(in_makefile("x86", BUILD), root, {})
    objects = sorted(set(glob.glob("scripts/kconfig/*.o", root_dir=root)) - {"scripts/kconfig/conf.o"})
    words = ["gcc", "-O2", "-Iscripts/kconfig", "-Iscripts/include", f"{TOP}/tests/conf_many.c", *objects, "-o", f"{made}/conf_many"]
    output_of(words, root, {})
    return Tree(release, root, made, f"{made}/conf_many")


def configurations_of(tree, architecture):
    """The configurations of an architecture, with the folders of what is made of them, empty."""
    shutil.rmtree(f"{tree.made}/{architecture}", ignore_errors=True)
    place = f"arch/{architecture}/configs"
    names = sorted(glob.glob("**/*defconfig", root_dir=f"{tree.root}/{place}", recursive=True))
    for folder in {os.path.dirname(name) for name in names}:
        os.makedirs(f"{tree.made}/{architecture}/{folder}", exist_ok=True)
    return [Configuration(name, f"{place}/{name}", f"{tree.made}/{architecture}/{name}") for name in names]


def configure(tree, architecture, pairs):
    """Has conf read the first path of each pair, and make files whose paths begin with the second."""
    words = [tree.conf_many, "Kconfig", *(path for pair in pairs for path in pair)]
    output_of(in_makefile(architecture, recipe_of(words)), tree.root, {}, SECONDS)


def last_line(err):
    return (err.decode(errors="replace").splitlines() or ["no message"])[-1]


def kmin_files(root, words, it):
    """Makes the files of `kmin` for a configuration; returns why it is refused, or an empty text."""
    for part, verb, tree in (("values", "full", VALUES_TREE), ("full", "full", "Kconfig"), ("min", "min", "Kconfig")):
        status, _, err = run([PROGRAM, verb, "--tree", tree, *words, "-o", f"{it.to}.kmin.{part}", it.path], root, {})
        if status:
            return f"kmin {verb}: status {status}, {last_line(err)}"
    return ""


def answers_of(tree, architecture):
    """A file with answers to the questions of an architecture's macros. Where it lacks some, each run with it is refused."""
    path = f"{tree.made}/{architecture}/answers"
    run(in_makefile(architecture, recipe_of(["sh", ANSWER, path, PROGRAM, "wants"])), tree.root, {}, SECONDS)
    return path


def results_of(tree, architecture, words, configurations):
    """What differs of each configuration, by part, and whether conf's minimal file is short."""
    types = {name: symbol.type for name, symbol in conf_symbols(f"{configurations[0].to}.values").items()}
    write_file(tree.root, VALUES_TREE, values_tree(types).encode())
    refused = dict(zip(configurations, side_by_side(functools.partial(kmin_files, tree.root, words), configurations)))
    accepted = [it for it in configurations if not refused[it]]
    pairs = [(f"{it.to}.kmin.min", f"{it.to}.back") for it in accepted]
    configure(tree, architecture, pairs + [(f"{it.to}.min", f"{it.to}.again") for it in accepted if lines_beyond(it)])
    found = dict(zip(accepted, side_by_side(functools.partial(differences, tree.release.writes_implied, types), accepted)))
    return {it: found[it] if it in found else ({"refused": refused[it]}, False) for it in configurations}


def compared(tree, architecture):
    """The row of an architecture in the table, the count of its configurations, and a line for each that differs."""
    title = f"linux-{tree.release.version} {architecture}"
    configurations = configurations_of(tree, architecture)
    row, count = f"{title:<20}{len(configurations):>6}", len(configurations)
    configure(tree, architecture, [(it.path, it.to) for it in configurations])
    words = ["--language", tree.release.language, "--answers", answers_of(tree, architecture)]
    status, _, err = run([PROGRAM, "full", *words], tree.root, {})
    if status:
        is_known = f": {tree.release.refused.get(architecture)} " in last_line(err)
        return f"{row}  refused: {last_line(err)}", count, [] if is_known else [f"{title}, refused: {last_line(err)}"]
    results = results_of(tree, architecture, words, configurations)
    counts = collections.Counter(part for texts, _ in results.values() for part in texts or ["equal"])
    short = sum(is_short for _, is_short in results.values())
    row += f"{counts['equal']:>7}" + "".join(f"{counts[part]:>8}" for part in PARTS) + f"{short:>8}"
    wrong = [f"{title}, {it.name}, {part}: {text}" for it, (texts, _) in results.items() for part, text in texts.items()]
    return row, count, wrong


def linux_faults(release, folder):
    """How many configurations of a release were compared, and what differs. Prints a table: of each architecture how many there
    are, are equal in all parts, differ in each, and how many minimal files of conf are short."""
    tree, count, wrong = prepared(folder, release), 0, []
    print(f"{f'read as {release.language}':<20}{'all':>6}{'equal':>7}" + "".join(f"{part:>8}" for part in PARTS) + f"{'short':>8}")
    for architecture in ARCHITECTURES:
        row, of_architecture, lines = compared(tree, architecture)
        print(row, flush=True)
        count, wrong = count + of_architecture, wrong + lines
    return count, wrong
