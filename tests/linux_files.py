"""What tests/linux_trees.py makes of a configuration, by Linux' own conf and by `kmin`, compared in parts.

The paths of what is made of it begin alike: NAME.values, NAME.full and NAME.min are conf's (tests/conf_many.c), NAME.kmin.* those
of `kmin`, NAME.back.* and NAME.again.* what conf makes of NAME.kmin.min and of NAME.min.

- values: of each symbol, also of those that no file has.
- full: the bytes of the full file after conf's header. Where the language doesn't write symbols that are implied against their
  direct dependency, which conf does, their unset lines don't count.
- min: each line of the minimal file of `kmin` is one of conf's. A further one is right where conf's file is short, that is, where
  conf reads other values from it than those that it is made of.
- back: from the minimal file of `kmin` conf reads the values that it reads from the configuration itself."""
import difflib
import re
import typing

from project_runs import read

PARTS = ("values", "full", "min", "back")
TYPES = {"bool": "bool", "tristate": "tristate", "integer": "int", "hex": "hex", "string": "string"}
HEADER_LINES = 4
SHOWN = 3


class Configuration(typing.NamedTuple):
    """A configuration by its name, its path in the tree, and how the paths of what is made of it begin."""

    name: str
    path: str
    to: str


class Symbol(typing.NamedTuple):
    """A symbol in conf: its type, its value, and whether it is implied although its direct dependency is n."""

    type: str
    value: str
    is_against: bool


def lines_of(path):
    """The lines of a file, a character for each byte; after its last newline comes one more, which is empty."""
    return read(path).decode("latin-1").split("\n")


def conf_symbols(path):
    """The symbols of conf by their names, in the order of the tree."""
    symbols = {}
    for line in lines_of(path)[:-1]:
        kind, is_against, text = line.split(" ", 2)
        name, _, value = text.partition("=")
        symbols[name] = Symbol(TYPES[kind], value, is_against == "1")
    return symbols


def conf_values(path):
    return {name: symbol.value for name, symbol in conf_symbols(path).items()}


def values_tree(types):
    """The text of a tree that sources another one and has besides a symbol VALUE_OF_X for each symbol X, whose default is X."""
    return 'source "Kconfig"\n' + "".join(f"config VALUE_OF_{name}\n\tdef_{kind} {name}\n" for name, kind in types.items())


def kmin_values(path, types):
    """The values of symbols by a full file of that tree; `n` as a default has no line."""
    lines = dict(line.removeprefix("CONFIG_VALUE_OF_").split("=", 1) for line in lines_of(path) if line.startswith("CONFIG_VALUE_OF_"))
    values = {name: lines.get(name, "n" if kind in ("bool", "tristate") else None) for name, kind in types.items()}
    return {name: re.sub(r"\\(.)", r"\1", text[1:-1]) if text and types[name] == "string" else text for name, text in values.items()}


def different_values(found, wanted):
    """How many symbols have different values, and the first of them."""
    names = [name for name in sorted({*found, *wanted}) if found.get(name) != wanted.get(name)]
    shown = [f"{name} {found.get(name)!r}, conf {wanted.get(name)!r}" for name in names[:SHOWN]]
    return f"{len(names)} symbols: {'; '.join(shown)}" if names else ""


def different_lines(found, wanted):
    """How many lines only one of two files has, and the first of them."""
    if found == wanted:
        return ""
    lines = [line for line in difflib.unified_diff(wanted, found, n=0, lineterm="") if line[0] in "+-"][2:]
    return f"{len(lines)} lines: {'; '.join(lines[:SHOWN])}"


def after_header(lines):
    """The lines of conf's full file after its header, a comment between two lines of just `#`."""
    if [lines[0], lines[HEADER_LINES - 1]] != ["#", "#"]:
        raise ValueError(f"not the header of a full file: {lines[:HEADER_LINES]}")
    return lines[HEADER_LINES:]


def without_unset(lines, names):
    """Lines without the unset ones of some symbols, nor the empty line before one that is followed by no other symbol's."""
    unset, kept = {f"# CONFIG_{name} is not set" for name in names}, []
    for line, after in zip(lines, [*lines[1:], ""]):
        if line not in unset:
            kept.append(line)
        elif kept[-1:] == [""] and (not after or after.startswith("# end of ")):
            kept.pop()
    return kept


def lines_beyond(it):
    """The lines of the minimal file of `kmin` that conf's doesn't have."""
    lines = set(lines_of(f"{it.to}.min"))
    return [line for line in lines_of(f"{it.to}.kmin.min") if line not in lines]


def differences(writes_implied, types, it):
    """What differs of a configuration, by part; and whether conf's minimal file is short."""
    symbols, values = conf_symbols(f"{it.to}.values"), conf_values(f"{it.to}.values")
    found, wanted = lines_of(f"{it.to}.kmin.full"), after_header(lines_of(f"{it.to}.full"))
    if not writes_implied:
        against = {name for name, symbol in symbols.items() if symbol.is_against}
        found, wanted = without_unset(found, against), without_unset(wanted, against)
    beyond = lines_beyond(it)
    is_short = bool(beyond) and conf_values(f"{it.to}.again.values") != values
    texts = (
        different_values(kmin_values(f"{it.to}.kmin.values", types), values),
        different_lines(found, wanted),
        f"{len(beyond)} lines: {'; '.join(beyond[:SHOWN])}" if beyond and not is_short else "",
        different_values(conf_values(f"{it.to}.back.values"), values),
    )
    return {part: text for part, text in zip(PARTS, texts) if text}, is_short
