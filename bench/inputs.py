#!/usr/bin/env python3
"""Writes seeded inputs of the measures: inputs.py KIND COUNT [SEED] > FILE.

expressions  COUNT lines, each a condition as real trees have them
likeness     a tree of COUNT symbols in the likeness of real ones: prompts, conditions, selects, help texts, menus, ifs, choices
flat         a tree of COUNT bools that don't know of one another
chain        a tree of COUNT bools of which each is the default of the next
settings     a configuration file of COUNT lines for the tree of as many symbols
"""
import random
import sys


def name(i):
    return f"SYMBOL_{i:06}"


def condition(rng, count, most=4):
    """An expression over some of the symbols."""
    parts = []
    for _ in range(rng.randint(1, most)):
        word = name(rng.randrange(max(count, 1)))
        form = rng.random()
        if form < 0.12:
            word = f"!{word}"
        elif form < 0.2:
            word = f'{word} {rng.choice(["=", "!="])} {rng.choice(["y", "n", "m"])}'
        elif form < 0.24:
            word = f'{word} = "{rng.choice(["arm", "x86", "mips"])}"'
        elif form < 0.3:
            word = f"({word} || {name(rng.randrange(max(count, 1)))})"
        parts.append(word)
    return f' {rng.choice(["&&", "&&", "||"])} '.join(parts)


def expressions(count, rng):
    for _ in range(count):
        yield condition(rng, 16000) + "\n"


def help_text(rng):
    yield "\thelp\n"
    for _ in range(rng.randint(2, 8)):
        words = " ".join(rng.choice(["this", "option", "adds", "support", "for", "the", "device", "driver", "if", "unsure", "say"]) for _ in range(rng.randint(6, 11)))
        yield f"\t  {words}.\n"


def kind_of(i):
    """The type of a symbol."""
    return random.Random(i).choices(["bool", "tristate", "int", "hex", "string"], [50, 40, 5, 2, 3])[0]


def entry(i, count, rng):
    """One symbol; it names only symbols before it in what makes units depend on one another."""
    kind = kind_of(i)
    yield f"config {name(i)}\n"
    prompt = f' "Option {i} of the board"' if rng.random() < 0.8 else ""
    yield f"\t{kind}{prompt}\n"
    if rng.random() < 0.6 and i:
        yield f"\tdepends on {condition(rng, i)}\n"
    if rng.random() < 0.35:
        value = {"int": str(rng.randint(0, 64)), "hex": hex(rng.randint(0, 4096)), "string": '"board"'}.get(kind, "y")
        yield f"\tdefault {value}" + (f" if {condition(rng, i, 2)}\n" if rng.random() < 0.4 and i else "\n")
    if kind == "int" and rng.random() < 0.6:
        yield "\trange 0 64\n"
    if kind in ("bool", "tristate"):
        for _ in range(rng.choice([0, 0, 0, 1, 2])):
            target = i + 1 + rng.randrange(40)
            if target < count and kind_of(target) in ("bool", "tristate"):
                yield f"\tselect {name(target)}\n"
    if rng.random() < 0.75:
        yield from help_text(rng)
    yield "\n"


def part(first, last, count, rng):
    """The symbols of some numbers, with the blocks round them."""
    open_blocks = []
    for i in range(first, last):
        if rng.random() < 0.03 and len(open_blocks) < 6:
            if rng.random() < 0.5:
                yield f'menu "Part {i}"\n\n'
                open_blocks.append("endmenu\n\n")
            elif i:
                yield f"if {condition(rng, i, 2)}\n\n"
                open_blocks.append("endif\n\n")
        yield from entry(i, count, rng)
        if open_blocks and rng.random() < 0.03:
            yield open_blocks.pop()
        if rng.random() < 0.002:
            yield f'choice\n\tprompt "Kind {i}"\n\nconfig CHOICE_{i}_A\n\tbool "a"\n\nconfig CHOICE_{i}_B\n\tbool "b"\n\nendchoice\n\n'
    yield from reversed(open_blocks)


HEAD = 'mainmenu "Configuration"\n\nconfig MODULES\n\tbool "Loadable modules"\n\tdefault y\n\n'


def likeness(count, rng):
    yield HEAD
    yield from part(0, count, count, rng)


def likeness_in_files(count, files, folder, rng):
    """The likeness of a tree in several files of a folder, which its file Kconfig sources."""
    with open(f"{folder}/Kconfig", "w") as root:
        root.write(HEAD)
        for i in range(files):
            root.write(f'source "part_{i}"\n')
            with open(f"{folder}/part_{i}", "w") as it:
                it.writelines(part(count * i // files, count * (i + 1) // files, count, rng))


def flat(count, rng):
    for i in range(count):
        yield f'config {name(i)}\n\tbool "x"\n'


def chain(count, rng):
    for i in range(count):
        yield f'config {name(i)}\n\tbool "x"\n' + (f"\tdefault {name(i - 1)}\n" if i else "")


def settings(count, rng):
    for i in range(count):
        yield f"CONFIG_{name(i)}=y\n" if rng.random() < 0.6 else f"# CONFIG_{name(i)} is not set\n"


KINDS = {it.__name__: it for it in (expressions, likeness, flat, chain, settings)}

if __name__ == "__main__":
    kind, count = sys.argv[1], int(sys.argv[2])
    sys.stdout.writelines(KINDS[kind](count, random.Random(int(sys.argv[3]) if len(sys.argv) > 3 else 1)))
