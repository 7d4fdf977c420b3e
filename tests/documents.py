#!/usr/bin/env python3
"""Writes what the program's help says into the manual page, the completions and docs/FAULTS.md: `tests/documents.py [PROGRAM]`.

A part of these files, from a line with `made by make docs: NAME` to the next one with `made by make docs up to here`, is made of
`kmin --help`, and of the help of each command in both its forms; the rest is written by hand. tests/check_texts compares the
files with what is made, over crates/kmin/out/kmin, the program by default."""
import dataclasses
import functools
import os
import re
import subprocess
import sys

TOP = os.path.dirname(os.path.dirname(os.path.realpath(__file__)))
PROGRAM = f"{TOP}/crates/kmin/out/kmin"
PAGES = ("man/kmin.1", "docs/FAULTS.md", "completions/kmin.bash", "completions/kmin.zsh", "completions/kmin.fish")
PART = re.compile(r"^(\S+ made by make docs: ([\w ]+?)(?: -->)?\n)(?:.*\n)*?(\S+ made by make docs up to here)", flags=re.M)

# the value of an option, at the front of a line that describes it
ROW = r"^([a-z][\w.\\-]*)  +(?=\S)"

# how a value of an option is completed, by the name that the help gives to it: for bash, zsh and fish
VALUES = {
    "DIR": ("folder", "_files -/", '-x -a "(__kmin_folders)"'),
    "PATH": ("tree", "_kmin_tree_files", '-x -a "(__kmin_tree_files)"'),
    "FILE": ("file", "_files", "-r"),
    "LIST": ("file", "_files", "-r"),
    "NAME": ("name", '_parameters -g "*export*"', '-x -a "(set --names --export)"'),
    "NAME=VALUE": ("text", "", "-x"),
    "TEXT": ("text", "", "-x"),
}
APART = {"--strict": "--drop", "--drop": "--strict", "--prefix": "--no-prefix", "--no-prefix": "--prefix"}


def read(path):
    with open(f"{TOP}/{path}", encoding="utf-8") as it:
        return it.read()


def words_in(text, pattern):
    return re.findall(pattern, text, flags=re.M)


def section(text, heading):
    """The lines after a heading, up to the next line that isn't indented."""
    found = re.search(rf"^{re.escape(heading)}\n((?:(?: .*)?\n)*)", text + "\n", flags=re.M)
    return found[1] if found else ""


def columns(text):
    """The rows of two columns: the first column with the second, whose further lines are indented as far as it."""
    rows = []
    for line in text.splitlines():
        name, _, texts = line[2:].partition("  ")
        if name:
            rows.append((name, texts.strip()))
        elif line.strip():
            rows[-1] = (rows[-1][0], f"{rows[-1][1]} {line.strip()}")
    return rows


@dataclasses.dataclass(frozen=True)
class Option:
    """An option: its names, the name of its value, its line of help, and of its longer one the text, the default and the values."""

    names: tuple
    value: str
    line: str
    text: str
    default: str
    values: tuple

    def is_repeatable(self):
        return self.line.endswith("repeatable")

    def completed(self, shell):
        """How its value is completed for a shell (0 bash, 1 zsh, 2 fish)."""
        listed = " ".join(self.values)
        return (f"one of {listed}", f"({listed})", f'-x -a "{listed}"')[shell] if self.values else VALUES[self.value][shell]


def options_in(long, short):
    """The options of both forms of a help."""
    head = r"^ +(-[-\w]+)(?:, (-[-\w]+))?(?: <([^>]+)>)?"
    lines = {}
    for *names, value, line in words_in(section(short, "Options:"), head + r"  +(.*)$"):
        lines[tuple(filter(None, names))] = re.sub(r" (\[\w[^]]*: .*|\(see .*\))$", "", line)
    found, pieces = [], re.split(head + "$", section(long, "Options:"), flags=re.M)
    for first, second, value, text in zip(*(pieces[n::4] for n in (1, 2, 3, 4))):
        names = tuple(filter(None, (first, second)))
        notes = dict(words_in(text, r"^ +\[(default|possible values): (.*)\]$"))
        text = re.sub(r"^ +\[.*\]$", "", text, flags=re.M).replace("\n          ", "\n").strip()
        values = tuple(notes["possible values"].split(", ")) if "possible values" in notes else ()
        found.append(Option(names, value or "", lines[names], re.sub(r" \(see .*\)$", "", text), notes.get("default", ""), values))
    return found


class Help:
    """The parts of the program's help."""

    def __init__(self, program=PROGRAM):
        self.program = program
        self.long, self.short = self.of("--help"), self.of("-h")
        self.commands = dict(columns(section(self.long, "Commands:")))
        self.verbs = [name for name in self.commands if name != "help"]
        self.flags = options_in(self.long, self.short)
        helps = {verb: (self.of(verb, "--help"), self.of(verb, "-h")) for verb in self.verbs}
        self.options = {verb: options_in(*texts) for verb, texts in helps.items()}
        self.about = {verb: long.partition("\n\nUsage: ")[0] for verb, (long, _) in helps.items()}
        self.verbs_by_files = {}
        for verb, (long, _) in helps.items():
            files = words_in(long, r"^Usage: kmin [a-z]+ \[OPTIONS\] ?(.*)$")[0]
            self.verbs_by_files.setdefault(files, []).append(verb)
        self.statuses = dict(columns(section(self.long, "Exit status:")))
        headings = words_in(self.long.partition("\nMessages are ")[2], r"^([A-Z].*:)\n(?=  )")
        self.tables = {heading.rstrip(":").partition(",")[0]: columns(section(self.long, heading)) for heading in headings}

    def of(self, *words):
        return subprocess.run([self.program, *words], capture_output=True, text=True, check=True).stdout

    def all_options(self):
        """Each option with the commands that have it."""
        found = {}
        for verb, options in self.options.items():
            for option in options:
                found.setdefault(option, []).append(verb)
        return found

    def groups(self):
        """Commands, and the options that just these have."""
        found = {}
        for option, verbs in self.all_options().items():
            found.setdefault(tuple(verbs), []).append(option)
        return found

    @functools.cached_property
    def explained(self):
        """What `kmin help` explains: the commands, and those words of the tables' first columns that it knows."""
        words = [name.rpartition(": ")[2] for rows in self.tables.values() for name, _ in rows]
        words = [word for word in dict.fromkeys(words) if re.fullmatch(r"[A-Za-z][\w-]*", word)]
        return [*self.commands, *(word for word in words if not subprocess.run([self.program, "help", word], capture_output=True).returncode)]


def roff(text):
    """A text as lines of roff: what is between two backquotes is set apart, and each row of two columns begins a line, as does what
    follows the last one."""
    made, is_in_rows = [], False
    for line in text.splitlines():
        was_in_rows, row = is_in_rows, re.match(ROW, line)
        is_in_rows = bool(row) or was_in_rows and line[:1] == " "
        made += [".br"] if row or (was_in_rows and not is_in_rows and line) else []
        line = re.sub(r"`([^`]+)`", r"\\fI\1\\fP", line.strip().replace("\\", "\\e").replace("-", "\\-"))
        line = re.sub(ROW, r"\\fB\1\\fP: ", line)
        made.append(re.sub(r"^(?=[.'])", r"\\&", line) or ".sp")
    return made


def and_list(names):
    return " and ".join(filter(None, [", ".join(f"\\fB{name}\\fP" for name in names[:-1]), f"\\fB{names[-1]}\\fP"]))


def entry(name, *lines):
    return [".TP", name, *lines]


def made_synopsis(it):
    lines = []
    for files, verbs in it.verbs_by_files.items():
        files = re.sub(r"<?(\w+)>?", r"\\fI\1\\fP", files)
        lines += [f"\\fBkmin {' | '.join(verbs)}\\fP [\\fIOPTION\\fP]... {files}".strip(), ".br"]
    return lines


def made_options(it):
    lines, flags = [], [flag.names for flag in it.flags]
    own = {option: verbs for option, verbs in it.all_options().items() if option.names not in flags}
    for option, verbs in [*own.items(), *((flag, it.verbs) for flag in it.flags)]:
        value = f" \\fI{option.value}\\fP" if option.value else ""
        notes = [".br"] if "\n" in option.text else []
        notes += [f"Default: \\fI{option.default}\\fP."] if option.default else []
        missing = [verb for verb in it.verbs if verb not in verbs]
        notes += [f"Not of {and_list(missing)}." if len(missing) < 3 else f"Of {and_list(verbs)}."] if missing else []
        names = ", ".join(f"\\fB{name}\\fP" for name in option.names).replace("-", "\\-")
        lines += entry(names + value, *roff(f"{option.text}."), *notes)
    return lines


def made_kinds(it):
    lines = []
    for heading, rows in it.tables.items():
        lines.append(f".SH {heading.upper()}")
        for name, text in rows:
            lines += entry(".B " + roff(name)[0], *roff(text))
    return lines


def made_man(it):
    return {
        "synopsis": made_synopsis(it),
        "commands": [line for verb in it.verbs for line in entry(f".B {verb}", *roff(it.about[verb]))],
        "options": made_options(it),
        "statuses": [line for status, text in it.statuses.items() for line in entry(f".B {status}", *roff(text))],
        "kinds": made_kinds(it),
    }


def made_faults(it):
    parts = {}
    for heading, rows in it.tables.items():
        parts[heading] = ["| Message | What it means | What to do |", "|---|---|---|"]
        for name, text in rows:
            meaning, _, advice = text.replace("|", "\\|").partition(": ")
            parts[heading].append(f"| `{name}` | {meaning} | {advice} |")
    return parts


def names_of(options):
    return " ".join(name for option in options for name in option.names)


def made_bash(it):
    lines = ["_kmin_commands() {", f'    echo "{" ".join(it.commands)}"', "}", "", "# the words that may follow a command; '' stands for none"]
    lines += ["_kmin_words() {", "    case $1 in", f'''        '') echo "{' '.join(it.commands)} {names_of(it.flags)}" ;;''']
    lines += [f'        help) echo "{" ".join(it.explained)}" ;;', "    esac"]
    for verbs, options in it.groups().items():
        lines += ["    case $1 in", f'        {"|".join(verbs)}) echo "{names_of(options)}" ;;', "    esac"]
    lines += ["}", "", "# what is after an option: a kind of word, or `one of` some; nothing where it has no value"]
    lines += ["_kmin_value() {", "    case $1 in"]
    by_value = {}
    for option in it.all_options():
        if option.value:
            by_value.setdefault(option.completed(0), []).extend(option.names)
    lines += [f'        {"|".join(dict.fromkeys(names))}) echo "{value}" ;;' for value, names in by_value.items()]
    without = " ".join(it.verbs_by_files.get("", []))
    return {"words": [*lines, "    esac", "}", "", "# whether files may follow a command", "_kmin_has_files() {", f'    [[ " {without} " != *" $1 "* ]]', "}"]}


def quoted(text):
    """A text in single quotes, for zsh."""
    return "'" + text.replace("'", "'\\''") + "'"


def described(text):
    """A description within an argument of zsh's _arguments or _describe."""
    return re.sub(r"[][:\\]", r"\\\g<0>", text)


def zsh_option(option):
    line = f"[{described(option.line)}]"
    if option.value:
        line += f":{option.value}:{option.completed(1)}"
    if "--help" in option.names or "--version" in option.names:
        apart, star = "(- *)", ""
    else:
        apart, star = f"({APART[option.names[0]]})" if option.names[0] in APART else "", "*" * option.is_repeatable()
    names = [name + ("" if not option.value else "=" if name[:2] == "--" else "+") for name in option.names]
    if len(names) == 1:
        return quoted(apart + star + names[0] + line)
    return quoted(apart or f"({' '.join(option.names)})") + "{" + ",".join(names) + "}" + quoted(line)


def made_zsh(it):
    lines = ["_kmin_commands() {", "    local -a commands=("]
    lines += [f"        {quoted(f'{name}:{described(text)}')}" for name, text in it.commands.items()]
    lines += ["    )", "    _describe command commands", "}", ""]
    lines += ["_kmin_explained() {", f'    local -a kinds=({" ".join(it.explained[len(it.commands):])})']
    lines += ["    _kmin_commands", "    _describe kind kinds", "}", "", "# adds to `specs` the options and the files of a command; '' stands for none", "_kmin_specs() {"]
    groups = {("''",): it.flags, **it.groups()}
    for verbs, options in groups.items():
        lines += ["    case $1 in", f"        {'|'.join(verbs)}) specs+=(", *(f"            {zsh_option(option)}" for option in options), "        ) ;;", "    esac"]
    lines += ["    case $1 in"]
    for files, verbs in it.verbs_by_files.items():
        specs = [f"'{'*' if name.endswith('...') else n + 1}:{name.strip('[]<>.')}:_files'" for n, name in enumerate(files.split())]
        lines += [f"        {'|'.join(verbs)}) specs+=({' '.join(specs)}) ;;"] if specs else []
    return {"words": [*lines, "    esac", "}"]}


def fish_text(text):
    return '"' + re.sub(r'[\\"$]', r"\\\g<0>", text) + '"'


def fish_names(option):
    return " ".join(f"-l {name[2:]}" if name[:2] == "--" else f"-s {name[1:]}" for name in option.names)


def made_fish(it):
    first, seen = '-n "__fish_is_first_arg"', "__fish_seen_subcommand_from"
    lines = [f"complete -c kmin -f {first} -a {name} -d {fish_text(text)}" for name, text in it.commands.items()]
    lines += [f'complete -c kmin -f -n "not {seen} {" ".join(it.commands)}"', f'complete -c kmin -f -n "{seen} help" -a "{" ".join(it.explained)}"']
    lines += [f'complete -c kmin -f -n "{seen} {verb}"' for verb in it.verbs_by_files.get("", [])]
    for verbs, options in it.groups().items():
        for option in options:
            pieces = ["complete -c kmin", f'-n "{seen} {" ".join(verbs)}"', fish_names(option), f"-d {fish_text(option.line)}"]
            lines.append(" ".join([*pieces, *([option.completed(2)] if option.value else [])]))
    lines += [f"complete -c kmin {first} {fish_names(option)} -d {fish_text(option.line)}" for option in it.flags]
    return {"words": lines}


def made(it):
    """Each of the files with the parts that are made of the help."""
    parts = (made_man(it), made_faults(it), made_bash(it), made_zsh(it), made_fish(it))
    texts = {}
    for path, lines in zip(PAGES, parts):
        found = [name for _, name, _ in PART.findall(read(path))]
        if sorted(found) != sorted(lines):
            raise SystemExit(f"{path}: it has the parts {found}, wanted {[*lines]}")
        texts[path] = PART.sub(lambda at: at[1] + "".join(f"{line}\n" for line in lines[at[2]]) + at[3], read(path))
    return texts


def main():
    for path, text in made(Help(*sys.argv[1:2])).items():
        if text != read(path):
            print(path)
            with open(f"{TOP}/{path}", "w", encoding="utf-8") as it:
                it.write(text)


if __name__ == "__main__":
    main()
