"""Wrong bodies, and what a check says of them.

A wrong body is a file crates/NAME/wrong/WHAT_IT_DOES.edit: a line 'file: src/FILE.rt', and then pairs of lines 'old: TEXT' and
'new: TEXT'. Each old text stands once in the file, as the pairs before it left that."""
import functools
import os
import re

HIDDEN = r"//[^\n]*|/\*.*?\*/|\bb?r(#*)\".*?\"\1|\bb?\"(?:\\.|[^\"\\])*\"|\"(?:\\.|[^\"\\])*\"|'(?:\\.[^'\n]*|[^\\'\n])'"
NAME_IS_GONE = r"has no field|is not in scope|has no `|was not admitted"
REFUSED, LET_THROUGH, AT_A_NAME = "refused", "LET THROUGH", "REFUSED ONLY AT A NAME"
NOT_COMPILED, NO_VERDICT = "DOES NOT COMPILE", "NO VERDICT"


def without_comments(path, text):
    """The text of a crate's file without its comments, which change nothing that a check judges."""
    if path.endswith(".antt"):
        return re.sub(r"^[ \t]*--[^\n]*\n", "", text, flags=re.M)
    return re.sub(rf"^[ \t]*//[^\n]*\n|{HIDDEN}", lambda it: "" if it[0].lstrip().startswith("//") else it[0], text, flags=re.M | re.S)


class BadEdit(Exception):
    """Why an edit can't be applied."""


class Edit:
    def __init__(self, name, text):
        self.name, self.text, self.pairs = name, text, []
        path = old = ""
        for line in text.splitlines():
            word, _, rest = line.partition(":")
            rest = rest[1:]
            if word == "file":
                path = rest.strip()
            elif word == "old":
                old = rest
            elif word == "new":
                self.pairs.append((path, old, rest))
                old = ""
        if old:
            self.pairs.append((path, old, None))

    def applied(self, texts):
        """The texts of a crate's files with this edit, and the functions that it changes; None stands for a place outside them."""
        texts, changed = dict(texts), set()
        for path, old, new in self.pairs or [("", "", None)]:
            if not path or not old or new is None:
                raise BadEdit("it isn't a file and pairs of an old and a new text")
            count = texts.get(path, "").count(old)
            if count != 1:
                raise BadEdit(f"an old text stands in {path} {count} times")
            changed.add(function_at(path, texts[path], texts[path].index(old)))
            texts[path] = texts[path].replace(old, new)
        return texts, changed


def edits_of(folder):
    """The wrong bodies of a crate, sorted by their names; another file beside them is one that can't be applied."""
    names = sorted(os.listdir(f"{folder}/wrong")) if os.path.isdir(f"{folder}/wrong") else []
    found = []
    for name in names:
        stem, ending = os.path.splitext(name)
        if ending == ".edit":
            with open(f"{folder}/wrong/{name}", encoding="utf-8") as it:
                found.append(Edit(stem, it.read()))
        elif name not in ("tried", "tried.new"):
            found.append(Edit(name, ""))
    return found


def function_at(path, text, place):
    """The path of the function, below its crate, whose text has this place; None outside functions."""
    found = [names for begin, end, names in functions_in(text) if begin <= place < end]
    return path_of(path, found[0]) if found and path.startswith("src/") else None


def path_of(path, names):
    """The path of a function with these names in a source file."""
    module = path[len("src/") : -len(".rt")].split("/")
    return "::".join([*(module if module not in (["lib"], ["main"]) else []), *names])


def functions_named(texts, said):
    """The functions of a crate's texts by their paths, each with the name that a check has for it: the same, or where an impl is in
    another module than its type, that with the type's module. Without those that the check doesn't name."""
    ends, found = {}, {}
    for name in said:
        ends.setdefault(name.partition("::")[2], []).append(name)
    for path in (it for it in texts if it.startswith("src/")):
        for _, _, names in functions_in(texts[path]):
            function = path_of(path, names)
            other = ends.get("::".join(names), []) if len(names) > 1 else []
            if function in said or len(other) == 1:
                found[function] = function if function in said else other[0]
    return found


@functools.lru_cache(maxsize=None)
def functions_in(text):
    """Where each function of a file begins, with its remarks and attributes, and where it ends, and its name after that of its impl's
    type and trait, as a check prints it."""
    text = re.sub(HIDDEN, lambda it: re.sub(r"[^\n]", " ", it[0]), text, flags=re.S)
    depth, owner, function, found = 0, [], None, []
    for it in re.finditer(r"\bfn\s+(\w+)|\b(?:impl|trait)\b[^{;]*|[][(){};]", text):
        word = it[0]
        if it[1]:
            function = function or (beginning(text, it.start()), depth, [*owner, it[1]])
        elif len(word) > 1:
            owner = owner if function else [owner_of(word)]
        elif word in "([{":
            depth += 1
        else:
            depth -= word != ";"
            ends = word == ";" or (word == "}" and not re.match(r"\s*(ensures|requires|decreases|where|\{)", text[it.end() :]))
            if function and depth == function[1] and ends:
                found.append((function[0], it.end(), function[2]))
                function = None
            elif not function and not depth and word == "}":
                owner = []
    return found


def beginning(text, place):
    """Where the line of a place begins, or the first of the lines of attributes, and of remarks that are blanked, above it."""
    begin = text.rfind("\n", 0, place) + 1
    while begin:
        above = text.rfind("\n", 0, begin - 1) + 1
        line = text[above:begin].strip()
        if line and not line.startswith("#["):
            break
        begin = above
    return begin


def owner_of(head):
    """The name under which a check prints the functions of an impl or a trait with this head."""
    head = re.sub(r"\bwhere\b.*", "", head, flags=re.S)
    parameters = re.match(r"(?:impl|trait)\s*(<(?:[^<>]|<[^<>]*>)*>)?", head)
    of_trait, is_of_trait, of_type = head[parameters.end() :].rpartition(" for ")
    words = lambda it: re.sub(r"'\w+|\b(mut|dyn)\b|\w+::", " ", it)
    own = re.findall(r"\w+", words(parameters[1] or ""))
    given = lambda it: [word for word in re.findall(r"\w+", "".join(re.findall(r"^[^<:]*<([^:]*)>", it))) if word not in own]
    bare = lambda it: [*re.findall(r"\w+", words(it))[:1], *(word[0].upper() + word[1:] for word in given(words(it)))]
    inner = re.sub(r"(<[^<>]*)<[^<>]*>", r"\1", words(of_trait))
    return "".join([*bare(of_type), *re.findall(r"\w+", inner)]) if is_of_trait else "".join(bare(of_type))


class Report:
    """What a check, which ended with this status, said of a crate whose files had these texts: the line of each function, the errors
    in proof files, and the goals that it says are not proved, by the function in whose text each is."""

    def __init__(self, crate, text, status, texts):
        lines = text.splitlines()
        self.said = dict(re.match(rf"fn {crate}::(\S+): (.*)", line).groups() for line in lines if line.startswith(f"fn {crate}::"))
        self.is_proved = status == 0
        self.error = next((line for line in lines if re.match(r"(\./)?src/\S+: error\[", line) or is_unread(line)), "")
        self.is_judged = any(line.startswith("logic=") for line in lines) and not any(map(is_unread, lines))
        self.end = " / ".join(lines[-3:])
        self.goals, self.errors = {}, []
        for line, after in zip(lines, [*lines[1:], ""]):
            goal = re.match(r"note: (src/\S+?):(\d+):(\d+): it is not proved", line)
            error = re.match(r"(?:\./)?proofs/(\S+)/([^/\s]+):\d+:\d+: error: (?:`([^`]*)`: )?(.*)", line)
            if goal:
                path, *place = goal.groups()
                self.goals.setdefault(function_at(path, texts[path], place_of(texts[path], *map(int, place))), []).append(line)
            elif error:
                folder, file, answer, said = error.groups()
                is_name = not answer or file != "Answers.antt" or re.search(NAME_IS_GONE, f"{said} {after}" if after[:2] == "  " else said)
                self.errors.append((folder.replace("/", "::"), answer or "", bool(is_name)))

    def outcome(self, function, place):
        """What became of a function, whose text is that of `place`: refused by a goal of its own, or only at a name that its proof
        files have; '' where it's not proved for what it calls alone, and so isn't judged."""
        said = [self.said[it] for it in self.said if is_part(it, function)]
        if all(it == "proved" for it in said):
            return LET_THROUGH
        if not any(re.match(r"not proved|no proof: expected", it) for it in said):
            return ""
        at_names = [is_name for at, answer, is_name in self.errors if is_about(at, answer, function)]
        goals = self.goals.get(place, []) + [it for it in said if "`search` did not prove" in it]
        if not all(at_names) or any("at which this goal is false" in it for it in goals):
            return REFUSED
        return AT_A_NAME if at_names else REFUSED if goals else ""


def place_of(text, line, column):
    """The index in a text of a place in it, which a check counts from 1."""
    return sum(len(it) for it in text.splitlines(keepends=True)[: line - 1]) + column - 1


def is_part(name, function):
    """Whether a name is that of a function or of a closure in it."""
    name = re.sub(r"(^|::)fn::", r"\1", name)
    return name == function or name.startswith(f"{function}::")


def is_about(folder, answer, function):
    """Whether an error in a folder of proofs, in this answer, is about a function. The proofs of functions that call each other are in
    one folder, `+NAME`, and there the function's name begins the answer's unless there is one function alone."""
    above, _, name = folder.rpartition("::")
    if name[:1] != "+":
        return is_part(folder, function)
    of, _, own = function.rpartition("::")
    return of == above and (name[1:] == own or not answer or answer.startswith(f"{own}-"))


def is_unread(line):
    """Whether a line says that antt can't read a text of the crate's src or specs, where a statement that is only false reads well."""
    error = re.match(r"(?:\./)?(?:src|specs)/\S+?:\d+:\d+: error: (?:(`[^`]*`): )?(.*)", line)
    unread = r"is not in scope|has no field|is no name|operand is missing|expected the end|cannot continue"
    return bool(error) and (not error[1] or bool(re.search(unread, re.sub(r"`[^`]*`", "", error[2]))))
