"""What trees give under configuration files, by the rules of docs/RULES.md, apart from the program: by those of the strict language,
of Linux before 6.10, or of Linux 6.12.

An expression is ("name", N), ("constant", LETTER), ("quoted", TEXT), ("relation", OP, A, B), ("not", E), ("and", A, B), ("or", A, B),
or, of what is in a choice, ("inside", CHOICE) or ("in sight", CHOICE). A condition is a list of expressions that are joined."""
import operator
import re

BOOL, TRISTATE, INT, HEX, STRING = "bool", "tristate", "int", "hex", "string"
LETTERS = "nmy"
RELATIONS = {"=": operator.eq, "!=": operator.ne, "<": operator.lt, "<=": operator.le, ">": operator.gt, ">=": operator.ge}


class Symbol:
    def __init__(self, name, rank, kind, choice):
        self.name, self.rank, self.kind, self.choice = name, rank, kind, choice
        self.direct, self.prompts, self.defaults, self.ranges, self.forces = [], [], [], [], []
        self.others = []

    def sort(self):
        """Brings what the definitions have into the order of its lines, which the last expression of each condition has."""
        for attributes in (self.defaults, self.ranges, self.forces):
            attributes.sort(key=lambda it: it[-1][-1].line)
        self.prompts.sort(key=lambda it: it[-1].line)

    def dependencies(self):
        """The conditions of the definitions, in any order."""
        return [self.direct, *(direct for _, direct in self.others)]


class Choice:
    def __init__(self, rank):
        self.rank, self.prompt, self.defaults, self.members = rank, None, [], []
        self.direct, self.hidden, self.is_optional = [], [], False


def quoted(text):
    return '"' + text.replace("\\", "\\\\").replace('"', '\\"') + '"'


def spelled(e):
    form = e[0]
    if form in ("name", "constant"):
        return e[1]
    if form == "quoted":
        return quoted(e[1])
    if form == "relation":
        return f"{spelled(e[2])} {e[1]} {spelled(e[3])}"
    if form == "not":
        return f"!({spelled(e[1])})"
    return f"({spelled(e[1])} {'&&' if form == 'and' else '||'} {spelled(e[2])})"


def number_of(kind, text):
    """The number of a text by the grammar of a type, or by that of texts without one."""
    if len(text) > 64:
        return None
    if kind == INT and re.fullmatch(r"-?[0-9]+", text, re.A):
        return int(text) if abs(int(text)) < 2 ** 63 else None
    if kind == HEX and re.fullmatch(r"(0[xX])?[0-9a-fA-F]+", text):
        return int(text, 16) if int(text, 16) < 2 ** 64 else None
    if kind == STRING:
        number = number_of(INT, text)
        return number_of(HEX, text) if number is None and text[:2] in ("0x", "0X") else number
    return None


class Values:
    """Values of units: of a symbol outside choices a tristate (0, 1, 2) or a text, of a choice a member or none."""

    def __init__(self, symbols, choices, is_classic, is_newer, is_linux=False):
        self.symbols, self.choices = {it.name: it for it in symbols}, choices
        self.is_classic, self.is_newer, self.is_linux = is_classic, is_newer, is_newer or is_linux
        self.by_unit = {}

    def tristate(self, name):
        it = self.symbols.get(name)
        if not it or it.kind not in (BOOL, TRISTATE):
            return 0
        return 2 * (self.by_unit[it.choice] is it) if it.choice else self.by_unit[it]

    def side(self, e):
        """Whether an operand is string-typed, its number, and its text."""
        if e[0] == "constant":
            return False, LETTERS.index(e[1]), e[1]
        if e[0] == "quoted":
            return True, number_of(STRING, e[1]), e[1]
        it = self.symbols.get(e[1])
        if not it:
            return False, number_of(STRING, e[1]), e[1]
        if it.kind in (BOOL, TRISTATE):
            return False, self.tristate(e[1]), LETTERS[self.tristate(e[1])]
        return it.kind == STRING, number_of(it.kind, self.by_unit[it]), self.by_unit[it]

    def value(self, e, is_condition=False):
        """The value of an expression; in a condition `m` is `m && MODULES`."""
        form = e[0]
        if form == "name":
            return self.tristate(e[1])
        if form == "constant":
            return min(1, self.tristate("MODULES")) if is_condition and e[1] == "m" else LETTERS.index(e[1])
        if form == "quoted":
            return 0
        if form == "not":
            return 2 - self.value(e[1], is_condition)
        if form == "inside":
            return self.all_of(e[1].direct) if self.is_newer else 2 * (e[1].prompt is not None and self.all_of(e[1].prompt) > 0)
        if form == "in sight":
            return self.all_of(e[1].hidden) if self.is_newer else 2
        if form in ("and", "or"):
            return (min if form == "and" else max)(self.value(e[1], is_condition), self.value(e[2], is_condition))
        a, b = self.side(e[2]), self.side(e[3])
        at = 2 if (a[0] and b[0]) or a[1] is None or b[1] is None else 1
        return 2 * RELATIONS[e[1]](*((it[at].encode() if at == 2 else it[at]) for it in (a, b)))

    def all_of(self, condition):
        return min((self.value(e, True) for e in condition), default=2)

    def direct(self, it):
        return max(map(self.all_of, it.dependencies()))

    def promoted(self, it, value):
        return 2 if value == 1 and (it.kind == BOOL or not self.tristate("MODULES")) else value

    def visibility(self, it):
        return self.promoted(it, max(map(self.all_of, it.prompts), default=0))

    def forced(self, it, word):
        return max((min(self.tristate(by.name), self.all_of(when)) for by in self.symbols.values() for w, name, when in by.forces if w == word and name == it.name and not it.choice), default=0)

    def default(self, it):
        """The value of the active default, and its condition's value."""
        return next(((value, self.all_of(when)) for value, when in it.defaults if self.all_of(when)), None)

    def of_tristate(self, it, user):
        implied, direct, active = self.forced(it, "imply"), self.direct(it), self.default(it)
        base = min(self.value(active[0]), active[1]) if active else 0
        effect = implied if direct else 0
        if user is not None and self.visibility(it):
            base = min(user, self.visibility(it))
        elif self.is_classic:
            base = max(base, effect)
        elif implied:
            base = min(max(base, implied), direct)
        value = self.promoted(it, max(base, self.forced(it, "select")))
        return 2 if self.is_classic and value == 1 and effect == 2 else value

    def of_text(self, it, user):
        active = self.default(it)
        text = self.side(active[0])[2] if active else ""
        if it.kind == STRING:
            return user if user is not None and self.visibility(it) else text
        bounds = next(((low, high) for low, high, when in it.ranges if self.all_of(when)), None)
        low, high = ((number_of(it.kind, self.side(e)[2]) or 0) for e in bounds) if bounds else (float("-inf"), float("inf"))
        spell = hex if it.kind == HEX else str

        def moved(number, text):
            if low <= number <= high:
                return text
            bound, limit = (bounds[0], low) if bounds and number < low else (bounds[1], high)
            own = self.side(bound)[2]
            return own if self.is_newer and number_of(it.kind, own) is not None else spell(limit)

        number = number_of(it.kind, user or "")
        if number is not None and self.visibility(it) and (low <= high if self.is_newer else low <= number <= high):
            return moved(number, user)
        if number_of(it.kind, text) is None:
            text = spell(0) if self.is_newer and not active else ""
        return moved(number_of(it.kind, text) or 0, text)

    def of_newer_choice(self, choice, user):
        """The member of a choice that is selected by the rules of Linux 6.12; `user` has what the members are given, in order
        of their last lines."""
        given = user or {}
        seen = [it for it in choice.members if self.visibility(it)]
        asked = [self.symbols[name] for name, when in choice.defaults if self.all_of(when)]
        chosen = [it for it, is_y in given.items() if is_y and it in seen]
        if chosen or not seen:
            return chosen[-1] if chosen else None
        if choice.is_optional:
            return None
        default = next((it for it in asked if it in seen), seen[0])
        if default not in given:
            return default
        return next((it for it in seen if it not in given), None) or next(it for it in given if it in seen)

    def of_choice(self, choice, user):
        if self.is_newer:
            return self.of_newer_choice(choice, user)
        if choice.prompt is None or not self.all_of(choice.prompt):
            return None
        asked = [self.symbols[name] for name, when in choice.defaults if self.all_of(when)]
        others = [] if choice.is_optional else [*asked, *choice.members]
        return next((it for it in [user, *others] if it and self.visibility(it)), None)

    def rule(self, unit, user):
        if isinstance(unit, Choice):
            return self.of_choice(unit, user)
        return (self.of_tristate if unit.kind in (BOOL, TRISTATE) else self.of_text)(unit, user)

    def solve(self, users):
        for unit in sorted([it for it in self.symbols.values() if not it.choice] + self.choices, key=lambda it: it.rank):
            self.by_unit[unit] = self.rule(unit, users.get(unit))

    def is_written(self, it):
        if it.choice and it.choice.is_optional and not self.by_unit[it.choice]:
            return False
        if self.visibility(it) or it.choice:
            return self.visibility(it) > 0
        active = self.default(it)
        counts = active and (it.kind not in (BOOL, TRISTATE) or min(self.value(active[0]), active[1]))
        return bool(counts or self.forced(it, "select") or (self.forced(it, "imply") and (self.is_newer or self.direct(it))))

    def is_unmet(self, it):
        """Whether a symbol is selected above its direct dependency; Linux counts an `m` of that as `y` where the symbol is a bool."""
        direct = self.direct(it)
        return (2 if direct and it.kind == BOOL and self.is_linux else direct) < self.forced(it, "select")

    def line(self, it):
        if it.kind in (BOOL, TRISTATE):
            value = self.tristate(it.name)
            return f"CONFIG_{it.name}={LETTERS[value]}" if value else f"# CONFIG_{it.name} is not set"
        return f"CONFIG_{it.name}={quoted(self.by_unit[it]) if it.kind == STRING else self.by_unit[it]}"


def users_of(symbols, lines, is_newer):
    """What the lines of configuration files assign; by the rules of Linux 6.12 to a choice what each member is given by its last
    line, in order of these lines."""
    named, users = {it.name: it for it in symbols}, {}
    for line in lines:
        unset = re.fullmatch(r"# CONFIG_(.*) is not set", line)
        name, text = (unset[1], "n") if unset else line[len("CONFIG_"):].split("=", 1)
        it = named[name]
        if it.choice and is_newer:
            if text in ("y", "n"):
                given = users.setdefault(it.choice, {})
                given.pop(it, None)
                given[it] = text == "y"
        elif it.choice:
            if text == "y":
                users[it.choice] = it
        elif it.kind in (BOOL, TRISTATE):
            if text in LETTERS and (text != "m" or it.kind == TRISTATE):
                users[it] = LETTERS.index(text)
        elif it.kind == STRING and not unset:
            users[it] = re.sub(r"\\(.)", r"\1", text[1:-1])
        elif not unset and number_of(it.kind, text) is not None:
            users[it] = text
    return users


def is_needed(values, users, it):
    """Whether the minimal file has the symbol's line."""
    unit = it.choice or it
    return values.by_unit[unit] is it and values.rule(unit, None) is not it if it.choice else values.rule(unit, None) != values.by_unit[unit]


def is_missed(values, users, it):
    """Whether a symbol didn't get what the lines ask for."""
    if not it.choice:
        return it in users and users[it] != values.by_unit[it]
    if not values.is_newer:
        return users.get(it.choice) is it and values.by_unit[it.choice] is not it
    given = users.get(it.choice, {})
    if values.by_unit[it.choice] is it:
        return given.get(it) is False
    return [one for one, is_y in given.items() if is_y][-1:] == [it]


def results(symbols, choices, lines, is_classic, is_newer, is_linux):
    """The lines of the full and the minimal file, the names that are missed, and the lines of what is unmet."""
    users = users_of(symbols, lines, is_newer)
    values = Values(symbols, choices, is_classic, is_newer, is_linux)
    values.solve(users)
    return {
        "full": [values.line(it) for it in symbols if values.is_written(it)],
        "min": [values.line(it) for it in symbols if is_needed(values, users, it)],
        "missed": [it.name for it in symbols if is_missed(values, users, it)],
        "check": [f"unmet {it.name}" for it in symbols if not it.choice and values.is_unmet(it)],
    }
