"""What explains the values of the symbols of a tree, as `kmin explain` prints it, and as `missed` and `check` list it, by
docs/RULES.md, apart from the program: what gives a value, what hinders an assignment, what conditions lack, and what selects and
implies.

Expressions and values are those of tests/random_values.py; each expression of a condition has the number of its line."""
from random_values import BOOL, LETTERS, STRING, TRISTATE, is_missed, number_of, quoted, users_of

ORS, ANDS, FACTOR = range(3)


def conditional(e):
    """An expression as a condition, in which `m` is `m && MODULES`."""
    if tuple(e) == ("constant", "m"):
        return ("and", e, ("name", "MODULES"))
    if e[0] in ("not", "and", "or"):
        return (e[0], *map(conditional, e[1:]))
    return e


def conjuncts(e):
    return conjuncts(e[1]) + conjuncts(e[2]) if e[0] == "and" else [e]


class Causes:
    """What explains the symbols of values, which files give: each a name and lines."""

    def __init__(self, values, files):
        self.values, self.files = values, files
        self.users = users_of(values.symbols.values(), [line for _, lines in files for line in lines], values.is_newer)
        values.solve(self.users)

    # Conditions.

    def flat(self, condition):
        """The parts of a condition, each with its line and whether it is one of a choice that has to be shown."""
        for e in condition:
            if e[0] == "inside" and not self.values.is_newer:
                for part in e[1].prompt or [e[1].closed]:
                    yield part, part.line, True
            elif e[0] == "inside":
                yield from self.flat(e[1].direct)
            elif e[0] == "in sight":
                yield from self.flat(e[1].hidden if self.values.is_newer else [])
            else:
                yield e, e.line, False

    def lacking(self, condition, wanted):
        """The texts of the parts that are too low."""
        found = []
        for whole, line, is_of_choice in self.flat(condition):
            for part in conjuncts(conditional(whole)):
                least, value = 1 if is_of_choice else wanted, self.values.value(part)
                if value < least:
                    found.append(f"{self.spelled(part)}{' as y' if (value, least) == (1, 2) else ''} (Kconfig:{line})")
        return found

    def word(self, name):
        """A name with its value."""
        it = self.values.symbols.get(name)
        if it:
            return f"{name} ({self.text_of(it)})"
        return name if number_of(STRING, name) is not None else f"{name} (undefined)"

    def operand(self, e):
        return self.word(e[1]) if e[0] == "name" else quoted(e[1]) if e[0] == "quoted" else e[1]

    def spelled(self, e, level=ORS):
        """An expression with the values of its names, in as few parentheses as it needs; a relation has them after `!`."""
        form = e[0]
        if form == "relation":
            return f"{self.operand(e[2])} {e[1]} {self.operand(e[3])}"
        if form == "not":
            inner = self.spelled(e[1], FACTOR)
            return f"!({inner})" if e[1][0] == "relation" else f"!{inner}"
        if form == "or":
            text = f"{self.spelled(e[1], ORS)} || {self.spelled(e[2], ANDS)}"
            return f"({text})" if level > ORS else text
        if form == "and":
            text = f"{self.spelled(e[1], ANDS)} && {self.spelled(e[2], FACTOR)}"
            return f"({text})" if level > ANDS else text
        return self.operand(e)

    def text_of(self, it):
        """The value of a symbol as in a configuration file."""
        if it.kind in (BOOL, TRISTATE):
            return LETTERS[self.values.tristate(it.name)]
        return quoted(self.values.by_unit[it]) if it.kind == STRING else self.values.by_unit[it]

    # What gives a value: a text and the line of a default or a range.

    def is_without_m(self, it):
        return it.kind == BOOL or (it.kind == TRISTATE and not self.values.tristate("MODULES"))

    def active(self, attributes):
        return next((it for it in attributes if self.values.all_of(it[-1])), None)

    def leaves_no_m(self, it):
        return self.values.is_classic and self.values.direct(it) and self.values.forced(it, "imply") == 2

    def unasked(self, it):
        """What gives a bool or tristate its value without the user and selects, and that value."""
        values, active = self.values, self.active(it.defaults)
        default = min(values.value(active[0]), values.all_of(active[1])) if active else 0
        implied, direct = values.forced(it, "imply"), values.direct(it)
        is_limited = (not direct and not default) if values.is_classic else direct < max(default, implied)
        if implied and is_limited:
            return "implied, up to the direct dependency", None, direct
        if default < implied and (direct or not values.is_classic):
            return "implied", None, implied
        if active:
            return "default", active[-1][-1].line, default
        return "no default, not selected, not implied", None, 0

    def tristate_case(self, it, user):
        values = self.values
        seen, selected = values.visibility(it), values.forced(it, "select")
        if user is not None and seen:
            case = ("by user, up to the visibility", None, seen) if seen < user else ("by user", None, user)
        else:
            case = self.unasked(it)
        if case[2] < selected:
            case = "selected", None, selected
        text, line, value = case
        if value == 1 and self.is_without_m(it):
            return f"{text}, m is y here", line
        return (f"{text}, an implied y leaves no m" if value == 1 and self.leaves_no_m(it) else text), line

    def bounds(self, it):
        active = self.active(it.ranges)
        low, high = (number_of(it.kind, self.values.side(e)[2]) or 0 for e in active[:2]) if active else (None, None)
        return active, low, high

    def counts(self, it, user):
        """Whether the user's text of a string or number counts."""
        if user is None or not self.values.visibility(it):
            return False
        active, low, high = (None, 0, 0) if it.kind == STRING else self.bounds(it)
        return not active or (low <= high if self.values.is_newer else low <= number_of(it.kind, user) <= high)

    def text_case(self, it, user):
        values, default = self.values, self.active(it.defaults)
        text = values.side(default[0])[2] if default else ""
        is_users = self.counts(it, user)
        case, line = ("by user", None) if is_users else ("default", default[-1][-1].line) if default else ("no default", None)
        if it.kind == STRING:
            return case, line
        active, low, high = self.bounds(it)
        number = number_of(it.kind, user if is_users else text) or 0
        start = "by user" if is_users else "default"
        if active and number < low:
            return f"{start}, raised to the range", active[-1][-1].line
        if active and high < number:
            return f"{start}, lowered to the range", active[-1][-1].line
        if not is_users and default and number_of(it.kind, text) is None:
            return "the default is no number", line
        return ("no default, so it is 0" if case == "no default" and values.is_newer else case), line

    def choice_case(self, choice, user):
        values = self.values
        seen = [it for it in choice.members if values.visibility(it)]
        asked = [values.symbols[name] for name, when in choice.defaults if values.all_of(when)]
        default = next((it for it in asked if it in seen), None)
        given = (user or {}) if values.is_newer else {}
        if not values.is_newer and not (choice.prompt is not None and values.all_of(choice.prompt)):
            return "the choice isn't shown"
        if any(is_y and it in seen for it, is_y in given.items()) if values.is_newer else user in seen:
            return "chosen by user"
        by_default = None if choice.is_optional else default or (seen[0] if seen else None)
        if by_default in given:
            is_unlisted = any(it not in given for it in seen)
            return "the choice's first visible member without n" if is_unlisted else "each visible member has n, this one first"
        if choice.is_optional:
            return "the choice is optional"
        if default:
            return "the choice's default"
        return "the choice's first visible member" if seen else "no member of the choice is visible"

    def case(self, it):
        user = self.users.get(it.choice or it)
        if it.choice:
            return self.choice_case(it.choice, user), None
        return (self.tristate_case if it.kind in (BOOL, TRISTATE) else self.text_case)(it, user)

    # What hinders an assignment.

    def hindrance(self, it):
        user = self.users.get(it.choice or it)
        if user is None:
            return None
        if it.choice:
            return self.listed_hindrance(it, user) if self.values.is_newer else self.member_hindrance(it.choice, user)
        if self.values.by_unit[it] == user:
            return None
        return (self.tristate_hindrance if it.kind in (BOOL, TRISTATE) else self.text_hindrance)(it, user)

    def tristate_hindrance(self, it, user):
        seen = self.values.visibility(it)
        if user < self.values.forced(it, "select"):
            return "more is selected"
        if not seen:
            return "it isn't visible"
        if seen < user:
            return "its visibility is lower"
        return "MODULES is n" if self.is_without_m(it) else "an implied y leaves no m"

    def text_hindrance(self, it, user):
        if not self.values.visibility(it):
            return "it isn't visible"
        _, low, high = self.bounds(it)
        return "no number is within its range" if low > high else "it isn't within the range"

    def member_hindrance(self, choice, member):
        if self.values.by_unit[choice] is member:
            return None
        is_shown = choice.prompt is not None and self.values.all_of(choice.prompt)
        return "it isn't visible" if is_shown else "the choice isn't shown"

    def listed_hindrance(self, it, given):
        is_selected = self.values.by_unit[it.choice] is it
        if given.get(it) is None or given[it] == is_selected:
            return None
        if not given[it]:
            return "each visible member has n, this one first"
        return "a later y is of another member" if self.values.visibility(it) else "it isn't visible"

    # The lines.

    def needs(self, it):
        """The lines of what the prompts lack."""
        user = None if it.choice or it.kind not in (BOOL, TRISTATE) else self.users.get(it)
        wanted = 1 if self.is_without_m(it) else max(1, user or 0)
        lacking = [self.lacking(prompt, wanted) for prompt in it.prompts]
        return [] if not all(lacking) else alternatives("needs", lacking)

    def forcing(self, it, word, start):
        """The lines of the selects or implies that decide."""
        values = self.values
        found = [(when[-1].line, by, min(values.tristate(by.name), values.all_of(when))) for by in values.symbols.values() for w, name, when in by.forces if (w, name) == (word, it.name)]
        most = max((value for _, _, value in found), default=0)
        return [f"  {start} by {by.name} ({self.text_of(by)}) (Kconfig:{line})" for line, by, value in sorted(found, key=lambda it: it[0]) if value == most and most]

    def unmet(self, it):
        selected = self.values.forced(it, "select")
        definitions = sorted([(it.head, it.direct), *it.others], key=lambda one: one[0].line)
        return alternatives("unmet:", [self.lacking(direct, selected) for _, direct in definitions])

    def is_taken(self, case):
        return case.startswith("by user") and "range" not in case and "up to" not in case or case in (
            "chosen by user", "the choice's first visible member without n", "each visible member has n, this one first")

    def asked(self, it, name, lines):
        """The place of the last line of a file that says something of a symbol, what it asks, and that as a text; none or one."""
        unit, found = it.choice or it, []
        for number, line in enumerate(lines, 1):
            user = users_of(self.values.symbols.values(), [line], self.values.is_newer).get(unit)
            if it.choice and self.values.is_newer:
                user = (user or {}).get(it)
                text = "y" if user else "n"
            elif it.choice:
                text = "y" if user is it else f"{user.name}=y" if user else None
            else:
                text = LETTERS[user] if isinstance(user, int) else quoted(user) if it.kind == STRING and user is not None else user
            if user is not None:
                found = [(f"{name}:{number}", user, text)]
        return found

    def places(self, it):
        """The places of the last lines of files that say something of a symbol, what these ask, and the first later one that asks for
        another value."""
        found = [place for name, lines in self.files for place in self.asked(it, name, lines)]
        for i, (place, user, text) in enumerate(found):
            yield place, text, next((later for later, other, _ in found[i + 1:] if other != user), None)

    def asking(self, it, case, hindrance):
        """The lines of what files ask."""
        found = list(self.places(it))
        yield from (f"  {place} asks {text}: overridden by {by}" for place, text, by in found if by)
        for place, text, _ in found[-1:]:
            outcome = f"not taken, {hindrance}" if hindrance else "taken" if self.is_taken(case) else "the value is that without it"
            yield f"  {place} asks {text}: {outcome}"

    def is_unmet(self, it):
        return not it.choice and self.values.is_unmet(it)

    def details(self, it, case, hindrance):
        """The lines below what files ask."""
        found = ["  it has no prompt"] if hindrance == "it isn't visible" and not it.prompts else self.needs(it)
        if case.startswith("selected") or hindrance == "more is selected" or self.is_unmet(it):
            found += self.forcing(it, "select", "selected")
        if case.startswith("implied"):
            found += self.forcing(it, "imply", "implied")
        return found + (self.unmet(it) if self.is_unmet(it) else [])

    def lines(self, it):
        """The lines that explain a symbol."""
        (case, line), hindrance = self.case(it), self.hindrance(it)
        selected = self.values.by_unit[it.choice] if it.choice else None
        chosen = f"{selected.name} is y, " if selected and selected is not it else ""
        first = f"{it.name}={self.text_of(it)}: {chosen}{case}{f' (Kconfig:{line})' if line else ''}"
        return [first, *self.asking(it, case, hindrance), *self.details(it, case, hindrance)]

    # The lists.

    def cause(self, it):
        """What keeps a symbol from the value that is asked for; none where it has it."""
        if not is_missed(self.values, self.users, it):
            return None
        hindrance = self.hindrance(it)
        return one_line(f"{self.text_of(it)}: {hindrance}", "; ", self.details(it, self.case(it)[0], hindrance))

    def missed_lines(self, symbols):
        """What `missed --long` lists."""
        for it in symbols:
            found, cause = list(self.places(it)), self.cause(it)
            yield from (f"{place}: {it.name}: {text} -> overridden by {by}" for place, text, by in found if by)
            if cause:
                yield f"{found[-1][0]}: {it.name}: {found[-1][1]} -> {cause}"

    def missed_causes(self, symbols):
        """What `missed --by-cause` lists."""
        groups = {}
        for it in symbols:
            if self.cause(it):
                groups.setdefault(self.cause(it), []).append(it.name)
        yield f"{sum(map(len, groups.values()))} missed, {len(groups)} causes"
        for cause, names in sorted(groups.items(), key=lambda group: -len(group[1])):
            yield f"{len(names)} {cause}"
            yield from (f"  {name}" for name in names)

    def unmet_lines(self, symbols):
        """What `check --long` lists."""
        for it in filter(self.is_unmet, symbols):
            line = min(head.line for head in [it.head, *(head for head, _ in it.others)])
            details = self.forcing(it, "select", "selected") + self.unmet(it)
            yield one_line(f"Kconfig:{line}: {it.name}: {self.text_of(it)}", ": ", details)


def one_line(start, first, lines):
    """Inner lines behind a text."""
    return start + first + "; ".join(line.strip() for line in lines) if lines else start


def alternatives(word, lists):
    return [f"  {word if not i else 'or'} {' and '.join(parts)}" for i, parts in enumerate(lists)]
