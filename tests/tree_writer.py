"""Random trees with the line of each of their conditions, and configuration files for them."""
import random_values
from random_values import BOOL, HEX, INT, STRING, TRISTATE

MAX = 24


class Part(tuple):
    """An expression that stands on a line of its own, and the line's number."""
    line = 0


class Line(str):
    """A line with the expressions that are on it."""

    def __new__(cls, text, *parts):
        made = super().__new__(cls, text)
        made.parts = parts
        return made


class Writer:
    """A random tree: a symbol's conditions name only symbols of lower ranks, and it selects only higher ones. With `has_more`
    some choices are optional, and some symbols have a second definition."""

    def __init__(self, rng, has_more=False):
        self.rng, self.has_more, self.symbols, self.choices = rng, has_more, [], []
        count = rng.randint(3, MAX)
        self.kinds = [rng.choices([BOOL, TRISTATE, INT, HEX, STRING], [25, 50, 10, 5, 10])[0] for _ in range(count)]
        self.has_modules = rng.random() < 0.8
        if self.has_modules:
            self.kinds[0] = BOOL
        self.lines = self.block(0, count, [], [], 0)
        for number, line in enumerate(self.lines, 1):
            for part in getattr(line, "parts", ()):
                part.line = number
        placed = {it.name: it for it in self.symbols}
        self.symbols = list(dict.fromkeys(placed[line.split()[1]] for line in self.lines if line.startswith("config ")))
        for it in self.symbols:
            it.sort()

    def name(self, rank):
        return "MODULES" if self.has_modules and rank == 0 else f"S{rank}"

    def chance(self, share):
        return self.rng.random() < share

    def operand(self, rank):
        rng = self.rng
        if rank and self.chance(0.7):
            return ("name", self.name(rng.randrange(rank)))
        return rng.choice([("constant", "y"), ("constant", "n"), ("constant", "m"), ("name", "NO"), ("name", "7"), ("name", "0x10"), ("quoted", "text"), ("quoted", "9")])

    def condition(self, rank, depth=0):
        form = self.rng.random()
        if depth > 2 or form < 0.5:
            if rank and self.chance(0.9):
                return ("name", self.name(self.rng.randrange(rank)))
            return self.rng.choice([("constant", "y"), ("name", "NO")] + [("constant", "m")] * (rank > 0))
        if form < 0.65:
            return ("relation", self.rng.choice(["=", "!=", "<", "<=", ">", ">="]), self.operand(rank), self.operand(rank))
        if form < 0.75:
            return ("not", self.condition(rank, depth + 1))
        return (self.rng.choice(["and", "or"]), self.condition(rank, depth + 1), self.condition(rank, depth + 1))

    def own_if(self, rank, share):
        """The condition of an attribute, and its text after it."""
        if not self.chance(share):
            return Part(("constant", "y")), ""
        made = Part(self.condition(rank))
        return made, f" if {random_values.spelled(made)}"

    def depends(self, rank):
        made = [Part(self.condition(rank))] if self.chance(0.35) else []
        return made, [Line(f"\tdepends on {random_values.spelled(it)}", it) for it in made]

    def default(self, rank, kind):
        """The value of a default."""
        if kind in (BOOL, TRISTATE):
            value = self.rng.choice(["y", "y", "n"] + ["m"] * (kind == TRISTATE))
            return ("constant", value) if self.chance(0.6) or not rank else ("and", self.condition(rank), self.condition(rank))
        same = [self.name(r) for r in range(rank) if self.kinds[r] == kind]
        if same and self.chance(0.3):
            return ("name", self.rng.choice(same))
        if kind == STRING:
            return ("quoted", self.rng.choice(["", "a", 'b"c', "d\\e"]))
        return ("name", f"{self.rng.randint(0, 30):#x}" if kind == HEX else f"{self.rng.randint(0, 30):02}")

    def symbol(self, rank, round_it, hidden, choice=None):
        """One symbol, with the conditions of the blocks around it."""
        kind, low = (BOOL, choice.rank) if choice else (self.kinds[rank], rank)
        made = random_values.Symbol(self.name(rank), rank, kind, choice)
        own, text = self.depends(low)
        made.direct, made.head = round_it + own, Part(("constant", "y"))
        lines = [Line(f"config {made.name}", made.head), f"\t{kind}", *text]
        if choice or self.chance(0.75):
            lines += self.prompt(made, made.direct, hidden, low)
        if made.name == "MODULES":
            always = Part(("constant", "y"))
            made.defaults.append((("constant", "y"), made.direct + [always]))
            lines.append(Line("\tdefault y", always))
        for _ in range(0 if choice else self.rng.choice([0, 1, 1, 2])):
            value, (when, text) = self.default(low, kind), self.own_if(low, 0.4)
            made.defaults.append((value, made.direct + [when]))
            lines.append(Line(f"\tdefault {random_values.spelled(value)}{text}", when))
        if kind in (INT, HEX) and self.chance(0.6):
            bounds, (when, text) = (self.default(low, kind), self.default(low, kind)), self.own_if(low, 0.3)
            made.ranges.append((*bounds, made.direct + [when]))
            lines.append(Line(f"\trange {random_values.spelled(bounds[0])} {random_values.spelled(bounds[1])}{text}", when))
        for word, share in (("select", 0.15), ("imply", 0.5)) if kind in (BOOL, TRISTATE) and not choice else ():
            targets = [r for r in range(rank + 1, len(self.kinds)) if self.kinds[r] in (BOOL, TRISTATE)]
            if targets and self.chance(share):
                target, (when, text) = self.rng.choice(targets), self.own_if(low, 0.4)
                made.forces.append((word, self.name(target), made.direct + [when]))
                lines.append(Line(f"\t{word} {self.name(target)}{text}", when))
        self.symbols.append(made)
        return lines

    def prompt(self, it, direct, hidden, rank):
        """The line of a prompt of a definition with these conditions."""
        when, text = self.own_if(rank, 0.3)
        it.prompts.append(direct + hidden + [when])
        return [Line(f'\tprompt "p"{text}', when)]

    def again(self, it, round_it, hidden):
        """A further definition of a symbol."""
        own, text = self.depends(it.rank)
        head = Part(("constant", "y"))
        it.others.append((head, round_it + own))
        lines = [Line(f"config {it.name}", head), f"\t{it.kind}", *text]
        return lines + (self.prompt(it, round_it + own, hidden, it.rank) if self.chance(0.75) else [])

    def choice(self, first, last, round_it, hidden):
        """A choice of some symbols."""
        made = random_values.Choice(first)
        own, text = self.depends(first)
        made.direct, made.hidden, made.closed = round_it + own, hidden, Part(("constant", "n"))
        lines = [Line("choice", made.closed), *text]
        if self.chance(0.9):
            when, text = self.own_if(first, 0.3)
            made.prompt = round_it + own + hidden + [when]
            lines.append(Line(f'\tprompt "c"{text}', when))
        if self.has_more and self.chance(0.3):
            made.is_optional = True
            lines.append("\toptional")
        for _ in range(self.rng.choice([0, 1, 2])):
            member, (when, text) = self.rng.randrange(first, last), self.own_if(first, 0.4)
            made.defaults.append((self.name(member), round_it + own + [when]))
            lines.append(Line(f"\tdefault {self.name(member)}{text}", when))
        self.choices.append(made)
        for rank in range(first, last):
            self.kinds[rank] = "member"
            lines += self.symbol(rank, [("inside", made)], [("in sight", made)], made)
        made.members = self.symbols[-(last - first):]
        return [*lines, "endchoice"]

    def block(self, first, last, round_it, hidden, depth):
        """The symbols of these ranks, in any order."""
        parts, rank = [], first
        while rank < last:
            form, end = self.rng.random(), min(last, rank + self.rng.randint(2, 6))
            if rank and form < 0.12 and all(kind in (BOOL, TRISTATE) for kind in self.kinds[rank:end]):
                parts.append(self.choice(rank, end, round_it, hidden))
            elif rank and form < 0.24 and depth < 3:
                when = Part(self.condition(rank))
                parts.append([Line(f"if {random_values.spelled(when)}", when), *self.block(rank, end, round_it + [when], hidden, depth + 1), "endif"])
            elif rank and form < 0.36 and depth < 3:
                when, sight = Part(self.condition(rank)), Part(self.condition(rank))
                head = ['menu "M"', Line(f"\tdepends on {random_values.spelled(when)}", when), Line(f"\tvisible if {random_values.spelled(sight)}", sight)]
                parts.append([*head, *self.block(rank, end, round_it + [when], hidden + [sight], depth + 1), "endmenu"])
            else:
                end = rank + 1
                parts.append(self.symbol(rank, round_it, hidden))
                if self.has_more and self.name(rank) != "MODULES" and self.chance(0.2):
                    parts.append(self.again(self.symbols[-1], round_it, hidden))
            rank = end
        self.rng.shuffle(parts)
        return [line for part in parts for line in part]

    def settings(self):
        """The lines of a configuration file."""
        for _ in range(self.rng.randint(0, len(self.symbols))):
            it = self.rng.choice(self.symbols)
            if it.kind in (BOOL, TRISTATE):
                value = self.rng.choice("ynm")
            elif it.kind == STRING:
                value = self.rng.choice(['""', '"a"', '"x y"', '"q\\"r"'])
            else:
                value = self.rng.choice(["3", "007", "25", "0x1F", "", "z"])
            yield f"CONFIG_{it.name}={value}" if self.chance(0.85) else f"# CONFIG_{it.name} is not set"
