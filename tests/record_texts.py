"""The lines of `kmin explain` that a record of `--format json` stands for, by docs/RULES.md, apart from the program."""
import json

MEMBERS = "name value defined_at case lift chosen given_at asked hindrance needs unmet selected_by implied_by".split()
CASES = {
    "user": "by user",
    "visibility": "by user, up to the visibility",
    "default": "default",
    "imply": "implied",
    "dependency": "implied, up to the direct dependency",
    "select": "selected",
    "user_low_bound": "by user, raised to the range",
    "user_high_bound": "by user, lowered to the range",
    "no_number": "the default is no number",
    "low_bound": "default, raised to the range",
    "high_bound": "default, lowered to the range",
    "zero": "no default, so it is 0",
    "choice_user": "chosen by user",
    "choice_default": "the choice's default",
    "choice_first": "the choice's first visible member",
    "choice_first_unlisted": "the choice's first visible member without n",
    "choice_first_listed": "each visible member has n, this one first",
    "choice_optional": "the choice is optional",
    "choice_no_member": "no member of the choice is visible",
    "choice_not_shown": "the choice isn't shown",
}
LIFTS = {None: "", "no_m": ", m is y here", "implied_y": ", an implied y leaves no m"}
HINDRANCES = {
    "below_selected": "more is selected",
    "hidden": "it isn't visible",
    "above_visibility": "its visibility is lower",
    "no_modules": "MODULES is n",
    "implied_y": "an implied y leaves no m",
    "upside_down": "no number is within its range",
    "out_of_range": "it isn't within the range",
    "choice_not_shown": "the choice isn't shown",
    "member_hidden": "it isn't visible",
    "later_y": "a later y is of another member",
    "first_of_all": "each visible member has n, this one first",
}


def members_of(pairs):
    """An object whose members are all different."""
    made = dict(pairs)
    assert len(made) == len(pairs), f"a member stands twice: {pairs}"
    return made


def records_in(text):
    """The records of lines, each one object in its shortest spelling, with its members in their order."""
    for line in text.splitlines():
        record = json.loads(line, object_pairs_hook=members_of)
        assert list(record) == MEMBERS, f"other members: {line}"
        assert line == json.dumps(record, ensure_ascii=False, separators=(",", ":")), f"another spelling: {line}"
        yield record


def place(it):
    return f"{it['path']}:{it['line']}"


def case_text(record):
    case, is_text = record["case"], record["value"] not in ("n", "m", "y")
    if case == "nothing":
        return "no default" if is_text else "no default, not selected, not implied"
    return CASES[case] + LIFTS[record["lift"]]


def part_text(part):
    is_above_m = (part["value"], part["wanted"]) == ("m", "y")
    return f"{part['part']}{' as y' if is_above_m else ''} ({place(part)})"


def alternatives(word, lists):
    return [f"  {word if not i else 'or'} {' and '.join(map(part_text, parts))}" for i, parts in enumerate(lists)]


def forcing(word, listed):
    return [f"  {word} by {it['name']} ({it['value']}) ({place(it)})" for it in listed]


def lines_of(record):
    """The lines that explain a symbol, by its record."""
    chosen = f"{record['chosen']} is y, " if record["chosen"] else ""
    given_at = f" ({place(record['given_at'])})" if record["given_at"] else ""
    yield f"{record['name']}={record['value']}: {chosen}{case_text(record)}{given_at}"
    yield from (f"  {place(it)} asks {it['value']}: {it['outcome']}" for it in record["asked"])
    yield from ["  it has no prompt"] if record["needs"] is None else alternatives("needs", record["needs"])
    if record["case"] == "select" or record["hindrance"] == "below_selected" or record["unmet"]:
        yield from forcing("selected", record["selected_by"])
    if record["case"] in ("imply", "dependency"):
        yield from forcing("implied", record["implied_by"])
    yield from alternatives("unmet:", record["unmet"])


def is_outcome_of_hindrance(record):
    """Whether the line that counts isn't taken for the reason that the record names."""
    outcomes = [it["outcome"] for it in record["asked"]][-1:]
    hindered = [f"not taken, {HINDRANCES[record['hindrance']]}"] if record["hindrance"] else []
    return outcomes == hindered if hindered else not any(outcome.startswith("not taken") for outcome in outcomes)
