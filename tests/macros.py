"""The expansion of macros, written apart from the program, so that a test can compare both.

`expand(tree, root, answers)` goes over a tree's files in reading order and returns what the program's expansion makes of
them. A text is `bytes`; a value is a text, or `None` where it depends on a question without an answer."""
import os
import re

MAX_TEXT, MAX_OPEN, MAX_PIECES, MAX_WORK = 65_536, 64, 16, 67_108_864
MAX_FILES, MAX_BYTES, MAX_OPEN_FILES, MAX_NAMES = 4_096, 67_108_864, 32, 1_048_576

WHITE = b"\t\v\f\r "
DIGITS = b"0123456789"
NAME = b"ABCDEFGHIJKLMNOPQRSTUVWXYZabcdefghijklmnopqrstuvwxyz_" + DIGITS
BARE = NAME + b"-"
WORD = BARE + b"./"
RUN = WORD + b"$"
KEYWORDS = set(
    b"config menuconfig choice endchoice menu endmenu if endif comment source mainmenu bool tristate string hex int "
    b"def_bool def_tristate prompt default depends on select imply range visible help ---help--- modules option env "
    b"defconfig_list allnoconfig_y def_int def_hex def_string rsource osource orsource optional transitional".split())
PROMPT_WORDS = b"bool tristate string hex int prompt menu comment mainmenu".split()
SOURCE_WORDS = b"source rsource osource orsource".split()
HELP_WORDS = (b"help", b"---help---")
ENVIRONMENT_LINE = re.compile(rb"""[\t\v\f\r ]*option[\t\v\f\r ]+env[\t\v\f\r ]*=[\t\v\f\r ]*(["'])([A-Za-z_][A-Za-z0-9_]*)\1[\t\v\f\r ]*(#.*)?""", re.DOTALL)


class Fault(Exception):
    """Why a tree isn't expanded: its place, its kind and a text."""

    def __init__(self, at, kind, text=b""):
        super().__init__(kind)
        self.at, self.kind, self.text = at, kind, text


class Stopped(Exception):
    """All the rest depends on a question without an answer."""


def inside_length(text):
    """How many bytes come before the `)` that closes no `(` among them."""
    opened = 0
    for at, byte in enumerate(text):
        if byte == 0x29 and opened == 0:
            return at
        opened += (byte == 0x28) - (byte == 0x29)
    return None


def items(text, quoted):
    """A text as bytes, pairs of a backslash and a byte (in quotes), references, and a `$(` without its `)`."""
    at = 0
    while at < len(text):
        if text[at:at + 2] == b"$(":
            length = inside_length(text[at + 2:])
            if length is None:
                yield "unterminated", text[at:]
                return
            yield "reference", text[at:at + length + 3]
            at += length + 3
        elif quoted and text[at] == 0x5C and at + 1 < len(text):
            yield "pair", text[at:at + 2]
            at += 2
        else:
            yield "byte", text[at:at + 1]
            at += 1


def extent(text, quoted, ends):
    """How many bytes come before the first item that begins with a byte of this test."""
    length = 0
    for _, item in items(text, quoted):
        if ends(item[0]):
            return length
        length += len(item)
    return length


def pieces(inside):
    """The inside of a reference, cut at its commas outside parentheses."""
    made, opened = [b""], 0
    for at in range(len(inside)):
        byte = inside[at:at + 1]
        if byte == b"," and opened == 0:
            made.append(b"")
            continue
        if byte == b"(":
            opened += 1
        if byte == b")" and opened:
            opened -= 1
        made[-1] += byte
    return made


def line_tokens(text):
    """The tokens of a logical line: their sort and their bytes."""
    at = 0
    while at < len(text):
        rest = text[at:]
        if rest[0] in WHITE:
            token = "trivia", rest[:1]
        elif rest[0] == 0x23:
            token = "trivia", rest
        elif rest[0] in RUN:
            run = rest[:extent(rest, False, lambda byte: byte not in RUN)]
            token = "broken" if any(sort == "unterminated" for sort, _ in items(run, False)) else "run", run
        elif rest[0] in b"\"'":
            token = quoted_token(rest)
        else:
            token = "other", rest[:1]
        yield token
        at += len(token[1])


def quoted_token(rest):
    inside = rest[1:]
    length = extent(inside, True, lambda byte: byte == rest[0])
    if any(sort == "unterminated" for sort, _ in items(inside[:length], True)):
        return "broken", rest
    return ("quoted", rest[:length + 2]) if length < len(inside) else ("other", rest)


def escaped(quote, text):
    return b"".join(b"\\" + text[at:at + 1] if text[at] in b"\\$" + quote else text[at:at + 1] for at in range(len(text)))


def in_quotes(text):
    return b'"' + escaped(b'"', text) + b'"'


def written_text(text):
    """A text as one token: its sort, its bytes, and the text that it means."""
    if not text:
        return "trivia", b" ", b""
    if all(byte in BARE for byte in text) and text not in KEYWORDS:
        return "word", text, text
    return "quoted", in_quotes(text), text


def is_utf8(text):
    try:
        text.decode()
    except UnicodeDecodeError:
        return False
    return True


def matches(piece, name):
    """Whether a name matches a piece of a pattern."""
    ends = {0}
    for byte in piece:
        if byte == 0x2A:
            ends = set(range(min(ends), len(name) + 1)) if ends else ends
        else:
            ends = {end + 1 for end in ends if end < len(name) and (byte == 0x3F or name[end] == byte)}
    return len(name) in ends


class Tree:
    """The files of a folder, or of a table of paths."""

    def __init__(self, folder=None, table=None):
        self.folder, self.table = folder, table

    def has(self, path):
        """Whether a file is at a path, also one that can't be read."""
        if self.table is not None:
            return path in self.table
        try:
            return os.path.isfile(os.path.join(os.fsencode(self.folder), path.lstrip(b"/")))
        except ValueError:
            return False

    def read(self, path):
        if self.table is not None:
            return self.table.get(path)
        try:
            place = os.path.join(os.fsencode(self.folder), path.lstrip(b"/"))
            if not os.path.isfile(place):
                return None
            with open(place, "rb") as file:
                return file.read()
        except (OSError, ValueError):
            return None

    def names(self, folder):
        if self.table is not None:
            below = [path[len(folder):] for path in self.table if path.startswith(folder)]
            return sorted({path.split(b"/")[0] for path in below})
        try:
            return sorted(os.listdir(os.path.join(os.fsencode(self.folder), folder.lstrip(b"/"))))
        except OSError:
            return []


class Expansion:
    """One reading of a tree. `all_answered` says that a question without an answer is a fault."""

    def __init__(self, tree, root, answers, all_answered=True):
        self.tree, self.root, self.answers, self.all_answered = tree, root, answers, all_answered
        self.variables, self.choices, self.texts, self.paths = {}, set(), {}, {}
        self.notices, self.questions, self.work = [], [], MAX_WORK
        self.files = self.bytes = self.listed = 0

    # values

    def spend(self, at, work):
        if self.work < work:
            raise Fault(at, "TooMany")
        self.work -= work

    def ask(self, at, question):
        if question in self.answers:
            return self.answers[question] or b""
        if self.all_answered:
            raise Fault(at, "Unanswered", question)
        if question not in self.questions:
            self.questions.append(question)
        return None

    def value(self, at, text, arguments=(), names=(), more=MAX_OPEN):
        """The value of a text."""
        if more == 0:
            raise Fault(at, "TooDeep")
        self.spend(at, len(text) + 1)
        made, known = [], True
        length = 0
        for sort, item in items(text, False):
            if sort == "unterminated":
                raise Fault(at, "Unterminated")
            part = self.reference(at, item[2:-1], arguments, names, more - 1) if sort == "reference" else item
            known = known and part is not None
            made.append(part or b"")
            length += len(made[-1])
            if length > MAX_TEXT:
                raise Fault(at, "LineTooLong")
        value = b"".join(made) if known else None
        self.spend(at, len(value or b""))
        return value

    def reference(self, at, inside, arguments, names, more):
        if inside and all(byte in DIGITS for byte in inside) and 1 <= int(inside) <= len(arguments):
            return arguments[int(inside) - 1]
        parts = pieces(inside)
        if len(parts) > MAX_PIECES:
            raise Fault(at, "Arguments")
        name, *given = [self.value(at, part, arguments, names, more) for part in parts]
        if name is None:
            return None
        if name not in self.variables:
            return self.unbound(at, name, given)
        is_simple, value = self.variables[name]
        if is_simple:
            return value
        if not given and name in names:
            raise Fault(at, "Recursion", name)
        return self.value(at, value, given, (*names, name), more)

    def unbound(self, at, name, given):
        counts = {b"filename": 0, b"lineno": 0, b"shell": 1, b"info": 1, b"warning-if": 2, b"error-if": 2}
        if name in counts:
            if len(given) != counts[name]:
                raise Fault(at, "Arguments", name)
            return self.built_in(at, name, given)
        if not given and name and all(byte in DIGITS for byte in name):
            return b""
        if not given and name and name[0] not in DIGITS and all(byte in NAME for byte in name):
            return self.ask(at, name)
        raise Fault(at, "Undefined", name)

    def built_in(self, at, name, given):
        if name == b"filename":
            return at[0]
        if name == b"lineno":
            return b"%d" % at[1]
        if name == b"shell":
            return None if given[0] is None else self.ask(at, b"$ " + given[0].rstrip(WHITE))
        condition, text = (b"y", given[0]) if name == b"info" else given
        if condition == b"y" and text is not None:
            if name == b"error-if":
                raise Fault(at, "Error", text)
            self.notices.append((at, "Info" if name == b"info" else "Warning", text))
        return b""

    # lines

    def written(self, at, sort, token):
        """A token as it is written: its sort, its bytes and the text that it means."""
        if sort == "broken":
            raise Fault(at, "Unterminated")
        if sort == "run":
            return self.written_run(at, token)
        if sort == "quoted":
            return self.written_quoted(at, token)
        return sort, token, b""

    def written_run(self, at, run):
        parts = list(items(run, False))
        if ("byte", b"$") in parts:
            return "other", run, b""
        if all(part == "byte" for part, _ in parts):
            return "word", run, run
        value = self.value(at, run)
        return ("unknown", b"", None) if value is None else written_text(value)

    def written_quoted(self, at, token):
        quote, made, meaning = token[:1], [], b""
        for sort, item in items(token[1:-1], True):
            value = self.value(at, item) if sort == "reference" else item[-1:]
            if sort == "reference":
                made.append(escaped(quote, value or b""))
            else:
                made.append(b"\\$" if item == b"$" else item)
            meaning = None if meaning is None or value is None else meaning + value
        return "quoted", quote + b"".join(made) + quote, meaning

    def content(self, at, text):
        """A line as an assignment (name, operator, text), or as written tokens."""
        made, may_assign, tokens = [], True, list(line_tokens(text))
        for number, (sort, token) in enumerate(tokens):
            rest = b"".join(later for _, later in tokens[number + 1:])
            operator = operator_at(rest) if may_assign and sort == "run" and token not in KEYWORDS else None
            if operator:
                name = self.value(at, token) if b"$" in token else token
                if name is None:
                    raise Stopped
                if name:
                    return (name, operator, rest.lstrip(WHITE)[len(operator):].lstrip(b" \t")), None
                made.append(("trivia", b" ", b""))
                continue
            one = self.written(at, sort, token)
            if may_assign and one[0] == "unknown" and any(later != "trivia" for later, _ in tokens[number + 1:]):
                raise Stopped
            made.append(one)
            may_assign = may_assign and one[0] == "trivia"
        return None, made

    def assign(self, at, name, operator, text):
        is_simple, before = self.variables.get(name, (False, None))
        if operator == b":=" or (operator == b"+=" and is_simple):
            value = self.value(at, text)
            if operator == b"+=":
                value = None if before is None or value is None else before + b" " + value
            made = True, value
        elif operator == b"+=" and name in self.variables:
            made = False, before + b" " + text
        else:
            made = False, text
        if len(made[1] or b"") > MAX_TEXT:
            raise Fault(at, "LineTooLong")
        self.spend(at, len(made[1] or b""))
        self.variables[name] = made

    def line(self, at, text, continued, open_files):
        """What a logical line becomes, and whether a help text follows."""
        if len(text) > MAX_TEXT or not is_utf8(text):
            return text, begins_help(text)
        environment = ENVIRONMENT_LINE.fullmatch(text)
        if environment:
            text = b'option env "$(' + environment[2] + b')"'
        assignment, tokens = self.content(at, text)
        if assignment:
            if continued:
                raise Fault(at, "JoinedAssignment")
            self.assign(at, *assignment)
            return b"", False
        real = [token for token in tokens if token[0] != "trivia"]
        if real and real[0][0] == "word" and real[0][1] in (*SOURCE_WORDS, *HELP_WORDS) and any(token[0] == "unknown" for token in real[1:]):
            raise Stopped
        made = self.formed(at, tokens, real, open_files)
        if len(made) > MAX_TEXT:
            raise Fault(at, "LineTooLong")
        return made, len(real) == 1 and real[0][0] == "word" and real[0][1] in HELP_WORDS

    def formed(self, at, tokens, real, open_files):
        """A line by its form."""
        whole = b"".join(token[1] for token in tokens)
        if len(real) < 2 or real[0][0] != "word":
            return whole
        word, second = real[0][1], real[1]
        if word in PROMPT_WORDS and second[0] == "word" and second[1] not in (b"if", b"on"):
            return with_tokens(tokens, {1: b'"' + second[1] + b'"'})
        if len(real) > 2:
            return whole
        if word in SOURCE_WORDS and second[0] in ("word", "quoted", "unknown"):
            return self.followed(at, tokens, word, second[2], open_files, whole)
        if word == b"choice" and second[0] == "word":
            if second[1] in self.choices:
                return whole
            self.choices.add(second[1])
            return with_tokens(tokens, {1: b""})
        if word == b"option" and second[1] in (b"defconfig_list", b"allnoconfig_y"):
            white = next(number for number, token in enumerate(tokens) if token[0] != "trivia")
            front = b"".join(token[1] for token in tokens[:white])
            return front + (b"depends on n" if second[1] == b"defconfig_list" else b"")
        return whole

    # files

    def followed(self, at, tokens, word, given, open_files, whole):
        """A line that sources files."""
        if given is None:
            raise Stopped
        path = given
        if word in (b"rsource", b"orsource") and not given.startswith(b"/"):
            path = at[0][:at[0].rfind(b"/") + 1] + given
        if b"[" in path:
            return whole
        optional = word in (b"osource", b"orsource")
        if b"*" in path or b"?" in path:
            paths = self.pattern(at, path)
            if not paths and not optional:
                raise Fault(at, "MissingFile")
            key = self.list(at, paths, open_files)
        elif optional:
            key = self.list(at, [path] if self.tree.has(path) else [], open_files)
        else:
            key = self.file(at, path, open_files)
        return with_tokens(tokens, {0: b"source"} if key == given else {0: b"source", 1: in_quotes(key)})

    def pattern(self, at, path):
        folders, parts = [b""], path.split(b"/")
        for number, piece in enumerate(parts):
            made = []
            for folder in folders:
                if b"*" not in piece and b"?" not in piece:
                    made.append(folder + piece)
                    continue
                names = self.tree.names(folder)
                self.listed += len(names)
                if self.listed > MAX_NAMES:
                    raise Fault(at, "TooMany")
                made += [folder + name for name in names if is_utf8(name) and b"\n" not in name and (name[:1] != b"." or piece[:1] == b".") and matches(piece, name)]
            folders = made if number == len(parts) - 1 else [folder + b"/" for folder in made]
        return sorted(made for made in folders if self.tree.has(made))

    def refuse(self, at, path, size, open_files):
        if path in open_files:
            raise Fault(at, "SourceLoop")
        if size is None:
            raise Fault(at, "MissingFile")
        if len(open_files) >= MAX_OPEN_FILES:
            raise Fault(at, "TooDeep")
        if self.files >= MAX_FILES or self.bytes + size > MAX_BYTES:
            raise Fault(at, "TooMany")
        self.files, self.bytes = self.files + 1, self.bytes + size

    def file(self, at, path, open_files):
        contents = self.tree.read(path)
        self.refuse(at, path, None if contents is None else len(contents), open_files)
        return self.keep(path, self.lines(path, contents, (*open_files, path)))

    def list(self, at, paths, open_files):
        name = b"%s:%d" % at
        self.refuse(at, name, 0, open_files)
        inner = (*open_files, name)
        return self.keep(name, b"".join(b"source " + in_quotes(self.file(at, path, inner)) + b"\n" for path in paths))

    def keep(self, path, text):
        key, number = path, 2
        while key == self.root or self.texts.get(key, text) != text:
            key, number = b"%s#%d" % (path, number), number + 1
        if key not in self.texts:
            self.texts[key], self.paths[key] = text, path
        return key

    def lines(self, path, contents, open_files):
        """What the lines of a file become."""
        physical, made, number = split(contents), [], 0
        while number < len(physical):
            count = 1
            while number + count < len(physical) and is_continued(physical[number + count - 1]):
                count += 1
            own = physical[number:number + count]
            text = b"".join(stripped(line)[:-1] if is_continued(line) else stripped(line) for line in own)
            new, helps = self.line((path, number + 1), text, is_continued(own[0]), open_files)
            made.append(b"".join(own) if new == text else new + b"\n" * sum(line.endswith(b"\n") for line in own))
            number += count
            if helps:
                count = help_lines(physical[number:])
                made.append(b"".join(physical[number:number + count]))
                number += count
        return b"".join(made)

    def whole(self):
        contents = self.tree.read(self.root)
        if contents is None:
            raise Fault((self.root, 0), "MissingFile")
        if len(contents) > MAX_BYTES:
            raise Fault((self.root, 0), "TooMany")
        self.files, self.bytes = 1, len(contents)
        text = self.lines(self.root, contents, (self.root,))
        self.texts[self.root], self.paths[self.root] = text, self.root


def operator_at(rest):
    rest = rest.lstrip(WHITE)
    return next((operator for operator in (b"=", b":=", b"+=") if rest.startswith(operator)), None)


def with_tokens(tokens, new):
    """The bytes of a line with other bytes in place of some of its tokens, trivia aside."""
    made, number = [], 0
    for sort, token, _ in tokens:
        made.append(new.get(number, token) if sort != "trivia" else token)
        number += sort != "trivia"
    return b"".join(made)


def split(contents):
    """Physical lines with their newlines."""
    lines = [line + b"\n" for line in contents.split(b"\n")]
    lines[-1] = lines[-1][:-1]
    return lines if lines[-1] else lines[:-1]


def stripped(line):
    """A physical line without its newline and a carriage return just before that."""
    if not line.endswith(b"\n"):
        return line
    return line[:-2] if line.endswith(b"\r\n") else line[:-1]


def is_continued(line):
    return line.endswith(b"\n") and stripped(line).endswith(b"\\")


def begins_help(text):
    """Whether a line is one word that begins a help text."""
    return text.split(b"#")[0].strip(WHITE) in HELP_WORDS


def column(text):
    """The column of a line's first byte that is no space or tab."""
    made = 0
    for byte in text:
        if byte == 0x20:
            made += 1
        elif byte == 0x09:
            made = (made // 8 + 1) * 8
        else:
            break
    return made


def help_lines(lines):
    """How many lines the help text at the front has."""
    texts = [stripped(line) for line in lines]
    first = next((column(text) for text in texts if text.strip(WHITE)), 0)
    if first == 0:
        return 0
    return next((number for number, text in enumerate(texts) if text.strip(WHITE) and column(text) < first), len(texts))


def read_answers(contents):
    """The questions of a file of answers, with a text or `None` for a name that isn't set."""
    made, question = {}, None
    for line in contents.split(b"\n"):
        line = line.rstrip(WHITE)
        if question is not None:
            made[question], question = line[2:], None
        elif line[:1] == b"!":
            made[line[1:]] = None
        elif line[:2] == b"$ ":
            question = line
        elif line and line[:1] != b"#":
            name, _, text = line.partition(b"=")
            made[name] = text
    return made


def expand(tree, root, answers):
    """The expanded texts by key, the path that was read for each, the notices and the fault, if there is one."""
    made = Expansion(tree, root, answers)
    try:
        made.whole()
    except Fault as fault:
        return made.texts, made.paths, made.notices, fault
    return made.texts, made.paths, made.notices, None


def wants(tree, root, answers):
    """The questions without an answer, and the fault of the reading."""
    made = Expansion(tree, root, answers, all_answered=False)
    try:
        made.whole()
    except Stopped:
        pass
    except Fault as fault:
        return made.questions, fault
    return made.questions, None
