"""Rows: runs of the program with the bytes that go in and come out, in the files of tests/rows.

A line '== NAME' begins a row; lines '# ..' after it describe it. A line '$ kmin WORD ..' has the words, quoted as in a
shell; in a word, too, \\xNN is a byte. A line '-- NAME' begins a part: the lines up to the next such line are its bytes,
unchanged. Parts are 'stdin', 'stdout', 'stderr', 'word', a last word for the program, 'environment', lines NAME=VALUE of
variables that it has besides, and any other name is a file in the folder where the program runs. '-- after NAME' has the bytes
of a file after the run; each other file has to be as it was, and no further one may be there.
After the name a part may have a word:

    escaped    the lines are joined, and \\n, \\r, \\t, \\\\, \\" and \\xNN are bytes
    repeated   each line is COUNT TEXT: TEXT, read as escaped, COUNT times, '{}' being its number from 0
    link       a symbolic link to the path that the part's line has
    pipe       a named pipe that nobody writes
    full       of stdout and stderr: a device on which no byte finds room, /dev/full
    closed     of stdout and stderr: it isn't open
    gone       after 'after NAME': there is no such file after the run
    endless    of stdin: zero bytes without an end, /dev/zero
    unended    of stdin, alone or after another word: the stream stays open after these bytes, so that a program that asks
               for more of it waits until its time is up

'-- status N' has the status, 0 without it. '-- long': the row is too long to be cut at each byte, or to be read in small
pieces each of which fails in turn; '-- large' that its allocations, reads and writes are too many to be refused in turn at all.
'-- memory N' gives the program N kibibytes of memory and no more; such a row counts as large, and
so does one with '-- room N', which lets no file that it writes have more than N blocks of 512 bytes.
"""
import concurrent.futures
import contextlib
import json
import multiprocessing
import os
import re
import shlex
import subprocess
import tempfile
import threading

TOP = os.path.dirname(os.path.dirname(os.path.realpath(__file__)))
PROGRAM = f"{TOP}/crates/kmin/out/kmin"
SECONDS = 120
COMMANDS = ("full", "min", "missed", "check", "compare")
OPTIONS = ("--root", "--tree", "--language", "--prefix", "--strings", "--imply")
FLAGS = ("--no-prefix",)
EXPANDING = ("--expand", "--answers", "--define", "--env")
INPUTS = ("@-", "@/dev/stdin")


def unescaped(text):
    """The bytes that an escaped text means."""
    return text.encode().decode("unicode_escape").encode("latin-1")


def repeated(lines):
    """The bytes of lines COUNT TEXT."""
    made = []
    for line in lines:
        count, text = line.split(" ", 1)
        text = unescaped(text)
        made += [text.replace(b"{}", b"%d" % i) for i in range(int(count))] if b"{}" in text else [text * int(count)]
    return b"".join(made)


def lines_of(data):
    """The lines of a file, each with its newline if it has one."""
    return re.findall(rb"[^\n]*\n|[^\n]+", data)


def split_bundle(bundle):
    """The two parts of a bundle, before and after its first line of just `%%`; the second is None where there is none."""
    lines = lines_of(bundle)
    for number, line in enumerate(lines):
        if line.rstrip(b"\n") == b"%%":
            return b"".join(lines[:number]), b"".join(lines[number + 1 :])
    return bundle, None


def plain_line(line, root):
    """A message of standard error in any form as a plain line without its text, and with its path below the folder of the tree."""
    if line.startswith(b"{"):
        it = json.loads(line)
        path, number, kind = it["file"], it["line"], it["kind"]
    else:
        found = re.fullmatch(r"(?:kmin|([^\n]*?):(\d+)): (?:(?:error|warning): )?(\w+)(?:[: ].*)?\n?", os.fsdecode(line))
        if not found:
            return line
        path, number, kind = found.groups()
    if path is None:
        return {"OutOfMemory": b"out of memory\n", "Write": b"output: Write\n"}.get(kind, line)
    return os.fsencode(f"{path.removeprefix(f'{root}/')}:{number}: {kind}\n")


def side_by_side(call, *items):
    """What a call gives for each item (or for the items at each place of several lists), in their order, each worked out in
    one of as many processes as there are processors for this one."""
    with concurrent.futures.ProcessPoolExecutor(len(os.sched_getaffinity(0)), multiprocessing.get_context("fork")) as pool:
        yield from pool.map(call, *items)


def write_file(folder, name, data):
    """Writes a file below a folder, in place of one that is there (to write over that would wait for the disk)."""
    path = f"{folder}/{name}"
    os.makedirs(os.path.dirname(path), exist_ok=True)
    with contextlib.suppress(FileNotFoundError):
        os.unlink(path)
    with open(path, "wb") as it:
        it.write(data)


def files_in(folder):
    """What is in a folder: the bytes of each file by its path, and what a link or a pipe is."""
    found = {}
    for place, folders, names in os.walk(folder):
        for path in (f"{place}/{name}" for name in [*folders, *names]):
            if os.path.islink(path) or not os.path.isdir(path):
                found[os.path.relpath(path, folder)] = content_at(path)
    return found


def content_at(path):
    """The bytes of a file; of a link or a pipe, words for it."""
    if os.path.islink(path):
        return f"a link to {os.readlink(path)}"
    if not os.path.isfile(path):
        return "a pipe"
    with open(path, "rb") as it:
        return it.read()


def feed(stream, data):
    """Writes what is read of these bytes."""
    rest = memoryview(data)
    try:
        while rest:
            rest = rest[os.write(stream, rest) :]
    except BrokenPipeError:
        pass


def content(how, text):
    """The bytes of a part's text."""
    if how == "escaped":
        return unescaped("".join(text.splitlines()))
    if how == "repeated":
        return repeated(text.splitlines())
    if how:
        raise ValueError(f"no part has the form {how}")
    return text.encode()


def words_in(data):
    """The words in a file of words."""
    lines = (re.sub(r"\r\Z", "", line) for line in os.fsdecode(data).split("\n"))
    return [line for line in lines if line and not line.startswith("#")]


def words_of(options):
    """The words that give options."""
    return [word for option in options.items() for word in option if word is not None]


def environment_of(settings):
    """Settings as bytes."""
    return {os.fsencode(key): os.fsencode(value) for key, value in settings.items()}


class Row:
    def __init__(self, text):
        self.words, self.status, self.memory, self.room = [], 0, 0, None
        self.is_long = self.is_large = False
        self.parts, self.special = {"stdin": b"", "stdout": b"", "stderr": b""}, {}
        self.links, self.pipes, self.environment, self.after = {}, [], {}, {}
        head, *parts = re.split(r"^-- ", text, flags=re.M)
        self.name, *lines = head.splitlines()
        for line in lines:
            if line.startswith("$ kmin"):
                self.words = [unescaped(word) if "\\x" in word else word for word in shlex.split(line)[2:]]
            elif line and not line.startswith("#"):
                raise ValueError(f"{self.name}: neither a remark nor words: {line}")
        for part in parts:
            title, text = part.split("\n", 1)
            self.take(title.split(), text)

    def take(self, title, text):
        name, how = title[0], title[1] if len(title) > 1 else ""
        if title[1:] and title[-1] == "unended":
            self.special[name] = title.pop()
            return self.take(title, text)
        if name == "status":
            self.status = int(how)
        elif name == "memory":
            self.memory, self.is_long, self.is_large = int(how), True, True
        elif name == "room":
            self.room, self.is_long, self.is_large = int(how), True, True
        elif name == "after":
            how = "".join(title[2:])
            self.after[title[1]] = None if how == "gone" else content(how, text)
        elif name == "long":
            self.is_long = True
        elif name == "large":
            self.is_long = self.is_large = True
        elif how == "link":
            self.links[name] = text.rstrip("\n")
        elif how == "pipe":
            self.pipes.append(name)
        elif name == "word":
            self.words.append(content(how, text).decode())
        elif name == "environment":
            self.environment.update(line.split(b"=", 1) for line in content(how, text).splitlines())
        elif how in ("full", "closed", "endless"):
            self.special[name] = how
        else:
            self.parts[name] = content(how, text)

    def files(self):
        """The files of the folder where the program runs."""
        return {name: data for name, data in self.parts.items() if name not in ("stdin", "stdout", "stderr")}

    def place(self, folder):
        """Writes these files."""
        for name, data in self.files().items():
            write_file(folder, name, data)
        for name, target in self.links.items():
            os.makedirs(os.path.dirname(f"{folder}/{name}"), exist_ok=True)
            os.symlink(target, f"{folder}/{name}")
        for name in self.pipes:
            os.mkfifo(f"{folder}/{name}")

    def restore(self, folder):
        """Writes those files again that a run changes, and removes those that it makes."""
        for name in self.after:
            if name in self.files():
                write_file(folder, name, self.files()[name])
            else:
                with contextlib.suppress(FileNotFoundError):
                    os.unlink(f"{folder}/{name}")

    def wanted_files(self):
        """What has to be in the folder after a run, links and pipes too."""
        links = {name: f"a link to {target}" for name, target in self.links.items()}
        there = {**self.files(), **links, **{name: "a pipe" for name in self.pipes}, **self.after}
        return {name: it for name, it in there.items() if it is not None}

    def run_whole(self):
        """Runs the program in a new folder that has the row's files, and returns its status, what it wrote, and what is there
        afterwards."""
        with tempfile.TemporaryDirectory(prefix="kmin-row-") as folder:
            self.place(folder)
            return *self.run(folder), files_in(folder)

    def represented(self):
        """The words as texts, with the words in its file in place of each `@FILE` before a `--` that the row has."""
        found, rest = [], iter(map(os.fsdecode, self.words))
        for word in rest:
            if word == "--":
                return [*found, word, *rest]
            name = "stdin" if word in INPUTS else word[1:]
            is_file = word.startswith("@") and name in self.parts
            found += words_in(self.parts[name]) if is_file else [word]
        return found

    def names_words(self):
        """Whether one of the words before a `--` is `@FILE`."""
        words = [*map(os.fsdecode, self.words), "--"]
        return any(word.startswith("@") for word in words[: words.index("--")])

    def value_of(self, option, otherwise):
        """The value that the words give to an option, or another one."""
        words = self.represented()
        values = [words[k + 1] for k, word in enumerate(words[:-1]) if word == option]
        return [otherwise, *values, *(word.partition("=")[2] for word in words if word.startswith(f"{option}="))][-1]

    def plainly(self, err):
        """Standard error as it is; where the words ask for a form of messages, as plain lines without texts. A text may be missing
        where its file isn't read again or memory runs out, and where this runs out for the form, too, a line is plain."""
        if self.value_of("--messages", "plain") == "plain":
            return err
        return b"".join(plain_line(line, self.value_of("--root", ".")) for line in err.splitlines(keepends=True))

    def is_expanded(self):
        """Whether the words ask for an expansion of the tree."""
        words = self.represented()
        return words[:1] == ["wants"] or any(word.partition("=")[0] in EXPANDING for word in words)

    def is_tidying(self):
        """Whether the words ask to go over files one after another: what is refused of one doesn't end the run."""
        return self.represented()[:1] == ["tidy"]

    def has_output(self):
        """Whether the words name a file for the answer."""
        return any(word.partition("=")[0] == "--output" or word[:2] == "-o" for word in self.represented())

    def is_bundle(self):
        """Whether the program reads a bundle that ends."""
        return not self.words and "stdin" not in self.special

    def asked(self):
        """The command that the words give, its options by name (None of a flag), and its configuration files; None where they
        give none, are refused, ask for a text alone or are in a file."""
        if not self.words or self.words[0] not in COMMANDS or self.status == 2 or self.names_words():
            return None
        options, files, words = {}, [], iter(self.words[1:])
        for word in words:
            name, is_whole, value = word.partition("=")
            if word == "--":
                files += words
            elif name in OPTIONS:
                options[name] = value if is_whole else next(words)
            elif word in FLAGS:
                options[word] = None
            elif word.startswith("-"):
                return None
            else:
                files.append(word)
        return self.words[0], options, files

    def run(self, folder=None, settings={}):
        """Runs the program in a folder that has the row's files, or in a new one, with these settings in its environment, and
        returns its status and what it wrote."""
        if not folder:
            with tempfile.TemporaryDirectory(prefix="kmin-row-") as made:
                self.place(made)
                return self.run(made, settings)
        if self.after:
            self.restore(folder)
        words, streams = [PROGRAM, *self.words], {"env": {**os.environb, **environment_of(settings), **self.environment}}
        if self.memory:
            words = ["sh", "-c", f'ulimit -v {self.memory} && exec "$@"', "", *words]
        if self.room is not None:
            words = ["sh", "-c", f'trap "" XFSZ && ulimit -f {self.room} && exec "$@"', "", *words]
        for name, number in (("stdout", 1), ("stderr", 2)):
            how = self.special.get(name)
            streams[name] = open("/dev/full", "wb") if how == "full" else subprocess.PIPE
            if how == "closed":
                variables = {**environment_of(settings), **self.environment}
                words = ["sh", "-c", f'exec "$@" {number}>&-', "", "env", *(key + b"=" + value for key, value in variables.items()), *words]
                streams["env"] = None
        if self.special.get("stdin") == "unended":
            return self.run_unended(words, cwd=folder, **streams)
        if "stdin" in self.special:
            streams["stdin"] = open("/dev/zero", "rb")
        else:
            streams["input"] = self.parts["stdin"]
        ran = subprocess.run(words, cwd=folder, timeout=SECONDS, **streams)
        return ran.returncode, ran.stdout or b"", ran.stderr or b""

    def run_unended(self, words, **streams):
        """Runs these words while standard input stays open after its bytes."""
        taker, giver = os.pipe()
        with subprocess.Popen(words, stdin=taker, **streams) as ran:
            os.close(taker)
            feeding = threading.Thread(target=feed, args=(giver, self.parts["stdin"]))
            feeding.start()
            try:
                out, err = ran.communicate(timeout=SECONDS)
            finally:
                ran.kill()
                feeding.join()
                os.close(giver)
            return ran.returncode, out or b"", err or b""

    def wanted(self):
        return self.status, self.parts["stdout"], self.parts["stderr"]


def all_rows(words):
    """The rows whose names have one of the words, or all."""
    folder, found = f"{TOP}/tests/rows", []
    for name in sorted(os.listdir(folder)):
        with open(f"{folder}/{name}", encoding="utf-8", newline="") as it:
            found += [Row(text) for text in re.split(r"^== ", it.read(), flags=re.M)[1:]]
    if len({row.name for row in found}) < len(found):
        raise ValueError("two rows have one name")
    return [row for row in found if not words or any(word in row.name for word in words)]


def shown(data):
    text = repr(data)[2:-1]
    return text if len(text) < 400 else f"{text[:400]}.. ({len(data)} bytes)"
