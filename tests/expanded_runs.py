"""Runs of the proved program on trees with macros, beside the expansion that tests/macros.py makes of them, independently."""
import os
import subprocess

import macros
from rows import PROGRAM, SECONDS, shown, write_file


def run(folder, *words):
    ran = subprocess.run([PROGRAM, *words], cwd=folder, stdin=subprocess.DEVNULL, capture_output=True, timeout=SECONDS)
    return ran.returncode, ran.stdout, ran.stderr


def line_of(at, kind, text):
    return b"%s:%d: %s" % (at[0], at[1], kind.encode()) + (b" " + text if text else b"") + b"\n"


def with_paths(lines, paths):
    """Lines of standard error with the path that was read for a key in place of the key."""
    made = []
    for line in lines.splitlines(keepends=True):
        key = max((key for key in paths if line.startswith(key + b":")), key=len, default=None)
        made.append(line if key is None else paths[key] + line[len(key):])
    return b"".join(made)


def wanted_full(folder, tree, answers):
    """What `full` has to give, and whether the tree is expanded."""
    texts, paths, notices, fault = macros.expand(tree, b"Kconfig", answers)
    notice_lines = b"".join(line_of(*notice) for notice in notices)
    if fault:
        return (3, b"", notice_lines + line_of(fault.at, fault.kind, fault.text)), False
    for key, text in texts.items():
        write_file(folder, f"expanded/{os.fsdecode(key)}", text)
    status, out, err = run(folder, "full", "--root", "expanded", "--language", "linux")
    return (status, out, notice_lines + with_paths(err, paths)), True


def compared(folder, answers):
    """What is wrong with the runs on the tree in folder/tree with the answers in folder/answers, and whether it is expanded and
    accepted. `full` has to give what it gives of the expanded tree, `wants` the open questions, each with the notices or the
    fault of the expansion."""
    tree, known = macros.Tree(folder=f"{folder}/tree"), macros.read_answers(answers)
    full, is_expanded = wanted_full(folder, tree, known)
    questions, fault = macros.wants(tree, b"Kconfig", known)
    asked = (1, b"".join(question + b"\n" for question in questions), b"") if questions else (0, b"", b"")
    if fault and not questions:
        asked = 3, b"", line_of(fault.at, fault.kind, fault.text)
    wrong = []
    for verb, wanted in (("full", full), ("wants", asked)):
        words = (verb, "--root", "tree", "--answers", "answers")
        found = run(folder, *words)
        if found != wanted:
            wrong.append(f"kmin {' '.join(words)}: {shown(bytes(str(found), 'utf-8'))}, wanted {shown(bytes(str(wanted), 'utf-8'))}")
    return wrong, is_expanded, is_expanded and full[0] == 0
