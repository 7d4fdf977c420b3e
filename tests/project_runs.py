"""What tests/compare_projects and its modules share: the programs, runs of them in a project's folder, and what files have."""
import os
import subprocess
import sys

from rows import PROGRAM, TOP

ANSWER = f"{TOP}/kmin-answer"
SECONDS = 300


def run(words, folder, env, seconds=SECONDS):
    """The status of a run in a folder, and what it wrote."""
    ran = subprocess.run(words, cwd=folder, env={**os.environ, **env}, stdin=subprocess.DEVNULL, capture_output=True, timeout=seconds)
    return ran.returncode, ran.stdout, ran.stderr


def output_of(words, folder, env, seconds=SECONDS):
    """The output of a run; ends the script where the run fails."""
    status, out, err = run(words, folder, env, seconds)
    if status:
        sys.exit(f"{' '.join(words[:4])} ..: status {status}\n{err.decode(errors='replace')[-2000:]}")
    return out


def read(path):
    with open(path, "rb") as it:
        return it.read()
