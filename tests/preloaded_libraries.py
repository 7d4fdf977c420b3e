"""Libraries of C that are preloaded for one program, so that its calls of the system have other results."""
import os
import shutil
import subprocess
import sys

import rows


def compiler():
    """The kit's compiler, or the system's."""
    kit = subprocess.run(["rt", "doc"], capture_output=True, text=True).stdout.strip()
    for it in (f"{os.path.dirname(kit)}/toolchain/bin/clang", shutil.which("cc"), shutil.which("gcc")):
        if it and os.path.exists(it):
            return it
    sys.exit(f"{os.path.basename(sys.argv[0])}: no compiler of C is there")


def build(name, folder):
    """Builds the library of tests/NAME.c in the folder."""
    library = f"{folder}/{name}.so"
    subprocess.run([compiler(), "-O1", "-shared", "-fPIC", "-nostdlib", "-o", library, f"{rows.TOP}/tests/{name}.c"], check=True)
    return library


def marked(run, mark, library, settings):
    """Runs by a call that is given settings of the environment; returns its result, and the bytes that the library left in the mark."""
    result = run({"LD_PRELOAD": library, "MARK": mark, **settings})
    if not os.path.exists(mark):
        return result, None
    with open(mark, "rb") as it:
        left = it.read()
    os.remove(mark)
    return result, left
