"""Trees with macros in folders, which aren't part of the repository, and what tests/macros.py makes of them.

Such a folder has

    tree.tar.xz or tree/    the files of the tree, of which Kconfig is the first
    answers                 a file of answers to its questions
    expanded.sha256         if it is there, the digest of each expanded file, as sha256sum writes it
    configs/NAME            a configuration file, and beside it NAME.min, NAME.full and, if it is there, NAME.missed: what
                            the commands of these names have to write for it over the expanded tree"""
import hashlib
import os
import tarfile

import macros


def read(path):
    with open(path, "rb") as it:
        return it.read()


def unpacked(folder, made):
    """The folder of the tree, the path of its answers and those of the configurations; an archive is unpacked into `made`."""
    folder = os.path.abspath(folder)
    root = f"{folder}/tree"
    if not os.path.isdir(root):
        with tarfile.open(f"{folder}/tree.tar.xz") as it:
            it.extractall(made, filter="data") if hasattr(tarfile, "data_filter") else it.extractall(made)
        root = made if os.path.exists(f"{made}/Kconfig") else next(it.path for it in os.scandir(made) if it.is_dir())
    names = sorted(name for name in os.listdir(f"{folder}/configs") if not name.endswith((".min", ".full", ".missed")))
    return root, f"{folder}/answers", [f"{folder}/configs/{name}" for name in names]


def write_expanded(root, answers, to):
    """Expands a tree into a folder, and returns the texts by key."""
    texts, _, _, fault = macros.expand(macros.Tree(folder=root), b"Kconfig", macros.read_answers(read(answers)))
    if fault:
        raise ValueError(f"{os.fsdecode(fault.at[0])}:{fault.at[1]}: {fault.kind}")
    for key, text in texts.items():
        path = os.path.join(to, os.fsdecode(key))
        os.makedirs(os.path.dirname(path), exist_ok=True)
        with open(path, "wb") as it:
            it.write(text)
    return texts


def other_digests(folder, texts):
    """The keys whose text hasn't the digest that the folder has for it, or that only one of them has."""
    wanted = {}
    for line in read(f"{folder}/expanded.sha256").splitlines():
        digest, _, key = line.partition(b"  ")
        wanted[key.removeprefix(b"./")] = digest.decode()
    found = {key: hashlib.sha256(text).hexdigest() for key, text in texts.items()}
    return sorted(key for key in {*wanted, *found} if wanted.get(key) != found.get(key))
