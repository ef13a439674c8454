"""The sources that a crate is built from: which crates those are, and a checksum of what the compiler reads.

For the scripts of this repository.

Needs: Python 3.8 or later.

Prints: nothing.
"""
import hashlib
import os

TOP = os.path.abspath(os.path.join(__file__, "../../.."))


def crates_below(crate, tree=TOP):
    """The names of the crate and of all that it stands on, of this repository; none where it has no such crate."""
    uses = {}
    with open(os.path.join(tree, "crates.txt"), encoding="utf-8") as file:
        for line in file:
            if ":" in line and not line.startswith("#"):
                head, _, used = line.partition(":")
                uses[head.split()[0]] = used.split()
    below, left = set(), [crate]
    while left:
        name = left.pop()
        if name in uses and name not in below:
            below.add(name)
            left += uses[name]
    return below


def files_below(crate, tree=TOP):
    """What the compiler reads for a crate: crates.txt, and the src/ of the crate and of those that it stands on."""
    found = ["crates.txt"]
    for name in crates_below(crate, tree):
        for place, _, names in os.walk(os.path.join(tree, "crates", name, "src")):
            found += [os.path.relpath(os.path.join(place, it), tree) for it in names]
    return sorted(found)


def checksum(crate, *words, tree=TOP):
    """The SHA-256 of the names and bytes of those files, and of some words."""
    total = hashlib.sha256(repr(words).encode())
    for path in files_below(crate, tree):
        with open(os.path.join(tree, path), "rb") as file:
            total.update(f"{path} {hashlib.sha256(file.read()).hexdigest()}\n".encode())
    return total.hexdigest()
