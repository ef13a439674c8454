"""Builds a program of bench/, a crate that stands in no list, in a copy of the crates that it stands on.

For bench/trials/schedules and for bench/measurements/core, queues and reading. The names of a program's sources end in
.bench, since the gate takes each .rt and .antt file of the repository for a crate's.

A program is named by its folder, such as bench/measurements/core_lines.

Needs: Python 3.8 or later, rt and git.

Prints: nothing, but for why a program is not built.
"""
import os
import shutil
import subprocess
import sys

TOP = os.path.abspath(os.path.join(__file__, "../../.."))


def listed():
    """The crates of the repository, each with those that its line names."""
    with open(os.path.join(TOP, "crates.txt")) as lines:
        pairs = [line.split(":") for line in lines if ":" in line and not line.startswith("#")]
    return {name.strip(): below.split() for name, below in pairs}


def all_below(names, crates):
    """These crates of the repository and all that they stand on."""
    found = set()
    left = [name for name in names if name in crates]
    while left:
        name = left.pop()
        if name not in found:
            found.add(name)
            left += [below for below in crates[name] if below in crates]
    return found


def copy_sources(program, place):
    """Copies the program's sources, under the names that they have in a crate."""
    top = os.path.join(TOP, program)
    for folder, _, files in os.walk(top):
        into = os.path.join(place, os.path.relpath(folder, top))
        os.makedirs(into, exist_ok=True)
        for name in files:
            shutil.copy(os.path.join(folder, name), os.path.join(into, name.removesuffix(".bench")))


def lay(folder, program, names, parts):
    """Lays the program, which stands on these crates, into a folder with a copy of these parts of them. Where it
    lies."""
    crates = listed()
    needed = all_below(names, crates)
    for name in needed:
        for part in parts:
            source = os.path.join(TOP, "crates", name, part)
            if os.path.isdir(source):
                shutil.copytree(source, os.path.join(folder, "crates", name, part))
    own = os.path.basename(program)
    place = os.path.join(folder, "crates", own)
    copy_sources(program, place)
    with open(os.path.join(folder, "crates.txt"), "w") as out:
        for name in needed:
            out.write(f"{name}: {' '.join(crates[name])}\n")
        out.write(f"{own}: {' '.join(names)}\n")
    subprocess.run(["git", "init", "-q", folder], check=True)
    return place


def run_unproved(folder, program, names, text):
    """What the program writes to this input, and what is said of the run. It is built without a proof, with checks in
    it."""
    place = lay(folder, program, names, ("src", "specs", "proofs"))
    command = ["rt", "try", "--steps", "1", "--seconds", "1800"]
    ran = subprocess.run(command, cwd=place, input=text, capture_output=True, text=True)
    return ran.stdout, ran.stderr


def built(folder, program, names):
    """The program, proved and built. What the crates' checks kept is used."""
    place = lay(folder, program, names, ("src", "specs", "proofs", "out"))
    ran = subprocess.run(["rt", "run"], cwd=place, stdin=subprocess.DEVNULL, capture_output=True, text=True)
    if ran.returncode != 0:
        sys.exit(f"{program} is not built\n{ran.stderr}")
    return os.path.join(place, "out", os.path.basename(program))
