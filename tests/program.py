#!/usr/bin/env python3
"""Tells whether the built program is that of this very tree, so that none is proved a second time to be run.

Usage: program.py tree           prints the sum of all that the program is made of
       program.py note SUM       notes that crates/view/out/view was made of the tree of that sum, where it is still this one
       program.py is-current     ends with 0 where the note is of this tree and of the program that stands there, else with 1
       program.py left           says how many of the program's crates are proved here, and about how long all of them take"""
import hashlib
import os
import subprocess
import sys

TOP = os.path.dirname(os.path.dirname(os.path.abspath(__file__)))
PROGRAM = os.path.join(TOP, "crates", "view", "out", "view")
NOTE = PROGRAM + ".made-of"
# What the gate's proofs took from nothing where they were last timed, and over how many crates.
TIMED = "87 minutes on four processors that had other work, for the whole gate over 60 crates"


def sum_of(path):
    with open(path, "rb") as file:
        return hashlib.sha256(file.read()).hexdigest()


def files_of_tree():
    """The files that the proofs and the compiler read, in a fixed order."""
    yield from (os.path.join(TOP, name) for name in ("crates.txt", "HANDLES"))
    for crate in sorted(os.listdir(os.path.join(TOP, "crates"))):
        for part in ("src", "specs", "proofs"):
            for at, folders, names in os.walk(os.path.join(TOP, "crates", crate, part)):
                folders.sort()
                yield from (os.path.join(at, name) for name in sorted(names))


def tree():
    toolchain = subprocess.run(["rt", "version"], capture_output=True, text=True, check=True).stdout
    whole = hashlib.sha256(toolchain.encode())
    for path in files_of_tree():
        whole.update(f"{os.path.relpath(path, TOP)} {sum_of(path)}\n".encode())
    return whole.hexdigest()


def note_of(tree):
    return f"tree {tree}\nprogram {sum_of(PROGRAM)}\n"


def note(of):
    if not os.path.isfile(PROGRAM) or tree() != of:
        return 1
    with open(NOTE, "w", encoding="utf-8") as file:
        file.write(note_of(of))
    return 0


def is_current():
    if not os.path.isfile(PROGRAM) or not os.path.isfile(NOTE):
        return 1
    with open(NOTE, encoding="utf-8") as file:
        return 0 if file.read() == note_of(tree()) else 1


def crates_of_program():
    """The crates that the program is proved from, by the map."""
    below = {}
    with open(os.path.join(TOP, "crates.txt"), encoding="utf-8") as file:
        for line in file:
            name, colon, names = line.partition("#")[0].partition(":")
            if colon:
                below[name.strip()] = names.split()
    found, left = set(), ["view"]
    while left:
        name = left.pop()
        if name in below and name not in found:
            found.add(name)
            left += below[name]
    return found


def was_proved(crate):
    """Whether a check or a build of this crate left its work here."""
    library = os.path.join(TOP, "crates", crate, "out", "rlib", f"{crate}.rlib")
    return os.path.isfile(PROGRAM) if crate == "view" else os.path.isdir(library)


def left():
    crates = crates_of_program()
    proved = sum(map(was_proved, crates))
    print(f"Of view's {len(crates)} crates, proved here before: {proved}; left: {len(crates) - proved}. What changed since is proved again.\n"
          f"The proofs of the gate, when they were last timed: {TIMED}.")
    return 0


def main(words):
    if words == ["tree"]:
        print(tree())
        return 0
    if words == ["is-current"]:
        return is_current()
    if words == ["left"]:
        return left()
    if len(words) == 2 and words[0] == "note":
        return note(words[1])
    sys.exit(__doc__)


sys.exit(main(sys.argv[1:]))
