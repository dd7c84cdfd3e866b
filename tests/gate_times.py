#!/usr/bin/env python3
"""Runs a command of rt and tells what each crate took: its proof, that of its tests, and the tries of its must-fail edits.

Usage: gate_times.py rt ci [NAME..]

The command's output and status are its own; the table comes on standard error once it has ended. What rt writes has no
times, and it writes the edits' lines at the end, so the times are those of the provers that it starts, read from /proc twice
a second: processor minutes, which other work on the machine changes little. What was kept from earlier runs costs nothing
here: `rt ci --anew` shows the price from nothing."""
import collections
import glob
import os
import subprocess
import sys
import time

TOP = os.path.dirname(os.path.dirname(os.path.abspath(__file__)))
TICKS = os.sysconf("SC_CLK_TCK")
KINDS = ("proof", "tests", "edits")


def processes():
    """The parent, the name, the start and the processor seconds of each process, by its number."""
    found = {}
    for path in glob.glob("/proc/[0-9]*/stat"):
        try:
            with open(path, encoding="utf-8", errors="replace") as file:
                front, _, behind = file.read().rpartition(")")
        except OSError:
            continue
        words = behind.split()
        seconds = (int(words[11]) + int(words[12])) / TICKS
        found[int(path.split("/")[2])] = int(words[1]), front.partition("(")[2], words[19], seconds
    return found


def is_below(number, top, found):
    while number in found and number != top:
        number = found[number][0]
    return number == top


def what_it_proves(number):
    """The crate and the kind of work of a prover, or None for another use of it, or where it has ended."""
    try:
        with open(f"/proc/{number}/cmdline", encoding="utf-8", errors="replace") as file:
            words = file.read().split("\0")
        folder = os.path.basename(os.readlink(f"/proc/{number}/cwd"))
    except OSError:
        return None
    if "--crate-name" not in words:
        return None
    kind = "edits" if folder.startswith("rt-edit-") else "tests" if "--test" in words else "proof"
    return words[words.index("--crate-name") + 1], kind


def watch(command):
    """Runs the command to its end: its status, and the seconds of each prover that it started, by crate and kind."""
    running = subprocess.Popen(command)
    works, seconds = {}, {}
    while running.poll() is None:
        found = processes()
        for number, (_, name, start, taken) in found.items():
            if name == "rattle" and is_below(number, running.pid, found):
                key = number, start
                works[key] = works.get(key) or what_it_proves(number)
                seconds[key] = taken
        time.sleep(0.5)
    sums = collections.defaultdict(float)
    for key, work in works.items():
        if work:
            sums[work] += seconds[key]
    return running.returncode, sums


def table(sums, minutes):
    rows = []
    for crate in {crate for crate, _ in sums}:
        each = [sums.get((crate, kind), 0) / 60 for kind in KINDS]
        rows.append((sum(each), crate, each, len(glob.glob(os.path.join(TOP, "crates", crate, "must-fail", "*.edit")))))
    rows.sort(reverse=True)
    yield f"{'processor minutes':<20}{'all':>8}{'proof':>8}{'tests':>8}{'edits':>8}{'number of edits':>18}"
    for whole, crate, each, edits in rows:
        yield f"{crate:<20}{whole:>8.2f}" + "".join(f"{it:>8.2f}" for it in each) + f"{edits:>18}"
    whole = [sum(each[at] for _, _, each, _ in rows) for at in range(len(KINDS))]
    yield f"{'all':<20}{sum(whole):>8.2f}" + "".join(f"{it:>8.2f}" for it in whole) + f"{sum(row[3] for row in rows):>18}"
    yield f"in {minutes:.1f} minutes on {len(os.sched_getaffinity(0))} processors"


def main():
    if len(sys.argv) < 2:
        sys.exit(__doc__)
    begun = time.monotonic()
    status, sums = watch(sys.argv[1:])
    print("\n".join(table(sums, (time.monotonic() - begun) / 60)), file=sys.stderr)
    return status if status >= 0 else 128 - status


sys.exit(main())
