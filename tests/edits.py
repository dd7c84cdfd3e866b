#!/usr/bin/env python3
"""Checks the must-fail edits as texts: each can be applied, changes code, and has a name of words; and no crate has more than
its budget, since the gate checks a crate once more for each of its edits. Whether the prover refuses them, `rt must-fail` says.

Usage: edits.py"""
import glob
import os
import re
import sys

TOP = os.path.dirname(os.path.dirname(os.path.abspath(__file__)))
MOST, MOST_OF_SLOW = 8, 5
# The crates of which a check from nothing takes more than twenty processor seconds.
SLOW = set("""availability batch_run bitstream commands frame_pool framed_walk http_connection http_front
    http_listener http_text implicit_tileset plan_registry published_prefix reference_walk region_cursor region_scan
    replay_core replay_script request_text scene_frames scene_ports scene_viewers shared_pool subtree_file subtree_json
    subtree_outcome subtree_write tile_builder tile_coords tile_occupancy tile_walk tileset_json tileset_make
    tileset_write turn_lock uri_template view viewer_session walk_course""".split())
NAME = re.compile(r"[a-z][a-z0-9]*(_[a-z0-9]+)*\.edit")
# An edit of what is claimed or of what only a proof sees shows nothing of the code.
NO_CODE = re.compile(r"\s*(ghost|requires|ensures)\b")


def read(path):
    with open(path, encoding="utf-8") as file:
        return file.read()


def pairs(text):
    """The file, the old text and the new one of each change, in order; or what is wrong with a line, in place of a change."""
    path = old = None
    for line in text.splitlines():
        key, _, value = line.partition(": ")
        if key == "file":
            path = value
        elif key == "old":
            old = value
        elif key in ("new", "new:") and path and old:
            yield path, old, value
            old = None
        elif line:
            yield f"a line that isn't read: {line[:60]}"


def problems_of(edit, crate):
    """What is wrong with an edit. Later changes apply to what the earlier ones made."""
    if not NAME.fullmatch(os.path.basename(edit)):
        yield "its name isn't of small letters, digits and single _, with .edit"
    texts = {}
    for change in pairs(read(edit)):
        if isinstance(change, str):
            yield change
            continue
        path, old, new = change
        file = os.path.join(crate, path)
        if not path.startswith("src/") or not os.path.isfile(file):
            yield f"{path} is no file of src/"
            continue
        text = texts.get(path) or read(file)
        if text.count(old) != 1:
            yield f"its old text stands {text.count(old)} times in {path}: {old[:60]}"
        if old == new:
            yield f"it changes nothing in {path}"
        if NO_CODE.match(old):
            yield f"it changes no code in {path}: {old[:60]}"
        texts[path] = text.replace(old, new)
    if not texts:
        yield "it changes nothing"


def problems(crates):
    for crate in crates:
        name = os.path.basename(crate)
        edits = sorted(glob.glob(os.path.join(crate, "must-fail", "*")))
        most = MOST_OF_SLOW if name in SLOW else MOST
        if len(edits) > most:
            yield f"{name}: {len(edits)} edits, and the budget is {most}"
        for edit in edits:
            for problem in problems_of(edit, crate):
                yield f"{os.path.relpath(edit, TOP)}: {problem}"
    for name in sorted(SLOW - {os.path.basename(crate) for crate in crates}):
        yield f"tests/edits.py: {name} is no crate"


crates = sorted(glob.glob(os.path.join(TOP, "crates", "*")))
found = list(problems(crates))
for problem in found:
    print(f"FAILED {problem}")
print(f"edits: {len(glob.glob(os.path.join(TOP, 'crates', '*', 'must-fail', '*')))} in {len(crates)} crates, {len(found)} problems")
sys.exit(1 if found else 0)
