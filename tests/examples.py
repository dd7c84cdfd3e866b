"""Cases of the documents and the examples: the commands that they show, as written, in a clean copy of the repository; what is
installed; and what the scripts `report` and `map` make of texts."""
import os
import re
import shutil
import subprocess
import tempfile

import blocks
from harness import PROGRAM, case, is_chosen, lines, report
from tilesets import all_ones, make

EXAMPLES = os.path.join(blocks.TOP, "examples")
MAP, REPORT = os.path.join(EXAMPLES, "map", "map"), os.path.join(EXAMPLES, "report", "report")
SQUARE = re.compile(r"M(\d+) (\d+)h\d+v\d+h-\d+z")
LEVEL = re.compile(r'<path [^>]*transform="translate\((\S+) (\S+)\) scale\((\S+)\)" d="([^"]*)"/>')


@case
def as_written(name, document, folder):
    report(name, list(blocks.problems(document, folder)))


def files_below(folder):
    return sorted(os.path.relpath(os.path.join(at, name), folder) for at, _, names in os.walk(folder) for name in names)


@case
def installed(name, folder):
    """`make install` puts the program and its page, and nothing else, and `make uninstall` takes them away."""
    below = os.path.join(folder, "installed")
    problems = []
    for target, wanted in (("install", ["usr/bin/view", "usr/share/man/man1/view.1"]), ("uninstall", [])):
        words = ["make", target, "PREFIX=/usr", f"DESTDIR={below}"]
        done = subprocess.run(words, cwd=folder, capture_output=True, text=True, timeout=120)
        if done.returncode or files_below(below) != wanted:
            problems.append(f"{target}: status {done.returncode}, files {files_below(below)}; {done.stderr[-200:]!r}")
    report(name, problems)


@case
def without_toolchain(name, folder):
    """`make demo` on a machine without `rt` says what it would do and, in one sentence, what is missing."""
    tools = os.path.join(folder, "tools")
    os.makedirs(tools, exist_ok=True)
    for tool in ("bash", "sh", "make", "dirname"):
        os.symlink(shutil.which(tool), os.path.join(tools, tool))
    done = subprocess.run(["make", "demo"], cwd=folder, capture_output=True, text=True, timeout=120, env={"PATH": tools})
    wanted = "view is proved and built by the Rattle toolchain, and its command rt isn't on the path."
    said = done.returncode != 0 and done.stdout.count("\n") == 1 and done.stderr.splitlines()[0] == wanted
    report(name, [] if said else [repr(done)])


def document_cases():
    # A document that shows another program is passed over where that one isn't installed.
    needed = {os.path.join("examples", "many", "README.md"): "nginx"}
    named = {"commands_of_" + re.sub(r"\W", "_", document): document for document in blocks.documents()
             if document not in needed or shutil.which(needed[document])}
    others = {"installed_and_uninstalled": installed, "demo_without_the_toolchain": without_toolchain}
    if not any(map(is_chosen, [*named, *others])):
        return
    with tempfile.TemporaryDirectory(prefix="view-documents-") as folder:
        blocks.clean_copy(PROGRAM, folder)
        for name, document in named.items():
            as_written(name, document, folder)
        if shutil.which("rt"):
            for name, check in others.items():
                check(name, folder)


def output_of(script, words, text, folder=None):
    done = subprocess.run([script, *words], input=text, capture_output=True, text=True, cwd=folder, timeout=120)
    return done.returncode, done.stdout, done.stderr


@case
def reported(name, text, status, last_line):
    """The exit status and the last line of a report, over the template of examples/faulty."""
    found = output_of(REPORT, [], text, os.path.join(EXAMPLES, "faulty"))
    last = (found[1] + found[2]).splitlines()[-1:]
    report(name, [] if (found[0], last) == (status, [last_line]) else [f"{found[0]}, {last}, not {status}, {last_line!r}"])


def report_cases():
    reported("report_of_no_fault", lines("end|checked|3|0"), 0, "0 faulty of 3 subtree files that were looked at")
    reported("report_of_more_files_than_are_looked_at", lines("fault|1|0|0|0", "end|too-many|65536|1"), 1,
             "1 faulty of 65536 subtree files that were looked at; there are more, which weren't looked at")
    for name, text in (("nothing", ""), ("a_word", "end\n"), ("a_cut_check", lines("fault|1|0|0|0")),
                       ("an_answer", lines("0|0|0", "end|complete|1"))):
        reported(f"report_of_{name}", text, 4, "report: this isn't the whole text of a check")


def drawn(text):
    """The squares of a picture, level by level: each as its left side, its bottom and its width, rounded."""
    levels = []
    for x, y, scale, marks in LEVEL.findall(text):
        x, y, scale = float(x), float(y), float(scale)
        levels.append({(round(x + int(column) * scale, 2), round(y + (int(row) + 1) * scale, 2), round(scale, 2))
                       for column, row in SQUARE.findall(marks)})
    return levels


@case
def mapped(name, text, words, squares, marks=0):
    """The picture of an answer has so many squares at each level, and so many crosses."""
    status, picture, said = output_of(MAP, words, text)
    found = [len(level) for level in drawn(picture)]
    problems = [] if status == 0 and found == squares else [f"status {status}, squares {found}, not {squares}; {said!r}"]
    crosses = picture.count('class="c"')
    if crosses != marks:
        problems.append(f"{crosses} crosses, not {marks}")
    report(name, problems)


@case
def at_their_places(name, scene, level):
    """The squares of a whole quadtree are the tiles, where they are: 720 units wide, with y upward."""
    box = (0, 0), (2 ** level - 1,) * 2
    picture = output_of(MAP, [], make.answer(scene, level, *box))[1]
    sides = [720 / 2 ** l for l in range(level + 1)]
    wanted = [{(round(x * side, 2), round(720 - y * side, 2), round(side, 2)) for k, x, y in scene["tiles"] if k == l}
              for l, side in enumerate(sides)]
    report(name, [] if drawn(picture) == wanted else ["the squares aren't the tiles"])


def map_cases():
    full = all_ones(2, 2, (0, 0), (3, 3))
    mapped("map_of_twenty_one_tiles", lines(*full, "end|complete|21"), [], [1, 4, 16])
    mapped("map_of_no_tile", lines("end|complete|0"), [], [])
    mapped("map_of_a_fault", lines(*full[:3], "end|fault|3|3|1|0|1"), [], [1, 2], 1)
    mapped("map_of_a_fault_at_the_root", lines("end|fault|0|3|0|0|0"), [], [], 1)
    octree = all_ones(3, 1, (0, 0, 0), (1, 1, 1))
    mapped("map_of_an_octree_from_above", lines(*octree, "end|complete|9"), [], [1, 4])
    mapped("map_of_an_octree_from_its_side", lines(*octree[:6], "end|complete|6"), ["xz"], [1, 3])
    mapped("map_of_each_z", lines(*octree, "end|complete|9"), ["z"], [1, 4, 1, 4])
    mapped("map_of_each_z_with_a_fault", lines(*octree, "end|fault|9|1|1|1|1|1"), ["z"], [1, 4, 1, 4], 1)
    mapped("map_of_65536_tiles", lines(*all_ones(2, 8, (0, 0), (255, 255))[:65536], "end|too-many|65536"), [],
           [4 ** level for level in range(8)] + [65536 - (4 ** 8 - 1) // 3])
    mapped("map_of_one_path", lines(*(f"{l}|{2 ** l - 1}|{2 ** l - 1}" for l in range(32)), "end|complete|32"), [], [1] * 32)
    at_their_places("map_of_the_terrain", make.SCENES[0], 5)


def cases():
    document_cases()
    report_cases()
    map_cases()
