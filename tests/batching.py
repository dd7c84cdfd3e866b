"""Cases of `batch`: worked inputs, refusals by each rule, rounds of lines, limits, devices that fail, how often files are opened, and
the same blocks whatever the workers and the frames."""
import collections
import ctypes
import itertools
import os
import random
import shutil
import struct
import subprocess
import tempfile

from edges import held_back
from harness import PROGRAM, case, feed, lines, report, run, shell, write_files
from tilesets import A_JSON, A_ROOT, A_WHOLE, all_ones, made_files, made_scene, make, pack, tileset, tileset_a, tileset_b, tileset_c
from walking import LAYOUTS, box_words

MOST_INPUT = 1048576
ROUND = 64
B_WHOLE = lines(*all_ones(2, 2, (0, 0), (3, 3)), "end|complete|21")

USAGE = ([], ["4"], ["4", "64", "1"], ["0", "64"], ["65", "64"], ["4", "0"], ["4", "1025"], ["04", "64"], ["4", "064"], ["00", "64"],
         ["+4", "64"], ["4", "+64"], ["-4", "64"], ["4", "-64"], ["-w", "4"], ["-", "64"], ["four", "64"], ["4", "many"], ["4.0", "64"],
         ["0x4", "64"], ["4 ", "64"], ["4", " 64"], ["", "64"], ["4", ""], ["4,64"], ["4294967300", "64"], ["4", "4294967360"],
         ["18446744073709551620", "64"], ["--", "4"], ["--", "--", "4", "64"], ["---", "4", "64"], ["4", "64", "0 0,0 0,0"])

# Lines by the number of their refusal: several break later rules too, and the first that is broken counts.
REFUSED = ((1, ("", " ", "x", "1", "1 0,0", "1 0,0 ", "1 0,0 1,1 ", " 1 0,0 1,1", "1  0,0 1,1", "1 0,0  1,1", "1\t0,0 1,1", "1 0,0\t1,1",
                "1 0,0 1,1 1", "1 0,0 1,1 1,1", "01 0,0 1,1", "1 00,0 1,1", "1 0,0 1,01", "+1 0,0 1,1", "-1 0,0 1,1", "1 0,-0 1,1", "1 0 1",
                "1 0,0 1", "1 0,0,0,0 1,1,1,1", "1 0,0,0,0 1,1", "1 0,,0 1,1", "1 ,0 1,1", "1 0,0, 1,1", "1 0, 0 1,1", "1 0;0 1,1",
                "1,0 0,0 1,1", "1.0 0,0 1,1", "0x1 0,0 1,1", "4294967296 0,0 1,1", "18446744073709551617 0,0 1,1", "1 4294967296,0 1,1",
                "1 0,0 1,4294967296", "tiles 1 0,0 1,1", "-- 1 0,0 1,1", "\r1 0,0 1,1", "1 0,0 1,1\r\r", "0 0,0 0,0\r0 0,0 0,0",
                "9 0,0 x", "9 9,9,9 0,0,0 x")),
           (2, ("1 0,0,0 1,1,1", "1 0,0,0 1,1", "1 0,0 1,1,1", "9 9,9,9 0,0,0", "4294967295 0,0,0 0,0,0")),
           (3, ("2 0,0 3,3", "2 9,9 0,0", "2 9,9 9,9", "4294967295 0,0 0,0", "4294967295 4294967295,0 0,4294967295")),
           (4, ("1 1,0 0,0", "1 0,1 0,0", "1 1,1 0,0", "1 1,0 0,2", "1 2,0 1,0", "0 4294967295,0 0,0", "1 0,4294967295 0,4294967294")),
           (5, ("1 0,0 2,0", "1 0,0 0,2", "1 2,2 2,2", "0 0,0 1,0", "0 0,1 0,1", "1 0,0 4294967295,4294967295")))
REFUSED_IN_AN_OCTREE = (("x", 1), ("1 0,0,0,0 1,1,1,1", 1), ("1 0,0 1,1", 2), ("1 0,0,0 1,1", 2), ("9 9,9 0,0", 2), ("2 0,0,0 3,3,3", 3),
                        ("2 0,0,1 0,0,0", 3), ("1 0,0,1 0,0,0", 4), ("1 0,0,2 0,2,1", 4), ("1 0,0,0 0,0,2", 5), ("0 0,0,0 0,0,1", 5))


def given_lines(*rows):
    return "".join(row + "\n" for row in rows).encode()


def refused(number):
    return lines(f"refused|{number}")


def batch(name, files, words, given, wanted, status=0, **others):
    """Runs `batch` over these files, on these bytes of standard input."""
    feed(name, files, ["batch"] + words, given, wanted, status, **others)


def word_cases():
    one = given_lines("0 0,0 0,0")
    for words in USAGE:
        batch("batch_of_the_words_" + "_".join(words or ["none"]), tileset_a(), words, one, "", 2)
    batch("batch_of_a_word_that_is_not_utf8", tileset_a(), ["4", b"\xff"], one, "", 2)
    batch("batch_of_bad_words_without_a_tileset", {}, ["0", "64"], one, "", 2)
    for words in (["1", "1"], ["64", "1024"], ["64", "1"], ["1", "1024"], ["--", "4", "64"], ["4", "--", "64"], ["4", "64", "--"]):
        batch("batch_of_the_good_words_" + "_".join(words), tileset_a(), words, one, A_ROOT)


def worked_cases():
    batch("batch_of_each_kind_of_line", tileset_a(), ["1", "4"],
          given_lines("1 1,0 0,0", "1 0,0 2,0", "1 0,0,0 1,1,1", "01 0,0 1,1", "") + b"0 0,0 0,0\r",
          lines(*(f"refused|{number}" for number in (4, 5, 2, 1, 1))) + A_ROOT)
    for words in (["4", "64"], ["4", "1"], ["1", "1"], ["8", "17"], ["64", "1024"]):
        batch("batch_of_eight_equal_lines_by_" + "_".join(words), tileset_b(2, 3), words, given_lines(*["2 0,0 3,3"] * 8), B_WHOLE * 8)
    column = lines(*all_ones(2, 8, (0, 0), (0, 255)), "end|complete|511")
    batch("batch_of_long_and_short_answers", tileset_b(9, 9), ["4", "4"], given_lines("8 0,0 0,255", "0 0,0 0,0", "9 0,0 0,0", "8 0,0 0,255"),
          column + lines("0|0|0", "end|complete|1") + refused(3) + column)
    batch("batch_of_an_octree", tileset_b(2, 2, "OCTREE"), ["2", "2"], given_lines("1 1,0,0 1,1,1", "0 0,0,0 0,0,0"),
          lines("0|0|0|0", "1|1|0|0", "1|1|1|0", "1|1|0|1", "1|1|1|1", "end|complete|5") + lines("0|0|0|0", "end|complete|1"))
    files = {"tileset.json": tileset("QUADTREE", 2, 2, "a%20b/{x} {y}.subtree", content="c {level}-{x}%2F{y}.glb"),
             "a b/0 0.subtree": pack(A_JSON)}
    batch("batch_of_names_with_spaces_and_escapes", files, ["4", "64"], given_lines(*["0 0,0 0,0"] * 3),
          lines("0|0|0|c 0-0%2F0.glb", "end|complete|1") * 3)


def refusal_cases():
    for number, rows in REFUSED:
        batch(f"batch_refuses_lines_by_rule_{number}", tileset_a(), ["4", "64"],
              given_lines(*(line for row in rows for line in (row, "0 0,0 0,0"))), (refused(number) + A_ROOT) * len(rows))
    batch("batch_refuses_lines_of_an_octree", tileset_b(2, 2, "OCTREE"), ["4", "64"], given_lines(*(row for row, _ in REFUSED_IN_AN_OCTREE)),
          "".join(refused(number) for _, number in REFUSED_IN_AN_OCTREE))
    batch("batch_of_bytes_that_are_no_text", tileset_a(), ["4", "64"],
          b"\xff\n0 0,0 0,\xff\n\0\n0 0,0 0,0\0\n0\xa00,0 0,0\n\xef\xbb\xbf0 0,0 0,0\n\xd9\xa0 0,0 0,0\n0 0,0 0,0\n", refused(1) * 7 + A_ROOT)


def line_end_cases():
    batch("batch_of_no_input", tileset_a(), ["4", "64"], b"", "")
    run("batch_of_the_null_device", tileset_a(), ["batch", "4", "64"], "")
    for name, given, wanted in (("cr_lf_ends", b"1 0,0 1,1\r\n\r\n0 0,0 0,0\r\n", A_WHOLE + refused(1) + A_ROOT),
                                ("both_ends", b"1 0,0 1,1\n0 0,0 0,0\r\n1 0,0 1,1\n", A_WHOLE + A_ROOT + A_WHOLE),
                                ("a_last_line_without_an_end", b"1 0,0 1,1\n0 0,0 0,0", A_WHOLE + A_ROOT),
                                ("a_last_line_that_ends_by_cr", b"1 0,0 1,1\n0 0,0 0,0\r", A_WHOLE + A_ROOT),
                                ("one_line_without_an_end", b"0 0,0 0,0", A_ROOT), ("one_byte", b"0", refused(1)),
                                ("one_line_end", b"\n", refused(1)), ("one_cr", b"\r", refused(1)),
                                ("a_last_cr", b"0 0,0 0,0\n\r", A_ROOT + refused(1)),
                                ("empty_lines", b"\n\n\n0 0,0 0,0\n\n", refused(1) * 3 + A_ROOT + refused(1))):
        batch("batch_of_" + name, tileset_a(), ["4", "64"], given, wanted)
    shell("batch_of_an_input_that_comes_in_pieces", tileset_a(),
          '{ printf "0 0"; sleep 0.1; printf ",0 0,0"; sleep 0.1; printf "\\n1 1,0 "; sleep 0.1; printf "0,0"; } | "$VIEW" batch 4 64',
          A_ROOT + refused(4), "the blocks of two lines")


def fault_cases():
    """A block tells of a faulty file or of a failed read, and the program ends well whatever it tells; but not over a faulty layout."""
    whole, left = ("1 0,0 1,1", "1 0,0 0,0"), lines("0|0|0", "1|0|0", "end|complete|2")
    lower = lines("0|0|0", "1|0|1", "1|1|1", "end|complete|3")
    root = lines("0|0|0", "end|complete|1")
    asked = (*whole, "1 1,0 1,0", "0 0,0 0,0", "2 0,0 0,0", "1 0,1 1,1")
    for name, files, blocks in (
            ("a_missing_file", tileset_c(s_1_1_0=None),
             (lines("0|0|0", "1|0|0", "end|fault|2|1|1|1|0"), left, lines("0|0|0", "end|fault|1|1|1|1|0"), root, refused(3), lower)),
            ("a_short_file", tileset_c(s_1_1_0=b"\0\0\0"),
             (lines("0|0|0", "1|0|0", "end|fault|2|3|1|1|0"), left, lines("0|0|0", "end|fault|1|3|1|1|0"), root, refused(3), lower)),
            ("a_folder_for_a_file", {**tileset_c(), "s/1/1/0.subtree": None},
             (lines("read-fault"), left, lines("read-fault"), root, refused(3), lower)),
            ("a_folder_for_the_root_s_file", {**tileset_c(), "s/0/0/0.subtree": None},
             (*[lines("read-fault")] * 4, refused(3), lines("read-fault"))),
            ("no_subtree_file", {"tileset.json": tileset_c()["tileset.json"]},
             (*[lines("end|fault|0|1|0|0|0")] * 4, refused(3), lines("end|fault|0|1|0|0|0")))):
        for words in (["1", "1"], ["4", "64"], ["4", "1"], ["7", "3"]):
            batch(f"batch_over_{name}_by_{'_'.join(words)}", files, words, given_lines(*asked) * 25, "".join(blocks) * 25)
    batch("batch_over_tileset_json_that_is_a_folder", {"tileset.json": None}, ["4", "64"], given_lines(*whole), "", 4)
    for name, data, fault in LAYOUTS:
        batch("batch_over_" + name, {} if data is None else {"tileset.json": data}, ["4", "64"], given_lines(*whole), "", 3,
              message=f"view: layout fault {fault}\n")
    batch("batch_without_a_tileset_of_too_long_an_input", {}, ["4", "64"], b"\n" * (MOST_INPUT + 1), "", 3, message="view: layout fault 1\n")
    batch("batch_without_a_tileset_of_no_input", {}, ["4", "64"], b"", "", 3, message="view: layout fault 1\n")


@case
def cut_at_the_most(name):
    """Blocks of 65,536 tiles, whole and cut. The rows are made where the case is run, since they are many."""
    complete = lines(*all_ones(2, 16, (0, 0), (0, 32767)), "end|complete|65536")
    too_many = lines(*all_ones(2, 17, (0, 0), (0, 32767))[:65536], "end|too-many|65536")
    batch(name, tileset_b(9, 18), ["4", "64"], given_lines("17 0,0 0,32767", "0 0,0 0,0", "16 0,0 0,32767", "18 0,0 0,0", "17 0,0 0,32767"),
          too_many + lines("0|0|0", "end|complete|1") + complete + refused(3) + too_many)


def path_block(level, x, y):
    """The answer for one tile of the last level, where every tile is there."""
    return lines(*(f"{l}|{x >> level - l}|{y >> level - l}" for l in range(level + 1)), f"end|complete|{level + 1}")


def round_cases():
    """As many lines as a round has, one more and one less, by as many workers and by fewer. No two lines near each other are alike."""
    for workers, count in itertools.product((1, 2, 3, 5, 63, 64), (1, 2, ROUND - 1, ROUND, ROUND + 1, 2 * ROUND, 2 * ROUND + 1, 300)):
        rows, blocks = [], []
        for place in range(count):
            x, y = place % 16, place // 16 % 16
            is_bad = place % 7 == 6
            rows.append(f"{5 if is_bad else 4} {x},{y} {x},{y}")
            blocks.append(refused(3) if is_bad else path_block(4, x, y))
        batch(f"batch_of_{count}_lines_by_{workers}_workers", tileset_b(2, 5), [str(workers), "3"], given_lines(*rows), "".join(blocks))


def limit_cases():
    ends, line = b"\n" * MOST_INPUT, b"0 0,0 0,0\n"
    batch("batch_of_the_most_line_ends", tileset_a(), ["1", "4"], ends, refused(1) * MOST_INPUT)
    batch("batch_of_many_line_ends_by_4_workers", tileset_a(), ["4", "4"], ends[:65536], refused(1) * 65536)
    batch("batch_of_one_line_end_too_many", tileset_a(), ["1", "4"], ends + b"\n", "", 8)
    batch("batch_of_the_longest_line", tileset_a(), ["4", "64"], b"1" * MOST_INPUT, refused(1))
    batch("batch_of_one_byte_too_many", tileset_a(), ["4", "64"], b"1" * (MOST_INPUT + 1), "", 8)
    whole = line * (MOST_INPUT // len(line))
    batch("batch_of_the_most_good_lines", tileset_a(), ["4", "64"], whole.ljust(MOST_INPUT, b"\n"),
          A_ROOT * (len(whole) // len(line)) + refused(1) * (MOST_INPUT - len(whole)))
    batch("batch_of_good_lines_that_are_too_long", tileset_a(), ["4", "64"], whole.ljust(MOST_INPUT + 1, b"\n"), "", 8)
    with open("/dev/zero", "rb") as zeros:
        batch("batch_of_an_endless_input", tileset_a(), ["4", "64"], None, "", 8, stdin=zeros)


def device_cases():
    one = given_lines("0 0,0 0,0")
    folder = os.open("/", os.O_RDONLY)
    batch("batch_of_a_folder_as_input", tileset_a(), ["4", "64"], None, "", 6, stdin=folder)
    batch("batch_of_a_folder_as_input_without_a_tileset", {}, ["4", "64"], None, "", 3, stdin=folder, message="view: layout fault 1\n")
    os.close(folder)
    for name, ending in (("that_is_closed", "<&-"), ("that_can_only_be_written", "0>there")):
        shell("batch_of_an_input_" + name, tileset_a(), f'"$VIEW" batch 4 64 {ending} 2>said; echo $?; cat said', "6\nview: input fault\n",
              "the status and the line of an input fault")
    with open("/dev/full", "wb") as full:
        batch("batch_to_a_full_device", tileset_a(), ["4", "64"], one, "", 5, stdout=full)
        batch("batch_of_no_input_to_a_full_device", tileset_a(), ["4", "64"], b"", "", stdout=full)
    said = '; echo "${PIPESTATUS[2]}"; cat said'
    many = 'yes "2 0,0 3,3" | head -n 20000 | "$VIEW" batch 4 64 2>said'
    shell("batch_to_a_closed_output", tileset_a(), 'echo "0 0,0 0,0" | "$VIEW" batch 4 64 2>said >&-; echo $?; cat said',
          "5\nview: write fault\n", "the status and the line of a write fault")
    shell("batch_to_a_pipe_that_is_closed_at_once", tileset_b(2, 3), f"{many} | true{said}", "5\nview: write fault\n",
          "the status and the line of a write fault")
    # the 300,000th line is the eighth of its block
    shell("batch_to_a_pipe_that_is_closed_after_a_while", tileset_b(2, 3), f"{many} | head -n 300000 | tail -n 1{said}",
          B_WHOLE.splitlines(True)[7] + "5\nview: write fault\n", "a line, and the status and the line of a write fault")
    shell("batch_through_a_pipe", tileset_b(2, 3), f"{many} | wc -l{said}", f"{20000 * 22}\n0\n", "the count of lines, and the status")
    shell("batch_leaves_nothing_of_its_input", tileset_a(), 'yes "0 0,0 0,0" | head -n 1000 | { "$VIEW" batch 4 64 | wc -l; wc -c; }', "2000\n0\n",
          "the blocks, and what is left of the input")
    for name, files, words in (("without_a_tileset", {}, "4 64"), ("over_a_folder_named_tileset_json", {"tileset.json": None}, "4 64"),
                               ("of_no_workers", tileset_a(), "0 64")):
        shell(f"batch_{name}_takes_nothing", files, f'yes "0 0,0 0,0" | head -n 1000 | {{ "$VIEW" batch {words} 2>said; wc -c; }}', "10000\n",
              "all of the input is left")
    held_back("batch_holds_nothing_back", tileset_b(2, 3), ["batch", "4", "64"], B_WHOLE * 100, given=given_lines(*["2 0,0 3,3"] * 100))
    held_back("batch_holds_no_long_text_back", tileset_b(2, 3), ["batch", "4", "64"], B_WHOLE * 3000, given=given_lines(*["2 0,0 3,3"] * 3000))


class Opens:
    """Counts how often each file of a folder is opened, as Linux tells of it."""
    CLOSED_UNWRITTEN, OPENED = 0x10, 0x20
    HEAD = struct.Struct("iIII")

    def __init__(self, folder):
        system = ctypes.CDLL(None, use_errno=True)
        self.queue = system.inotify_init1(os.O_NONBLOCK)
        # It tells of equal events in a row but once, so that the end of each reading is asked for too.
        if self.queue < 0 or system.inotify_add_watch(self.queue, os.fsencode(folder), self.OPENED | self.CLOSED_UNWRITTEN) < 0:
            raise OSError(ctypes.get_errno(), "files can't be watched")

    def count(self):
        found = collections.Counter()
        while True:
            try:
                events = os.read(self.queue, 1 << 20)
            except BlockingIOError:
                os.close(self.queue)
                return dict(found)
            while events:
                _, mask, _, length = self.HEAD.unpack_from(events)
                name = events[self.HEAD.size:self.HEAD.size + length].rstrip(b"\0").decode()
                if mask & self.OPENED and name:
                    found[name] += 1
                events = events[self.HEAD.size + length:]


@case
def opened(name, files, words, given, wanted, opens, status=0):
    """Runs `batch`, and counts how often it opens each file."""
    folder = tempfile.mkdtemp(prefix="view ")
    try:
        write_files(folder, files)
        watch = Opens(folder)
        done = subprocess.run([PROGRAM, "batch"] + words, cwd=folder, input=given, capture_output=True, timeout=120)
        found = watch.count()
        problems = [] if (done.returncode, done.stdout.decode()) == (status, wanted) else [f"status {done.returncode}, output {done.stdout[:200]!r}"]
        if found != opens:
            other = sorted(set(found.items()) ^ set(opens.items()))
            problems.append(f"opened {sum(found.values())} times, not {sum(opens.values())}: {other[:8]}")
        report(name, problems)
    finally:
        shutil.rmtree(folder)


def in_box(tile, level, low, high):
    return tile[0] <= level and all(a >> level - tile[0] <= c <= b >> level - tile[0] for a, c, b in zip(low, tile[1:], high))


def near_box(chosen, axes, level):
    """A box of a level, at random, whose sides are at most an eighth of it, and at least one tile."""
    side = 2 ** level
    low = tuple(chosen.randrange(side) for _ in range(axes))
    return level, low, tuple(min(side - 1, c + chosen.randrange(max(1, side // 8))) for c in low)


def line_of(box):
    return " ".join(box_words(*box)[1:])


def opening_cases():
    """Each file that a line needs is read once where the frames hold all of them, and no other."""
    leaves = itertools.product(range(4), repeat=2)
    files = made_files({**made_scene("quadtree", 3, 2, 0, 1, 0), "tiles": make.with_ancestors(2, leaves)})
    for words in (["4", "64"], ["1", "17"], ["64", "1024"]):
        opened("batch_of_eight_equal_lines_reads_each_file_once_by_" + "_".join(words), files, words, given_lines(*["2 0,0 3,3"] * 8), B_WHOLE * 8,
               dict.fromkeys(files, 1))
    for name, words, given, wanted in (("bad_lines", ["4", "64"], given_lines("x", "3 0,0 0,0", "2 1,0 0,0"), refused(1) + refused(3) + refused(4)),
                                       ("no_line", ["4", "64"], b"", "")):
        opened(f"batch_of_{name}_reads_no_subtree", files, words, given, wanted, {"tileset.json": 1})
    opened("batch_of_too_long_an_input_reads_no_subtree", files, ["4", "64"], b"\n" * (MOST_INPUT + 1), "", {"tileset.json": 1}, 8)
    opened("batch_of_no_workers_reads_nothing", files, ["0", "64"], b"2 0,0 3,3\n", "", {}, 2)
    scene = made_scene("quadtree", 10, 2, 1, 200, 3)
    files, chosen = made_files(scene), random.Random(20224)
    boxes = [near_box(chosen, 2, chosen.randrange(10)) for _ in range(150)]
    needed = {make.filled(scene["template"], tile): 1 for tile in scene["tiles"]
              if tile[0] % scene["subtree"] == 0 and any(in_box(tile, *box) for box in boxes)}
    for words in (["1", "1024"], ["4", "1024"], ["64", "1024"]):
        opened("batch_of_many_boxes_reads_each_file_once_by_" + "_".join(words), files, words, given_lines(*map(line_of, boxes)),
               "".join(make.answer(scene, *box) for box in boxes), {**needed, "tileset.json": 1})


def output_of(folder, words, given=b""):
    """What the program writes that ends well, and what was wrong else."""
    done = subprocess.run([PROGRAM] + words, cwd=folder, input=given, capture_output=True, timeout=120)
    return done.stdout.decode(), [] if (done.returncode, done.stderr) == (0, b"") else [f"{words}: status {done.returncode}, {done.stderr!r}"]


@case
def in_made_octree(name):
    """A generated octree whose errors and box have points: eight equal lines, against the set of its tiles, and against `tiles`."""
    folder = tempfile.mkdtemp(prefix="view ")
    try:
        recipe = ("octree", 12, 4, 2, 1000, 7)
        _, problems = output_of(folder, ["make", *map(str, recipe)])
        path = os.path.join(folder, "tileset.json")
        with open(path, encoding="utf-8") as file:
            text = file.read()
        changed = text.replace('"geometricError":1', '"geometricError":70.71')
        changed = changed.replace("[0,0,0,1,0,0,0,1,0,0,0,1]", "[0.5,0.5,0.5,7.25,0,0,0,7.25,0,0,0,1e1]")
        if changed.count("70.71") != 2 or "7.25" not in changed:
            problems.append("tileset.json has no such members")
        with open(path, "w", encoding="utf-8") as file:
            file.write(changed)
        box = 9, (0, 0, 0), (511, 511, 511)
        block = make.answer(made_scene(*recipe), *box)
        alone, wrong = output_of(folder, box_words(*box))
        blocks, also_wrong = output_of(folder, ["batch", "4", "32"], given_lines(*[line_of(box)] * 8))
        problems += wrong + also_wrong
        if alone != block:
            problems.append(f"`tiles` writes {len(alone)} bytes, not the {len(block)} that are wanted")
        if blocks != block * 8:
            problems.append(f"{len(blocks)} bytes, not eight blocks of {len(block)}")
        report(name, problems)
    finally:
        shutil.rmtree(folder)


@case
def same_by_all(name, recipe, count):
    """Many overlapping boxes over thousands of subtrees, some of them twice and one that has a quarter of all, with bad lines among them:
    the blocks are what `tiles` writes for each line, by any number of workers and of frames."""
    axes, levels = 2 if recipe[0] == "quadtree" else 3, recipe[1]
    chosen = random.Random(20225)
    boxes = [near_box(chosen, axes, chosen.randrange(levels)) for _ in range(count * 3 // 4)]
    boxes += chosen.sample(boxes, count - len(boxes) - 1) + [(levels - 1, (0,) * axes, (2 ** (levels - 2) - 1,) * axes)]
    chosen.shuffle(boxes)
    folder = tempfile.mkdtemp(prefix="view ")
    try:
        text, problems = output_of(folder, ["make", *map(str, recipe)])
        files = len(os.listdir(folder))
        if files < 2000 or not text.startswith(f"made\t{files}\t"):
            problems.append(f"{text!r} of {files} files")
        told, rows, blocks = {}, [], []
        bad = itertools.cycle((("", 1), (f"{levels} 0,0 0,0", 3), ("1 1,1 0,0", 4), ("1 0,0 1,2", 5), ("1 0,0,0,0 1,1,1,1", 1)))
        for place, box in enumerate(boxes):
            if box not in told:
                told[box], wrong = output_of(folder, box_words(*box))
                problems += wrong
            rows.append(line_of(box))
            blocks.append(told[box])
            if place % 17 == 16:
                row, number = next(bad)
                rows.append(row)
                blocks.append(refused(number))
        wanted, given = "".join(blocks), given_lines(*rows)
        for workers, frames in itertools.product((1, 2, 3, 4, 16, 64), (1, 2, 31, 1024)):
            found, wrong = output_of(folder, ["batch", str(workers), str(frames)], given)
            problems += wrong
            if found != wanted:
                same = len(os.path.commonprefix([found, wanted]))
                problems.append(f"{workers} workers, {frames} frames: {len(found)} bytes, not {len(wanted)}, and others from {same} on")
        report(name, problems)
    finally:
        shutil.rmtree(folder)


def cases():
    word_cases()
    worked_cases()
    refusal_cases()
    line_end_cases()
    fault_cases()
    cut_at_the_most("batch_of_the_most_tiles")
    round_cases()
    limit_cases()
    device_cases()
    opening_cases()
    in_made_octree("batch_over_a_made_octree")
    same_by_all("batch_is_the_same_by_any_workers_and_frames", ("quadtree", 14, 3, 2, 3000, 2), 150)
