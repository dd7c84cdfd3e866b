"""Cases of `tiles` and `check`: worked answers, refusals, faulty layouts, devices that fail, and the examples."""
import os
import random
import shutil
import subprocess
import tempfile

from harness import PROGRAM, case, lines, pieces, report, run, shell, write_files
from tilesets import (A_JSON, A_ROOT, A_WHOLE, NAME, all_ones, made_files, make, pack, set_buffer, set_child, set_view, tileset,
                      tileset_a, tileset_b, tileset_c, tileset_d, with_tile_bits)


def tiles_cases():
    run("five_tiles_of_one_subtree", tileset_a(), ["tiles", "1", "0,0", "1,1"], A_WHOLE)
    run("the_root_alone", tileset_a(), ["tiles", "0", "0,0", "0,0"], A_ROOT)
    run("the_first_dashes_are_dropped", tileset_a(), ["tiles", "--", "0", "0,0", "0,0"], A_ROOT)
    run("the_right_column", tileset_a(), ["tiles", "1", "1,0", "1,1"],
        lines("0|0|0|c/0/0/0.glb", "1|1|0|c/1/1/0.glb", "1|1|1|c/1/1/1.glb", "end|complete|3"))
    run("a_bitstream_of_tiles", tileset_a(subtree=with_tile_bits(0x3F)), ["tiles", "1", "0,0", "1,1"], A_WHOLE)
    run("a_count_that_agrees", tileset_a(subtree=with_tile_bits(0x3F, 5)), ["tiles", "1", "0,0", "1,1"], A_WHOLE)
    run("a_count_that_is_wrong", tileset_a(subtree=with_tile_bits(0x3F, 6)), ["tiles", "1", "0,0", "1,1"],
        lines("end|fault|0|16|0|0|0"), 1)
    run("children_of_an_absent_leaf", tileset_d(), ["tiles", "3", "0,0", "7,7"], lines("0|0|0", "1|0|0", "end|complete|2"))
    run("a_missing_subtree", tileset_d(bytes([3, 0, 0, 0, 0, 0, 0, 0, 1, 0])), ["tiles", "3", "0,0", "7,7"],
        lines("0|0|0", "1|0|0", "end|fault|2|1|2|0|0"), 1)
    run("twenty_one_tiles", tileset_b(2, 3), ["tiles", "2", "0,0", "3,3"],
        lines(*all_ones(2, 2, (0, 0), (3, 3)), "end|complete|21"))
    run("a_level_that_is_too_high", tileset_b(2, 3), ["tiles", "3", "0,0", "7,7"], lines("refused|3"), 2)
    run("eighty_five_tiles", tileset_b(2, 4), ["tiles", "3", "0,0", "7,7"],
        lines(*all_ones(2, 3, (0, 0), (7, 7)), "end|complete|85"))
    a = tileset_a()
    whole = a["s/0/0/0.subtree"]
    for name, data, fault in (("a_short_header", whole[:23], 3), ("a_cut_file", whole[:8] + b"\xff" * 8 + whole[16:24], 6),
                              ("another_magic", b"Subt" + whole[4:], 4), ("another_version", whole[:4] + b"\2" + whole[5:], 5)):
        run(name, {**a, "s/0/0/0.subtree": data}, ["tiles", "1", "0,0", "1,1"], lines(f"end|fault|0|{fault}|0|0|0"), 1)
    for name, change, fault in (("a_view_out", set_view(1, "byteLength", 3), 14), ("a_view_short", set_view(1, "byteLength", 1), 15),
                                ("an_external_buffer", set_buffer("uri", "x.bin"), 19), ("an_unknown_view", set_child({"bitstream": 2}), 12)):
        run(name, tileset_d(change=change), ["tiles", "3", "0,0", "7,7"], lines(f"end|fault|0|{fault}|0|0|0"), 1)
    run("a_subtree_file_that_is_too_long", tileset_a(subtree=whole.ljust(16777217, b"\0")), ["tiles", "1", "0,0", "1,1"],
        lines("end|fault|0|2|0|0|0"), 1)
    run("the_longest_subtree_file", tileset_a(subtree=whole.ljust(16777216, b"\0")), ["tiles", "1", "0,0", "1,1"], A_WHOLE)
    run("a_tile_without_its_parent", tileset_d(bytes([2, 0, 0, 0, 0, 0, 0, 0, 0xF0, 0])), ["tiles", "3", "0,0", "7,7"],
        lines("end|fault|0|17|0|0|0"), 1)
    run("a_content_without_its_tile", tileset_a(subtree=with_tile_bits(0x0F)), ["tiles", "1", "0,0", "1,1"],
        lines("end|fault|0|18|0|0|0"), 1)
    run("a_fault_outside_the_region", tileset_c(s_1_0_0=b"\0\0\0", s_1_1_0=None), ["tiles", "1", "1,0", "1,0"],
        lines("0|0|0", "end|fault|1|1|1|1|0"), 1)
    run("the_first_fault_in_the_region", tileset_c(s_1_0_1=b"\0\0\0"), ["tiles", "1", "0,0", "1,1"],
        lines("0|0|0", "1|0|0", "1|1|0", "end|fault|3|3|1|0|1"), 1)
    run("exactly_65536_tiles", tileset_b(9, 18), ["tiles", "16", "0,0", "0,32767"],
        lines(*all_ones(2, 16, (0, 0), (0, 32767)), "end|complete|65536"))
    run("cut_at_65536", tileset_b(9, 18), ["tiles", "17", "0,0", "0,32767"],
        lines(*all_ones(2, 17, (0, 0), (0, 32767))[:65536], "end|too-many|65536"))
    run("one_path_of_32_levels", tileset_b(9, 32), ["tiles", "31", "2147483647,2147483647", "2147483647,2147483647"],
        lines(*(f"{l}|{2**l - 1}|{2**l - 1}" for l in range(32)), "end|complete|32"))
    run("one_path_of_an_octree_of_21_levels", tileset_b(2, 21, "OCTREE"), ["tiles", "20", "1048575,0,1048575", "1048575,0,1048575"],
        lines(*(f"{l}|{2**l - 1}|0|{2**l - 1}" for l in range(21)), "end|complete|21"))
    sixteen = pack(A_JSON.replace('[{"constant":1}]', "[" + ",".join(['{"constant":1}'] * 16) + "]"))
    run("sixteen_contents", {"tileset.json": tileset("QUADTREE", 2, 2, NAME, contents=[f"a{c}" for c in range(16)]), "s/0/0/0.subtree": sixteen},
        ["tiles", "0", "0,0", "0,0"], lines("|".join(["0", "0", "0", *(f"a{c}" for c in range(16))]), "end|complete|1"))
    run("an_octree", tileset_b(2, 2, "OCTREE"), ["tiles", "1", "1,0,0", "1,1,1"],
        lines("0|0|0|0", "1|1|0|0", "1|1|1|0", "1|1|0|1", "1|1|1|1", "end|complete|5"))


def refusal_cases():
    for name, words in (("too_few_words", ["tiles", "1", "0,0"]), ("no_words", []), ("an_unknown_command", ["tilez", "1", "0,0", "1,1"]),
                        ("a_leading_zero", ["tiles", "01", "0,0", "1,1"]), ("a_sign", ["tiles", "1", "+0,0", "1,1"]),
                        ("dashes_twice", ["tiles", "--", "--", "0,0", "0,0"]), ("a_blank", ["tiles", "1 ", "0,0", "1,1"]),
                        ("a_word_that_is_not_utf8", ["tiles", b"\xff", "0,0", "1,1"]), ("help_is_no_command", ["--help"]),
                        ("four_numbers", ["tiles", "1", "0,0,0,0", "1,1,1,1"])):
        run(name, tileset_a(), words, "", 2)
    run("three_numbers_in_a_quadtree", tileset_a(), ["tiles", "1", "0,0,0", "1,1,1"], lines("refused|2"), 2)
    run("a_box_out_of_order", tileset_a(), ["tiles", "1", "1,0", "0,0"], lines("refused|4"), 2)
    run("a_box_out_of_the_level", tileset_a(), ["tiles", "1", "0,0", "2,0"], lines("refused|5"), 2)


# Faulty layouts: a name, tileset.json or None where there is none, and the number of its first fault.
LAYOUTS = (
    ("no_tileset", None, 1),
    ("a_tileset_that_is_too_long", b" " * 16777217, 2),
    ("a_tileset_of_one_brace", b"{", 3),
    ("a_tileset_that_is_a_list", b"[]", 4),
    ("no_implicit_tiling", b'{"root":{}}', 5),
    ("a_scheme_in_small_letters", tileset("quadtree", 2, 2, NAME), 6),
    ("no_subtree_levels", tileset("QUADTREE", 0, 2, NAME), 7),
    ("too_many_levels", tileset("QUADTREE", 2, 33, NAME), 8),
    ("too_many_levels_of_an_octree", tileset("OCTREE", 2, 22, NAME), 8),
    ("a_template_with_a_line_feed", tileset("QUADTREE", 2, 2, "a\nb"), 9),
    ("both_contents", tileset("QUADTREE", 2, 2, NAME, contents=["a"], content="b"), 10),
    ("a_content_without_its_uri", tileset("QUADTREE", 2, 2, NAME).replace(b'"implicitTiling"', b'"content":{},"implicitTiling"'), 11),
    ("seventeen_contents", tileset("QUADTREE", 2, 2, NAME, contents=[f"a{c}" for c in range(17)]), 12))


def layout_cases():
    for name, data, fault in LAYOUTS:
        run(name, {} if data is None else {"tileset.json": data}, ["tiles", "1", "0,0", "1,1"], "", 3, f"view: layout fault {fault}\n")


def device_cases():
    one = ["tiles", "1", "0,0", "1,1"]
    run("a_folder_named_tileset_json", {"tileset.json": None}, one, "", 4)
    run("a_folder_for_a_subtree_file", {**tileset_a(), "s/0/0/0.subtree": None}, one, "", 4)
    with open("/dev/full", "wb") as full:
        run("a_full_device", tileset_a(), one, "", 5, stdout=full)
    files = {"tileset.json": tileset("QUADTREE", 2, 2, "a%20b/{x} {y}.subtree", content="c {level}-{x}%2F{y}.glb"),
             "a b/0 0.subtree": pack(A_JSON)}
    run("names_with_spaces_and_escapes", files, ["tiles", "0", "0,0", "0,0"], lines("0|0|0|c 0-0%2F0.glb", "end|complete|1"))
    shell("a_closed_pipe", tileset_b(9, 18), '"$VIEW" tiles 16 0,0 0,32767 | head -n 1; echo "${PIPESTATUS[0]}"',
          lines("0|0|0") + "5\n", "the first line and the status of a write fault")
    shell("a_closed_output", tileset_a(), '"$VIEW" tiles 1 0,0 1,1 >&-; echo $?', "5\n", "the status of a write fault")
    pieces("pieces_of_short_lines", tileset_b(9, 18), ["tiles", "16", "0,0", "0,32767"],
           lines(*all_ones(2, 16, (0, 0), (0, 32767)), "end|complete|65536"))
    long = pack('{"childSubtreeAvailability":{"constant":1},"contentAvailability":[' + ",".join(['{"constant":1}'] * 16)
                + '],"tileAvailability":{"constant":1}}')
    rows = ["|".join([str(l), *[str(2**l - 1)] * 2, *[str(2**l - 1) * 341] * 16]) for l in range(32)]
    pieces("pieces_of_the_longest_lines", {"tileset.json": tileset("QUADTREE", 9, 32, "all.subtree", contents=["{x}" * 341] * 16),
                                           "all.subtree": long}, ["tiles", "31", "2147483647,2147483647", "2147483647,2147483647"],
           lines(*rows, "end|complete|32"))
    shell("a_whole_answer_through_a_pipe", tileset_b(9, 18), '"$VIEW" tiles 16 0,0 0,32767 | wc -l', "65537\n", "65,537 lines")


def check_cases():
    run("check_of_one_file", tileset_a(), ["check"], lines("end|checked|1|0"))
    run("check_of_five_files", tileset_c(s_1_0_1=b"\0\0\0"), ["check"], lines("fault|3|1|0|1", "end|checked|5|1"), 1)
    run("check_takes_no_words", tileset_a(), ["check", "1"], "", 2)
    run("check_of_a_folder", {**tileset_a(), "s/0/0/0.subtree": None}, ["check"], "", 4)


@case
def example(name, scene, words, wanted):
    """Runs the program on an example, in its own folder."""
    done = subprocess.run([PROGRAM] + words, cwd=os.path.join(make.HERE, scene["name"]), capture_output=True, timeout=120)
    report(name, [] if (done.returncode, done.stdout.decode()) == (0, wanted) else
           [f"status {done.returncode}, output {done.stdout[:200]!r}, not {wanted[:200]!r}"])


def box_words(level, low, high):
    return ["tiles", str(level), ",".join(map(str, low)), ",".join(map(str, high))]


def example_cases():
    """The examples, against the sets of tiles that they were made from."""
    for scene in make.SCENES:
        last = scene["levels"] - 1
        whole = (tuple([0] * scene["axes"]), tuple([2 ** last - 1] * scene["axes"]))
        part = (tuple([2 ** last // 4] * scene["axes"]), tuple([2 ** last // 2] * scene["axes"]))
        for name, level, (low, high) in (("whole", last, whole), ("part", last, part), ("top", 0, (whole[0], whole[0]))):
            example(f"{scene['name']}_{name}", scene, box_words(level, low, high), make.answer(scene, level, low, high))
        roots = sum(1 for tile in scene["tiles"] if tile[0] % scene["subtree"] == 0)
        example(f"{scene['name']}_check", scene, ["check"], lines(f"end|checked|{roots}|0"))


def random_scene(random):
    """A tileset whose tiles are some leaves at random, with their ancestors, and the contents at random."""
    axes = random.choice((2, 3))
    levels = random.randint(1, 7 if axes == 2 else 5)
    side = 2 ** (levels - 1)
    leaves = [tuple(random.randrange(side) for _ in range(axes)) for _ in range(random.choice((1, 5, 40, 300)))]
    tiles = make.with_ancestors(levels - 1, leaves)
    held = [{tile for tile in tiles if random.random() < share} for share in random.choices((0, 0.3, 1), k=random.randint(0, 3))]
    variables = "-{level}-{x}-{y}" + ("-{z}" if axes == 3 else "")
    return {"scheme": "QUADTREE" if axes == 2 else "OCTREE", "axes": axes, "levels": levels, "subtree": random.randint(1, 4),
            "tiles": tiles, "contents": [f"c{c}{variables}" for c in range(len(held))], "template": "s" + variables,
            "has": lambda tile, content: tile in held[content]}


def random_box(random, axes, level):
    ends = [sorted(random.randrange(2 ** level) for _ in range(2)) for _ in range(axes)]
    return tuple(low for low, _ in ends), tuple(high for _, high in ends)


@case
def random_tileset(name, scene, asked):
    """Asks for boxes of a tileset, against the set of its tiles."""
    folder = tempfile.mkdtemp(prefix="view ")
    try:
        write_files(folder, made_files(scene))
        problems = []
        for level, (low, high) in asked:
            words = box_words(level, low, high)
            done = subprocess.run([PROGRAM] + words, cwd=folder, capture_output=True, timeout=120)
            if (done.returncode, done.stdout.decode()) != (0, make.answer(scene, level, low, high)):
                problems.append(f"{words}: status {done.returncode}, output {done.stdout[:200]!r}")
        report(name, problems)
    finally:
        shutil.rmtree(folder)


def random_cases():
    """Tilesets and boxes at random, always the same ones."""
    chosen = random.Random(20221)
    for number in range(30):
        scene = random_scene(chosen)
        levels = (chosen.randrange(scene["levels"]) for _ in range(6))
        random_tileset(f"random_tileset_{number}", scene, [(level, random_box(chosen, scene["axes"], level)) for level in levels])


def cases():
    tiles_cases()
    example_cases()
    random_cases()
    refusal_cases()
    layout_cases()
    device_cases()
    check_cases()
