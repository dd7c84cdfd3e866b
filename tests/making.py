"""Cases of `make` and `survey`: worked files byte for byte, whole tilesets beside a plain reference, bad recipes, and keepers
that fail."""
import resource
import shutil
import subprocess
import tempfile

from harness import PROGRAM, case, files_in, is_chosen, left_in_folder, lines, report, run, write_files
from tilesets import made_files, made_scene, make, pack


@case
def made(name, recipe, wanted_text=None, there=None):
    """Makes a tileset, over files that are there, and reads it back: the files byte by byte, `tiles` over all and a part of it,
    and `check`."""
    folder = tempfile.mkdtemp(prefix="view ")
    problems = []

    def answers(words, text, status=0):
        done = subprocess.run([PROGRAM] + words, cwd=folder, capture_output=True, timeout=120)
        if (done.returncode, done.stdout.decode()) != (status, text):
            problems.append(f"{words}: status {done.returncode}, output {done.stdout[:200]!r}, not {text[:200]!r}")
    try:
        write_files(folder, there or {})
        scene = made_scene(*recipe)
        files = made_files(scene)
        last = recipe[1] - 1
        answers(["make", *map(str, recipe)], wanted_text or lines(f"made|{len(files)}|{len(scene['tiles'])}"))
        if files_in(folder) != {**(there or {}), **files}:
            problems.append("the files are others")
        low, high = tuple([0] * scene["axes"]), tuple([2 ** last - 1] * scene["axes"])
        middle = tuple(c // 2 for c in high)
        for level, corners in ((last, (low, high)), (last, (low, middle)), (0, (low, low))):
            answers(["tiles", str(level), *(",".join(map(str, corner)) for corner in corners)], make.answer(scene, level, *corners))
        answers(["check"], lines(f"end|checked|{len(files) - 1}|0"))
        report(name, problems)
    finally:
        shutil.rmtree(folder)


WORKED = ["quadtree", "3", "2", "1", "2", "1"]
WORKED_ROOT = ('{"bufferViews":[{"buffer":0,"byteLength":1,"byteOffset":0},{"buffer":0,"byteLength":1,"byteOffset":8},'
               '{"buffer":0,"byteLength":2,"byteOffset":16}],"buffers":[{"byteLength":24}],'
               '"childSubtreeAvailability":{"availableCount":2,"bitstream":2},'
               '"contentAvailability":[{"availableCount":2,"bitstream":1}],"tileAvailability":{"availableCount":2,"bitstream":0}}')
WORKED_LEAF = ('{"bufferViews":[{"buffer":0,"byteLength":1,"byteOffset":0},{"buffer":0,"byteLength":1,"byteOffset":8}],'
               '"buffers":[{"byteLength":16}],"childSubtreeAvailability":{"constant":0},'
               '"contentAvailability":[{"availableCount":1,"bitstream":1}],"tileAvailability":{"availableCount":1,"bitstream":0}}')
WORKED_TILESET = ('{"asset":{"version":"1.1"},"geometricError":1,"root":{"boundingVolume":{"box":[0,0,0,1,0,0,0,1,0,0,0,1]},'
                  '"content":{"uri":"c0.{level}.{x}.{y}.glb"},"geometricError":1,"implicitTiling":{"availableLevels":3,'
                  '"subdivisionScheme":"QUADTREE","subtreeLevels":2,"subtrees":{"uri":"s.{level}.{x}.{y}.subtree"}},"refine":"ADD"}}')
WORKED_FILES = {"s.0.0.0.subtree": pack(WORKED_ROOT, bytes([9, *[0] * 7, 9, *[0] * 7, 0, 9, *[0] * 6])),
                "s.2.0.2.subtree": pack(WORKED_LEAF, bytes([1, *[0] * 7, 1, *[0] * 7])),
                "s.2.1.3.subtree": pack(WORKED_LEAF, bytes([1, *[0] * 7, 1, *[0] * 7])),
                "tileset.json": WORKED_TILESET.encode()}


def make_cases():
    left_in_folder("four_files_of_two_points", {}, ["make", *WORKED], WORKED_FILES, lines("made|4|4"), 0)
    run("tiles_of_two_points", WORKED_FILES, ["tiles", "2", "0,0", "3,3"],
        lines("0|0|0|c0.0.0.0.glb", "1|0|1|c0.1.0.1.glb", "2|0|2|c0.2.0.2.glb", "2|1|3|c0.2.1.3.glb", "end|complete|4"))
    left_in_folder("dashes_before_a_recipe", {}, ["make", "--", *WORKED], WORKED_FILES, lines("made|4|4"), 0)
    other = {"other.txt": b"stays", "s.9.9.9.subtree": b"stays too"}
    left_in_folder("other_files_stay", {**other, "s.0.0.0.subtree": b"old"}, ["make", *WORKED], {**other, **WORKED_FILES}, lines("made|4|4"), 0)
    made("one_tile", ("quadtree", 1, 1, 0, 1, 0))
    made("a_quadtree_with_three_contents", ("quadtree", 8, 3, 3, 40, 4294967295))
    made("an_octree_of_small_subtrees", ("octree", 6, 1, 2, 30, 9), there={"tileset.json": b"old"})
    made("an_octree_of_one_subtree", ("octree", 5, 7, 16, 25, 12345))
    made("a_full_level", ("quadtree", 3, 2, 1, 10000, 5))
    for name, words in (("a_recipe_of_five_words", WORKED[:5]), ("a_recipe_of_seven_words", WORKED + ["1"]), ("no_recipe", []),
                        ("another_scheme", ["Quadtree"] + WORKED[1:]), ("no_levels", ["quadtree", "0"] + WORKED[2:]),
                        ("too_many_levels_of_a_quadtree", ["quadtree", "33"] + WORKED[2:]),
                        ("too_many_levels_of_an_octree", ["octree", "22"] + WORKED[2:]),
                        ("subtrees_of_no_levels", ["quadtree", "3", "0"] + WORKED[3:]),
                        ("subtrees_of_eleven_levels", ["quadtree", "3", "11"] + WORKED[3:]),
                        ("octree_subtrees_of_eight_levels", ["octree", "3", "8"] + WORKED[3:]),
                        ("seventeen_contents_to_make", WORKED[:3] + ["17"] + WORKED[4:]),
                        ("no_points", WORKED[:4] + ["0", "1"]), ("too_many_points", WORKED[:4] + ["10001", "1"]),
                        ("a_number_past_32_bits", WORKED[:5] + ["4294967296"]), ("a_number_with_a_zero_before", WORKED[:5] + ["01"]),
                        ("a_number_with_a_sign", WORKED[:5] + ["+1"]), ("a_number_below_zero", WORKED[:5] + ["-1"]),
                        ("a_number_with_a_blank", WORKED[:5] + ["1 "]),
                        ("dashes_twice_before_a_recipe", ["--", "--"] + WORKED[1:]), ("a_number_that_is_not_utf8", WORKED[:5] + [b"\xff"])):
        for command in ("make", "survey"):
            left_in_folder(f"{command}_{name}", {}, [command, *words], {}, "", 2)
    # the keeper fails: what was put before stays, and nothing is written
    folder = {"s.2.0.2.subtree": None}
    left_in_folder("a_folder_in_place_of_a_second_file", folder, ["make", *WORKED],
                   {**folder, "s.0.0.0.subtree": WORKED_FILES["s.0.0.0.subtree"]}, "", 5)
    folder = {"tileset.json": None}
    left_in_folder("a_folder_in_place_of_tileset_json", folder, ["make", *WORKED], {**WORKED_FILES, **folder}, "", 5)
    with open("/dev/full", "wb") as full:
        left_in_folder("make_to_a_full_device", {}, ["make", *WORKED], WORKED_FILES, "", 5, stdout=full)
    # a write fails after a front of the file was written: the file goes, and nothing else does
    one = made_files(made_scene("quadtree", 1, 1, 0, 1, 0))
    first = len(one["s.0.0.0.subtree"])
    whole = len(WORKED_FILES["s.0.0.0.subtree"])
    for name, there, recipe, most, left in (
            ("no_front_stays", {}, WORKED, 256, {}),
            ("no_front_of_all_but_one_byte_stays", {}, WORKED, whole - 1, {}),
            ("what_was_there_goes_with_the_front", {"s.0.0.0.subtree": b"old", "o": b"o"}, WORKED, 256, {"o": b"o"}),
            ("no_front_of_tileset_json_stays", {}, ["quadtree", "1", "1", "0", "1", "0"], first,
             {"s.0.0.0.subtree": one["s.0.0.0.subtree"]})):
        left_in_folder(name, there, ["make", *recipe], left, "", 5, limits={resource.RLIMIT_FSIZE: most})


def survey_cases():
    left_in_folder("survey_of_two_points", {}, ["survey", *WORKED], {}, lines("survey|4|4|4|4|complete"), 0)
    left_in_folder("survey_leaves_the_folder", {"tileset.json": b"{"}, ["survey", *WORKED], {"tileset.json": b"{"}, lines("survey|4|4|4|4|complete"), 0)
    run("survey_of_two_contents", {}, ["survey", "quadtree", "3", "2", "2", "2", "1"], lines("survey|4|4|4|7|complete"))
    run("survey_of_subtrees_of_five_levels", {}, ["survey", "quadtree", "12", "5", "2", "2", "1"], "", 2)
    run("survey_of_subtrees_of_four_levels", {}, ["survey", "quadtree", "1", "4", "0", "1", "1"], lines("survey|2|1|1|0|complete"))
    for recipe in (("octree", 12, 4, 2, 1000, 7), ("quadtree", 14, 3, 4, 3000, 2), ("octree", 21, 4, 16, 5000, 4294967295)):
        names = [f"survey_of_{'_'.join(map(str, recipe))}{again}" for again in ("", "_again")]
        if not any(is_chosen(name) for name in names):
            continue
        scene = made_scene(*recipe)
        tiles = sorted(scene["tiles"], key=lambda t: (t[0], make.interleaved(t[1:])))
        files = 1 + sum(1 for tile in tiles if tile[0] % recipe[2] == 0)
        listed = tiles[:65536]
        contents = sum(scene["has"](tile, c) for tile in listed for c in range(recipe[3]))
        wanted = lines(f"survey|{files}|{len(tiles)}|{len(listed)}|{contents}|{'complete' if len(tiles) <= 65536 else 'too-many'}")
        for name in names:
            run(name, {}, ["survey", *map(str, recipe)], wanted)
    with open("/dev/full", "wb") as full:
        run("survey_to_a_full_device", {}, ["survey", *WORKED], "", 5, stdout=full)


def cases():
    make_cases()
    survey_cases()
