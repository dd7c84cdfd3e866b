"""Cases at the limits, in a memory that is ample and no more: the longest files, the most levels, the largest subtrees, checks of
thousands of faults and of too many files. What is wanted comes of closed forms and of the plain rules of the standard."""
import functools
import itertools
import json
import resource
import struct

from harness import is_chosen, lines, pieces, run
from tilesets import A_JSON, A_WHOLE, NAME, ONES, all_ones, make, pack, tileset, tileset_a, tileset_b

MOST_BYTES = 16777216
HEADER_BYTES = 24
MOST_LISTED = 65536
# All that a case may use: what is wanted of the program has to come with no more than this.
AMPLE = {resource.RLIMIT_AS: 500 << 20}


def extreme(name, files, words, wanted, status=0, message=None):
    run(name, files, words, wanted, status, message, limits=AMPLE)


def with_member(record, value):
    """A JSON object with one more member, which nothing looks at, before the others."""
    return b'{"extras":' + value + b"," + record[1:]


def longest(record, length, front=b'"', inside=b"x", back=b'"'):
    """A JSON object with a member that nothing looks at, of so many bytes in all."""
    bare = len(with_member(record, front + back))
    times = (length - bare) // len(inside)
    return with_member(record, front + inside * times + back).ljust(length)


def tileset_json_cases():
    """The longest `tileset.json`, and one of a byte more."""
    whole = tileset_a()
    layout, one = whole["tileset.json"], ["tiles", "1", "0,0", "1,1"]
    for name, data in (("blanks_behind", layout.ljust(MOST_BYTES)), ("blanks_before", layout.rjust(MOST_BYTES)),
                       ("a_long_string", longest(layout, MOST_BYTES)),
                       ("a_string_of_escapes", longest(layout, MOST_BYTES, inside=b"\\u00e9")),
                       ("a_string_of_short_escapes", longest(layout, MOST_BYTES, inside=b"\\n")),
                       ("a_long_name", longest(layout, MOST_BYTES, b'{"', b"x", b'":1}')),
                       ("a_long_number", longest(layout, MOST_BYTES, b"0.", b"1", b"1"))):
        assert len(data) == MOST_BYTES
        extreme(f"the_longest_tileset_json_with_{name}", {**whole, "tileset.json": data}, one, A_WHOLE)
        extreme(f"one_byte_more_than_{name}", {**whole, "tileset.json": data + b" "}, one, "", 3, "view: layout fault 2\n")


def subtree_json_cases():
    """The longest JSON part that a subtree file has room for; lengths whose sums wrap; and views at the very end of a file."""
    one, most = ["tiles", "1", "0,0", "1,1"], MOST_BYTES - HEADER_BYTES
    for name, text in (("blanks_behind", A_JSON.encode().ljust(most)), ("a_long_string", longest(A_JSON.encode(), most)),
                       ("a_string_of_escapes", longest(A_JSON.encode(), most, inside=b"\\u00e9"))):
        assert len(pack(text)) == MOST_BYTES
        extreme(f"the_longest_json_part_with_{name}", tileset_a(subtree=pack(text)), one, A_WHOLE)
        extreme(f"a_json_part_one_word_longer_than_{name}", tileset_a(subtree=pack(text + b" " * 8)), one, lines("end|fault|0|2|0|0|0"), 1)
    text = A_JSON.encode() + b" " * (-len(A_JSON) % 8)
    for json_bytes, binary_bytes, wanted in (
            (len(text), 0, A_WHOLE), (len(text), 1, None), (len(text) + 1, 0, None), (2 ** 64 - HEADER_BYTES, 0, None),
            (2 ** 63, 2 ** 63, None), (2 ** 64 - 1, 1, None), (len(text), 2 ** 64 - len(text), None),
            (len(text), 2 ** 64 - len(text) - HEADER_BYTES, None), (2 ** 64 - 1, 2 ** 64 - 1, None), (0, 2 ** 64 - HEADER_BYTES, None)):
        file = b"subt" + struct.pack("<IQQ", 1, json_bytes, binary_bytes) + text
        extreme(f"parts_of_{json_bytes}_and_{binary_bytes}_bytes", tileset_a(subtree=file), one,
                wanted or lines("end|fault|0|6|0|0|0"), 0 if wanted else 1)
    # the second part beside a record of 512 bytes
    binary = MOST_BYTES - HEADER_BYTES - 512
    for name, length, offset, wanted in (("the_last_byte_of_the_longest_file", binary, binary - 1, A_WHOLE),
                                         ("past_the_last_byte", binary, binary, "end|fault|0|14|0|0|0"),
                                         ("past_the_second_part", binary + 1, binary, "end|fault|0|14|0|0|0"),
                                         ("at_an_end_that_wraps", 2 ** 64 - 1, 2 ** 64 - 1, "end|fault|0|14|0|0|0"),
                                         ("at_the_last_number", binary, 2 ** 64 - 1, "end|fault|0|14|0|0|0")):
        record = {"buffers": [{"byteLength": length}], "bufferViews": [{"buffer": 0, "byteOffset": offset, "byteLength": 1}],
                  "childSubtreeAvailability": {"constant": 0}, "contentAvailability": [{"constant": 1}],
                  "tileAvailability": {"bitstream": 0, "availableCount": 5}}
        file = pack(json.dumps(record, separators=(",", ":")).ljust(512), b"\0" * (binary - 1) + b"\x1f")
        assert len(file) == MOST_BYTES
        is_good = wanted == A_WHOLE
        extreme(f"a_view_{name}", tileset_a(subtree=file), one, wanted if is_good else lines(wanted), 0 if is_good else 1)


def last_tile_cases():
    """The last tile of the last level in each axis, and in all of them, by subtrees of few and of many levels."""
    for scheme, axes, levels, depths in (("QUADTREE", 2, 32, (1, 2, 9, 10)), ("OCTREE", 3, 21, (1, 2, 6, 7))):
        last = 2 ** (levels - 1) - 1
        uri = "".join(("{level}", "/{x}", "/{y}", "/{z}")[:axes + 1])
        for depth in depths:
            files = {"tileset.json": tileset(scheme, depth, levels, "all.subtree", content=uri),
                     "all.subtree": pack(ONES[:-1] + ',"contentAvailability":[{"constant":1}]}')}
            for corner in (tile for tile in itertools.product((0, last), repeat=axes) if any(tile)):
                rows = [[str(level), *(str(c >> levels - 1 - level) for c in corner)] for level in range(levels)]
                word = ",".join(map(str, corner))
                extreme(f"the_last_level_of_{scheme.lower()}_{depth}_at_{word}", files, ["tiles", str(levels - 1), word, word],
                        lines(*("|".join([*row, "/".join(row)]) for row in rows), f"end|complete|{levels}"))
    quadtree, octree = tileset_b(10, 32), tileset_b(1, 21, "OCTREE")
    extreme("one_level_more_than_32", quadtree, ["tiles", "32", "0,0", "0,0"], lines("refused|3"), 2)
    extreme("one_level_more_than_21", octree, ["tiles", "21", "0,0,0", "0,0,0"], lines("refused|3"), 2)
    extreme("one_tile_more_than_the_last_of_a_quadtree", quadtree, ["tiles", "31", "0,0", "2147483647,2147483648"], lines("refused|5"), 2)
    extreme("one_tile_more_than_the_last_of_an_octree", octree, ["tiles", "20", "0,0,0", "0,0,1048576"], lines("refused|5"), 2)


@functools.cache
def first_nodes(axes, level, most):
    """The first tiles of a level in the order of Morton indices, at most so many: those below the first ones of the level above."""
    if level == 0:
        return [(0,) * axes]
    above = first_nodes(axes, level - 1, -(-most // 2 ** axes))
    below = (tuple(2 * c + (child >> axis & 1) for axis, c in enumerate(node)) for node in above for child in range(2 ** axes))
    return list(itertools.islice(below, most))


def first_listed(axes, levels):
    """The text of an answer over a tileset in which every tile of these first levels is there, which are too many."""
    rows = ["|".join(map(str, (level, *node))) for level in range(levels) for node in first_nodes(axes, level, MOST_LISTED)]
    return lines(*rows[:MOST_LISTED], f"end|too-many|{MOST_LISTED}")


def widest_cases():
    """Boxes of whole levels, which are cut, and the longest columns."""
    whole = ["0,0", "2147483647,2147483647"]
    names = ("the_whole_last_level_of_a_quadtree", "the_whole_last_level_by_subtrees_of_one_level",
             "the_whole_last_level_of_an_octree", "a_column_of_the_largest_files", "a_column_of_subtrees_of_one_level")
    if not any(map(is_chosen, names)):
        return
    cut = first_listed(2, 9)
    extreme(names[0], tileset_b(10, 32), ["tiles", "31", *whole], cut)
    extreme(names[1], tileset_b(1, 32), ["tiles", "31", *whole], cut)
    extreme(names[2], tileset_b(1, 21, "OCTREE"), ["tiles", "20", "0,0,0", "1048575,1048575,1048575"],
            first_listed(3, 7))
    extreme(names[3], {"tileset.json": tileset("QUADTREE", 10, 32, "all.subtree"), "all.subtree": full_subtree(2, 10)},
            ["tiles", "11", "0,0", "0,2047"], lines(*all_ones(2, 11, (0, 0), (0, 2047)), "end|complete|4095"))
    extreme(names[4], tileset_b(1, 32), ["tiles", "15", "0,0", "0,32767"],
            lines(*all_ones(2, 15, (0, 0), (0, 32767)), "end|complete|65535"))


def nodes_above(axes, local):
    return (2 ** (axes * local) - 1) // (2 ** axes - 1)


def full_subtree(axes, levels, bytes_of_contents=(), cleared=(), count=None, short=0):
    """A subtree file of bitstreams, none of them a constant: each tile and each child is there, but for the tiles of these places,
    and each content repeats one byte, and states no count. `short` bytes are cut off the view of the tiles."""
    places, children = nodes_above(axes, levels), 2 ** (axes * levels)
    tiles = bytearray(b"\xff" * ((places + 7) // 8))
    for place in cleared:
        tiles[place // 8] &= ~(1 << place % 8)
    parts = [bytes(tiles), bytes([0xFF]) * ((children + 7) // 8), *(bytes([byte]) * len(tiles) for byte in bytes_of_contents)]
    views, binary = [], b""
    for part in parts:
        views.append({"buffer": 0, "byteOffset": len(binary), "byteLength": len(part)})
        binary += part + b"\0" * (-len(part) % 8)
    views[0]["byteLength"] -= short
    record = {"buffers": [{"byteLength": len(binary)}], "bufferViews": views,
              "tileAvailability": {"bitstream": 0, "availableCount": places - len(cleared) if count is None else count},
              "childSubtreeAvailability": {"bitstream": 1, "availableCount": children},
              "contentAvailability": [{"bitstream": 2 + content} for content in range(len(bytes_of_contents))]}
    return pack(json.dumps(record), binary)


def largest_subtree_cases():
    """The largest subtrees of each scheme, with sixteen contents, all as bitstreams; and faults of their very last bits."""
    patterns = (0xFF, 0x55, 0xAA, 0x01, 0x80, 0x7E, 0x18, 0x00, 0x0F, 0xF0, 0x3C, 0xC3, 0x10, 0x02, 0xFE, 0x81)
    for scheme, axes, levels, low, high in (("QUADTREE", 2, 10, (300, 17), (420, 200)), ("QUADTREE", 2, 10, (500, 505), (511, 511)),
                                            ("OCTREE", 3, 7, (20, 20, 11), (50, 40, 32)), ("OCTREE", 3, 7, (60, 61, 62), (63, 63, 63))):
        name = f"the_largest_{scheme.lower()}_subtree_from_{'_'.join(map(str, low))}"
        if is_chosen(name):
            rows = []
            for row in all_ones(axes, levels - 1, low, high):
                tile = tuple(map(int, row.split("|")))
                place = nodes_above(axes, tile[0]) + make.interleaved(tile[1:])
                rows.append("|".join([row, *(f"c{c}/{tile[1]}" for c, byte in enumerate(patterns) if byte >> place % 8 & 1)]))
            files = {"tileset.json": tileset(scheme, levels, levels, NAME, contents=["c%d/{x}" % c for c in range(16)]),
                     "s/0/0/0.subtree": full_subtree(axes, levels, patterns)}
            words = ["tiles", str(levels - 1), ",".join(map(str, low)), ",".join(map(str, high))]
            extreme(name, files, words, lines(*rows, f"end|complete|{len(rows)}"))
    for scheme, axes, levels in (("QUADTREE", 2, 10), ("OCTREE", 3, 7)):
        last = nodes_above(axes, levels) - 1
        parent = nodes_above(axes, levels - 1) - 1
        for name, file, fault in (("whole", full_subtree(axes, levels, patterns), None),
                                  ("with_no_last_tile", full_subtree(axes, levels, [0] * 16, cleared=[last]), None),
                                  ("with_one_too_few_counted", full_subtree(axes, levels, count=last), 16),
                                  ("with_a_view_a_byte_short", full_subtree(axes, levels, short=1), 15),
                                  ("with_no_parent_of_the_last_tile", full_subtree(axes, levels, cleared=[parent]), 17),
                                  ("with_a_content_on_no_last_tile", full_subtree(axes, levels, [0] * 15 + [0xFF], cleared=[last]), 18)):
            files = {"tileset.json": tileset(scheme, levels, levels, NAME, contents=["c"] * 16), "s/0/0/0.subtree": file}
            rows = ["end|checked|1|0"] if fault is None else [f"fault|{fault}|0" + "|0" * axes, "end|checked|1|1"]
            extreme(f"check_of_the_largest_{scheme.lower()}_subtree_{name}", files, ["check"], lines(*rows), len(rows) - 1)


def with_children(scheme, depth, levels, missing=0, child=pack(ONES)):
    """A root whose children are all there but for so many at the end; they have one file between them, or none."""
    axes = 2 if scheme == "QUADTREE" else 3
    children = 2 ** (axes * depth)
    bits = (2 ** (children - missing) - 1).to_bytes((children + 7) // 8, "little")
    record = {"buffers": [{"byteLength": len(bits)}], "bufferViews": [{"buffer": 0, "byteOffset": 0, "byteLength": len(bits)}],
              "tileAvailability": {"constant": 1}, "childSubtreeAvailability": {"bitstream": 0, "availableCount": children - missing}}
    files = {"tileset.json": tileset(scheme, depth, levels, "{level}.subtree"), "0.subtree": pack(json.dumps(record), bits)}
    return files if child is None else {**files, f"{depth}.subtree": child}


def faults(axes, level, number, first):
    """The lines of faults of the first roots of a level."""
    return ["|".join(map(str, ("fault", number, level, *node))) for node in first_nodes(axes, level, first)]


def check_cases():
    """Checks of thousands of faults, of exactly as many files as are looked at, and of more."""
    extreme("check_of_4096_missing_files", with_children("QUADTREE", 6, 12, child=None), ["check"],
            lines(*faults(2, 6, 1, 4096), "end|checked|4097|4096"), 1)
    extreme("check_of_4096_missing_files_of_an_octree", with_children("OCTREE", 4, 21, child=None), ["check"],
            lines(*faults(3, 4, 1, 4096), "end|checked|4097|4096"), 1)
    for child, number in ((None, 1), (b"\0", 3), (pack("{}"), 11)):
        extreme(f"check_of_65535_faults_{number}", with_children("QUADTREE", 8, 32, missing=1, child=child), ["check"],
                lines(*faults(2, 8, number, 65535), "end|checked|65536|65535"), 1)
    extreme("check_of_more_faults_than_files_are_looked_at", with_children("QUADTREE", 9, 32, child=None), ["check"],
            lines(*faults(2, 9, 1, 65535), "end|too-many|65536|65535"), 1)
    pieces("pieces_of_a_check", with_children("QUADTREE", 8, 32, missing=1, child=None), ["check"],
           lines(*faults(2, 8, 1, 65535), "end|checked|65536|65535"), 1)
    pieces("pieces_of_a_check_of_an_octree", with_children("OCTREE", 4, 21, child=None), ["check"],
           lines(*faults(3, 4, 1, 4096), "end|checked|4097|4096"), 1)
    for name, files, wanted in (("exactly_65536_files", with_children("QUADTREE", 8, 16, missing=1), "end|checked|65536|0"),
                                ("65537_files", with_children("QUADTREE", 8, 16), "end|too-many|65536|0"),
                                ("262145_files", tileset_b(9, 18), "end|too-many|65536|0"),
                                ("1048577_files", tileset_b(10, 32), "end|too-many|65536|0"),
                                ("an_octree_of_2097153_files", tileset_b(7, 14, "OCTREE"), "end|too-many|65536|0"),
                                ("subtrees_of_one_level", tileset_b(1, 32), "end|too-many|65536|0"),
                                ("subtrees_of_three_levels", tileset_b(3, 32), "end|too-many|65536|0"),
                                ("octree_subtrees_of_one_level", tileset_b(1, 21, "OCTREE"), "end|too-many|65536|0"),
                                ("octree_subtrees_of_two_levels", tileset_b(2, 21, "OCTREE"), "end|too-many|65536|0")):
        extreme(f"check_of_{name}", files, ["check"], lines(wanted))


def cases():
    tileset_json_cases()
    subtree_json_cases()
    last_tile_cases()
    widest_cases()
    largest_subtree_cases()
    check_cases()
