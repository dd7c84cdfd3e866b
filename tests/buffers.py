"""Cases of subtree files in the JSON form, of buffers in files of their own, and of files that lie about themselves."""
import json

from harness import lines, run
from tilesets import A_JSON, A_WHOLE, D_BYTES, D_RECORD, NAME, pack, tileset, tileset_a, tileset_d

ASKED = ["tiles", "3", "0,0", "7,7"]
ANSWER = lines("0|0|0", "1|0|0", "end|complete|2")
SUBTREE, BUFFER = "s/0/0/0.subtree", "s/0/0/0.bin"
MOST_BYTES = 16_777_216


def faulty(number, root="0|0|0", count=0):
    return lines(f"end|fault|{count}|{number}|{root}")


def changed(change=None, **members):
    """The record of D with these members, and with what the change makes of it."""
    record = json.loads(json.dumps(D_RECORD))
    record.update(members)
    if change:
        change(record)
    return record


def with_uri(*uris, lengths=None):
    """The record of D whose buffers have these names."""
    lengths = lengths or [len(D_BYTES)] * len(uris)
    return changed(buffers=[{"byteLength": length, "uri": uri} for length, uri in zip(lengths, uris)])


def json_form(record, beside=None, front=""):
    """D with its subtree file in the JSON form, and these files beside it."""
    files = {"tileset.json": tileset("QUADTREE", 2, 4, NAME), SUBTREE: (front + json.dumps(record)).encode()}
    files.update(beside or {})
    return files


def form_cases():
    own = {BUFFER: D_BYTES}
    named = with_uri("0.bin")
    run("a_subtree_in_the_json_form", json_form(named, own), ASKED, ANSWER)
    run("the_json_form_behind_blanks", json_form(named, own, " \t\r\n"), ASKED, ANSWER)
    run("the_json_form_behind_a_byte_order_mark", json_form(named, own, "\ufeff"), ASKED, faulty(4), 1)
    run("the_json_form_of_constants", json_form(json.loads('{"tileAvailability":{"constant":1},"childSubtreeAvailability":{"constant":0}}')),
        ["tiles", "1", "0,0", "1,1"], lines("0|0|0", "1|0|0", "1|1|0", "1|0|1", "1|1|1", "end|complete|5"))
    run("the_json_form_without_its_buffer", json_form(named), ASKED, faulty(19), 1)
    run("the_json_form_with_a_cut_buffer", json_form(named, {BUFFER: D_BYTES[:9]}), ASKED, faulty(14), 1)
    run("the_json_form_of_a_buffer_without_a_name", json_form(D_RECORD, own), ASKED, faulty(13), 1)
    binary = {**tileset_d(), SUBTREE: pack(json.dumps(named))}
    run("a_binary_file_with_an_outer_buffer", {**binary, **own}, ASKED, ANSWER)
    run("a_binary_file_without_its_outer_buffer", binary, ASKED, faulty(19), 1)
    run("a_longer_buffer_than_is_stated", json_form(named, {BUFFER: D_BYTES + b"\7"}), ASKED, ANSWER)
    # both forms, told by the first byte and not by the name
    run("the_binary_form_under_a_json_name", {"tileset.json": tileset("QUADTREE", 2, 4, "s.json"), "s.json": pack(json.dumps(D_RECORD), D_BYTES)},
        ASKED, ANSWER)
    run("check_of_an_outer_buffer", json_form(named, own), ["check"], lines("end|checked|1|0"))
    run("check_without_the_outer_buffer", json_form(named), ["check"], lines("fault|19|0|0|0", "end|checked|1|1"), 1)


def name_cases():
    """The name of a buffer's file stands beside the subtree's file, and leaves no folder."""
    for name, uri, there in (("a_data_uri_is_a_file_name", "data:,x", "s/0/0/data:,x"),
                             ("a_buffer_in_a_folder_below", "b/0.bin", "s/0/0/b/0.bin"),
                             ("a_buffer_name_is_decoded_once", "%2530.bin", "s/0/0/%30.bin")):
        run(name, json_form(with_uri(uri), {there: D_BYTES}), ASKED, ANSWER)
    for name, uri in (("a_buffer_outside_the_folder", "../../../x"), ("a_buffer_above_its_subtree", "../x"),
                      ("a_buffer_above_its_subtree_written_otherwise", "%2e%2e/x")):
        run(name, json_form(with_uri(uri), {"x": D_BYTES, "s/0/x": D_BYTES}), ASKED, faulty(19), 1)
    # beside a subtree file that stands in no folder the name is the `uri` alone
    for name, uri in (("a_buffer_by_an_absolute_path", "/x"), ("a_buffer_by_points_that_are_written_otherwise", "%2e%2e/x"),
                      ("a_buffer_name_with_a_zero_byte", "a%00b"), ("a_buffer_name_that_is_no_text", "%FF"), ("an_empty_buffer_name", "")):
        files = {"tileset.json": tileset("QUADTREE", 2, 4, "d.subtree"), "d.subtree": json.dumps(with_uri(uri)).encode(), "x": D_BYTES}
        run(name, files, ASKED, faulty(19), 1)


def several_cases():
    """Two views in two buffers, and the bytes that they have together."""
    def two(first, second, views=(0, 1), lengths=None):
        record = with_uri(first, second, lengths=lengths)
        for view, buffer in zip(record["bufferViews"], views):
            view["buffer"] = buffer
        return record

    both = {"s/0/0/0.bin": D_BYTES, "s/0/0/1.bin": D_BYTES}
    run("two_outer_buffers", json_form(two("0.bin", "1.bin"), both), ASKED, ANSWER)
    run("two_outer_buffers_of_one_file", json_form(two("0.bin", "0.bin"), {BUFFER: D_BYTES}), ASKED, ANSWER)
    run("the_second_of_two_outer_buffers_is_missing", json_form(two("0.bin", "1.bin"), {BUFFER: D_BYTES}), ASKED, faulty(19), 1)
    run("an_outer_buffer_that_nothing_uses", json_form(two("0.bin", "1.bin", (0, 0)), {BUFFER: D_BYTES}), ASKED, ANSWER)
    half = MOST_BYTES // 2
    most = {"s/0/0/0.bin": D_BYTES.ljust(half, b"\0"), "s/0/0/1.bin": D_BYTES.ljust(half, b"\0")}
    run("outer_buffers_of_the_most_bytes", json_form(two("0.bin", "1.bin"), most), ASKED, ANSWER)
    run("outer_buffers_of_one_byte_more", json_form(two("0.bin", "1.bin"), {**most, "s/0/0/1.bin": D_BYTES.ljust(half + 1, b"\0")}),
        ASKED, faulty(20), 1)
    run("one_outer_buffer_of_the_most_bytes", json_form(with_uri("0.bin"), {BUFFER: D_BYTES.ljust(MOST_BYTES, b"\0")}), ASKED, ANSWER)
    run("one_outer_buffer_of_one_byte_more", json_form(with_uri("0.bin"), {BUFFER: D_BYTES.ljust(MOST_BYTES + 1, b"\0")}), ASKED, faulty(20), 1)
    # a missing file is told before one that is too long, and that before a view that is out
    run("a_missing_buffer_before_a_long_one", json_form(two("0.bin", "1.bin"), {BUFFER: D_BYTES.ljust(MOST_BYTES + 1, b"\0")}), ASKED, faulty(19), 1)
    run("a_missing_buffer_before_a_view_that_is_out", json_form(two("0.bin", "1.bin", lengths=[1, 10])), ASKED, faulty(19), 1)


def lying_cases():
    """One thing of D that isn't as it should be, in each form that has it."""
    def view(number, member, value):
        return lambda record: record["bufferViews"][number].update({member: value})

    def buffer(member, value):
        return lambda record: record["buffers"][0].update({member: value})

    def added(record):
        record["buffers"].append({"byteLength": 10})
        record["bufferViews"][1]["buffer"] = 1

    tiles = {"tileAvailability": {"bitstream": 0}}
    for name, record, fault in (
            ("buffers_that_are_an_object", changed(buffers={}), 9),
            ("a_view_without_a_length", changed(lambda r: r["bufferViews"][0].pop("byteLength")), 10),
            ("a_constant_of_two", changed(tileAvailability={"constant": 2}), 11),
            ("a_constant_with_a_point", changed(tileAvailability={"constant": 1.0}), 11),
            ("a_constant_beside_a_bitstream", changed(tileAvailability={"constant": 1, "bitstream": 0}), 11),
            ("a_count_below_zero", changed(tileAvailability={"bitstream": 0, "availableCount": -1}), 11),
            ("the_last_view_there_can_be", changed(tileAvailability={"bitstream": 2 ** 64 - 1}), 12),
            ("a_second_inner_buffer", changed(added), None),
            ("a_view_at_the_last_offset", changed(view(0, "byteOffset", 2 ** 64 - 1)), 14),
            ("a_buffer_of_one_byte_too_many", changed(buffer("byteLength", 17)), 14),
            ("a_buffer_with_its_padding", changed(buffer("byteLength", 16)), None),
            ("the_greatest_count", changed(tileAvailability={"bitstream": 0, "availableCount": 2 ** 64 - 1}), 16)):
        wanted = (ANSWER, 0) if fault is None else (faulty(fault), 1)
        run("of_a_lying_file_" + name, {**tileset_d(), SUBTREE: pack(json.dumps(record), D_BYTES)}, ASKED, *wanted)
        # in a file of its own the buffer has ten bytes and no padding
        outer = json.loads(json.dumps(record))
        if isinstance(outer["buffers"], list):
            for one in outer["buffers"]:
                one["uri"] = "0.bin"
        wanted = (faulty(14), 1) if name == "a_buffer_with_its_padding" else wanted
        run("of_a_lying_file_in_the_json_form_" + name, json_form(outer, {BUFFER: D_BYTES}), ASKED, *wanted)
    whole = tileset_d()[SUBTREE]
    for name, data, fault in (("of_the_greatest_lengths", whole[:8] + b"\xff" * 16 + whole[24:], 6),
                              ("of_no_lengths", whole[:8] + b"\0" * 16 + whole[24:], 7),
                              ("with_a_byte_that_is_no_text", pack(b"{\xff}", D_BYTES), 7),
                              ("of_nested_arrays", pack("[" * 200 + "]" * 200, D_BYTES), 7),
                              ("of_an_array", pack("[]", D_BYTES), 8)):
        run("of_a_lying_file_" + name, {**tileset_d(), SUBTREE: data}, ASKED, faulty(fault), 1)
    run("of_a_file_with_one_byte_more", {**tileset_d(), SUBTREE: whole + b"\7"}, ASKED, ANSWER)
    run("of_the_json_form_with_a_byte_that_is_no_text", {**json_form(tiles), SUBTREE: b"{\xff}"}, ASKED, faulty(7), 1)
    run("of_the_json_form_with_one_byte_more", {**json_form(tiles), SUBTREE: json.dumps(with_uri("0.bin")).encode() + b"\7", BUFFER: D_BYTES},
        ASKED, faulty(7), 1)


def cut_cases():
    """A subtree file that ends at each of its bytes."""
    whole = pack(A_JSON)
    for size in range(len(whole) + 1):
        fault = 3 if size < 24 else 6
        wanted = (A_WHOLE, 0) if size == len(whole) else (faulty(fault), 1)
        run(f"a_file_cut_at_{size}", tileset_a(subtree=whole[:size]), ["tiles", "1", "0,0", "1,1"], *wanted)
    text = json.dumps(with_uri("0.bin")).encode()
    for size in range(len(text) + 1):
        fault = 3 if size == 0 else 7
        wanted = (ANSWER, 0) if size == len(text) else (faulty(fault), 1)
        run(f"the_json_form_cut_at_{size}", {**json_form(D_RECORD, {BUFFER: D_BYTES}), SUBTREE: text[:size]}, ASKED, *wanted)


def cases():
    form_cases()
    name_cases()
    several_cases()
    lying_cases()
    cut_cases()
