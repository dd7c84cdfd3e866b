"""Cases at the program's edges: that standard output gets all that is written before the program ends, and which files of a real
folder a name stands for."""
import os
import resource
import shutil
import subprocess
import tempfile

from harness import MESSAGES, PROGRAM, case, lines, report, under, write_files
from making import WORKED
from tilesets import A_ROOT, A_WHOLE, NAME, all_ones, tileset, tileset_a, tileset_b, tileset_c

A_FILE = tileset_a()["s/0/0/0.subtree"]


@case
def held_back(name, files, words, text, status=0, given=b""):
    """Gives the text to a file, behind what is there, to a pipe that is read when the program has ended or as it goes, to a file
    that takes half of it, and to a device that takes nothing. The bytes that are given are its standard input."""
    folder = tempfile.mkdtemp(prefix="view ")
    problems = []
    wanted = text.encode()
    input_path = os.path.join(folder, "given")

    def end_of(stdout, limits=None):
        with open(input_path, "rb") as taken:
            done = subprocess.run([PROGRAM] + words, cwd=os.path.join(folder, "in"), stdin=taken, stdout=stdout,
                                  stderr=subprocess.PIPE, timeout=120, preexec_fn=under(limits))
        return done.returncode, done.stderr.decode()

    def look(where, ended, found, wanted, status):
        if ended != (status, MESSAGES[status]):
            problems.append(f"{where}: status and line {ended}, not {(status, MESSAGES[status])}")
        if found != wanted:
            problems.append(f"{where}: {len(found)} bytes, not the {len(wanted)} that are wanted")
    try:
        os.mkdir(os.path.join(folder, "in"))
        write_files(os.path.join(folder, "in"), files)
        write_files(folder, {"given": given})
        path = os.path.join(folder, "out")
        for where, front in (("a file", b""), ("the end of a file", b"before\n")):
            with open(path, "wb") as out:
                out.write(front)
            with open(path, "ab") as out:
                ended = end_of(out)
            with open(path, "rb") as out:
                look(where, ended, out.read(), front + wanted, status)
        reader, writer = os.pipe()
        with open(reader, "rb") as ours, open(writer, "wb") as theirs, open(input_path, "rb") as taken:
            program = subprocess.Popen([PROGRAM] + words, cwd=os.path.join(folder, "in"), stdin=taken, stdout=theirs,
                                       stderr=subprocess.PIPE)
            theirs.close()
            if len(wanted) <= 65536:
                program.wait(120)
            found = ours.read()
            look("a pipe", (program.wait(120), program.stderr.read().decode()), found, wanted, status)
            program.stderr.close()
        # the files of `make` would have no more room than the text
        half = len(wanted) // 2
        if words[0] != "make":
            with open(path, "wb") as out:
                ended = end_of(out, {resource.RLIMIT_FSIZE: half})
            with open(path, "rb") as out:
                look("a file that takes half", ended, out.read(), wanted[:half], 5)
        with open("/dev/full", "wb") as full:
            look("a full device", end_of(full), b"", b"", 5)
        report(name, problems)
    finally:
        shutil.rmtree(folder)


def output_cases():
    held_back("nothing_of_a_short_answer_is_held_back", tileset_a(), ["tiles", "1", "0,0", "1,1"], A_WHOLE)
    held_back("nothing_of_a_long_answer_is_held_back", tileset_b(9, 18), ["tiles", "16", "0,0", "0,32767"],
              lines(*all_ones(2, 16, (0, 0), (0, 32767)), "end|complete|65536"))
    # 5,461 tiles: two pieces, of which the pipe has room for both
    held_back("nothing_of_two_pieces_is_held_back", tileset_b(9, 7), ["tiles", "6", "0,0", "63,63"],
              lines(*all_ones(2, 6, (0, 0), (63, 63)), "end|complete|5461"))
    held_back("nothing_of_a_fault_is_held_back", tileset_c(s_1_0_1=b"\0\0\0"), ["tiles", "1", "0,0", "1,1"],
              lines("0|0|0", "1|0|0", "1|1|0", "end|fault|3|3|1|0|1"), 1)
    held_back("nothing_of_a_refusal_is_held_back", tileset_a(), ["tiles", "1", "1,0", "0,0"], lines("refused|4"), 2)
    held_back("nothing_of_a_check_is_held_back", tileset_c(s_1_0_1=b"\0\0\0"), ["check"], lines("fault|3|1|0|1", "end|checked|5|1"), 1)
    held_back("nothing_of_a_survey_is_held_back", {}, ["survey", *WORKED], lines("survey|4|4|4|4|complete"))
    held_back("nothing_of_a_make_is_held_back", {}, ["make", "quadtree", "1", "1", "0", "1", "0"], lines("made|2|1"))


@case
def in_folder(name, files, words, wanted, status=0, closed=(), user=None, given=b""):
    """Runs the program in the folder `in` of these files, of which the closed ones may not be read; as this user, if one is given.
    The bytes that are given are its standard input."""
    folder = tempfile.mkdtemp(prefix="view ")
    try:
        write_files(folder, files)
        program = PROGRAM
        if user is not None:
            # it may have no way to where the program stands
            program = os.path.join(folder, "view")
            shutil.copy(PROGRAM, program)
            os.chmod(folder, 0o755)
            os.chmod(program, 0o755)
        for path in closed:
            os.chmod(os.path.join(folder, path), 0)
        done = subprocess.run([program] + words, cwd=os.path.join(folder, "in"), input=given, capture_output=True, timeout=120,
                              **({} if user is None else {"user": user, "group": user, "extra_groups": []}))
        found = done.returncode, done.stdout.decode(), done.stderr.decode()
        report(name, [] if found == (status, wanted, MESSAGES[status]) else [f"{found}, not {(status, wanted)}"])
    finally:
        for path in closed:
            os.chmod(os.path.join(folder, path), 0o755)
        shutil.rmtree(folder)


def by_template(template, files):
    """A folder `in` whose root's subtree file stands where the template says."""
    return {"in/tileset.json": tileset("QUADTREE", 2, 2, template, content="c/{level}/{x}/{y}.glb"), **files}


def name_cases():
    """A name is decoded once, and is no file where it leaves the folder; what the template's file isn't, is there beside it."""
    root, missing = ["tiles", "0", "0,0", "0,0"], lines("end|fault|0|1|0|0|0")
    outside = {"x": A_FILE, "in/x.txt": b"", "in/a/x.txt": b""}
    for name, template, there in (("decoded_once", "%252e%252e/x", "in/%2e%2e/x"),
                                  ("decoded_once_to_a_sign", "a%252Fb", "in/a%2Fb"),
                                  ("of_two_points_in_a_longer_part", "..x/y../z..z", "in/..x/y../z..z"),
                                  ("of_three_points", ".../x", "in/.../x"), ("of_this_folder", "./x", "in/x"),
                                  ("with_a_part_twice_divided", "a//x", "in/a/x"), ("of_escapes_alone", "%73%2f%78", "in/s/x")):
        in_folder(f"a_name_{name}", by_template(template, {**outside, there: A_FILE}), root, A_ROOT)
        in_folder(f"a_name_{name}_where_no_file_is", by_template(template, outside), root, missing, 1)
    for name, template in (("up", "../x"), ("up_by_escapes", "%2e%2e/x"), ("up_by_one_escape", "%2E./x"),
                           ("up_by_an_escaped_line", "..%2Fx"), ("up_from_below", "a/../../x"), ("up_and_back", "../in/s/x"),
                           ("up_and_down_again", "a/../s/x"), ("up_at_its_end", "s/.."), ("of_an_empty_name", ""),
                           ("of_bytes_that_are_no_text", "%FF"), ("of_a_zero", "s%00")):
        in_folder(f"no_way_{name}", by_template(template, {**outside, "in/s/x": A_FILE, "in/s/s": A_FILE}), root, missing, 1)
    folder = tempfile.mkdtemp(prefix="view")
    try:
        write_files(folder, {"x": A_FILE})
        for name, front in (("from_the_top", "/"), ("from_the_top_by_an_escape", "%2f"), ("from_the_top_twice", "//")):
            in_folder(f"no_way_{name}", by_template(front + os.path.join(folder, "x")[1:], outside), root, missing, 1)
    finally:
        shutil.rmtree(folder)


def refusing_cases():
    """What the system refuses to read is a read fault, and never a missing file."""
    root, file = ["tiles", "0", "0,0", "0,0"], "in/s/0/0/0.subtree"
    batch, line = ["batch", "4", "64"], b"0 0,0 0,0\n"
    whole = {f"in/{name}": data for name, data in tileset_a().items()}
    long = "a" * 256
    for name, template, files in (("a_folder_in_a_file_s_place", NAME, {file + "/x": b""}),
                                  ("a_file_in_a_folder_s_place", NAME, {"in/s/0": b""}),
                                  ("a_name_that_is_too_long", long, {}), ("a_part_that_is_too_long", f"a/{long}/x", {"in/a/x": b""})):
        for words in (root, ["check"]):
            in_folder(f"{words[0]}_over_{name}", by_template(template, files), words, "", 4)
        in_folder(f"batch_over_{name}", by_template(template, files), batch, lines("read-fault"), given=line)
    # who may read everything reads it, so this is tried as another user
    user = 65534 if os.geteuid() == 0 else None
    ways = {"a_file": (file,), "a_folder": ("in/s/0",), "tileset_json": ("in/tileset.json",)}
    if user is not None and not may_be(user):
        print("black box: files that may not be read are not tried, since this is root and can be no other user")
        return
    for name, closed in ways.items():
        for words in (root, ["check"]):
            in_folder(f"{words[0]}_over_{name}_that_may_not_be_read", whole, words, "", 4, closed, user)
        told = ("", 4) if name == "tileset_json" else (lines("read-fault"), 0)
        in_folder(f"batch_over_{name}_that_may_not_be_read", whole, batch, *told, closed, user, line)
    in_folder("tiles_over_files_that_may_be_read", whole, root, A_ROOT, 0, (), user)
    if user is not None:
        in_folder("make_in_a_folder_of_another_user", {"in/x": b""}, ["make", *WORKED], "", 5, (), user)


def may_be(user):
    """Whether a program can be started as this user."""
    try:
        return subprocess.run(["true"], user=user, group=user, extra_groups=[], timeout=120).returncode == 0
    except OSError:
        return False


def cases():
    output_cases()
    name_cases()
    refusing_cases()
