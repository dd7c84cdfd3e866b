"""Runs each command of the built program with each of its allocations refused in turn: alone, and with all that come after it.
The program then says that there was no memory, and what it gave is a front of the text.

Usage: refused_memory.py PROGRAM [WORD]. With a word only the cases are run whose name has it. The allocations are those of the C
library, which a small library counts and refuses that `cc` builds in a folder of its own and that is loaded before the program.
It is no part of the gate: where the program asks for memory, no contract says."""
import os
import shutil
import subprocess
import sys
import tempfile

if not 2 <= len(sys.argv) <= 3:
    sys.exit(__doc__)

import harness
from harness import MESSAGES, PROGRAM, case, files_in, lines, report, write_files
from making import WORKED, WORKED_FILES
from replaying import SHARED
from tilesets import A_JSON, A_WHOLE, all_ones, pack, tileset, tileset_a, tileset_b, tileset_c, tileset_d, with_tile_bits

# FIRST and LAST are the numbers of the first and the last allocation that is refused, counted from 1, and COUNTED the file that
# gets the number of all that were asked for.
REFUSING = r"""
#include <errno.h>
#include <fcntl.h>
#include <stddef.h>
#include <stdio.h>
#include <stdlib.h>
#include <sys/syscall.h>
#include <unistd.h>

void *__libc_malloc(size_t);
void *__libc_calloc(size_t, size_t);
void *__libc_realloc(void *, size_t);
void *__libc_memalign(size_t, size_t);

static unsigned long asked, first, last;

__attribute__((constructor)) static void begin(void) {
    first = strtoul(getenv("FIRST"), NULL, 10);
    last = strtoul(getenv("LAST"), NULL, 10);
    asked = 0;
}

// Tells how many were asked for, and ends. The program calls this itself, so that no destructor runs.
__attribute__((noreturn)) void _exit(int status) {
    char text[32];
    int length = snprintf(text, sizeof text, "%lu", asked);
    int file = open(getenv("COUNTED"), O_WRONLY | O_CREAT | O_TRUNC, 0600);
    if (file < 0 || write(file, text, length) != length)
        status = 99;
    for (;;)
        syscall(SYS_exit_group, status);
}

static int is_refused(void) {
    asked++;
    if (asked < first || last < asked)
        return 0;
    errno = ENOMEM;
    return 1;
}

void *malloc(size_t size) { return is_refused() ? NULL : __libc_malloc(size); }
void *calloc(size_t count, size_t size) { return is_refused() ? NULL : __libc_calloc(count, size); }
void *realloc(void *old, size_t size) { return is_refused() ? NULL : __libc_realloc(old, size); }
void *memalign(size_t align, size_t size) { return is_refused() ? NULL : __libc_memalign(align, size); }
void *aligned_alloc(size_t align, size_t size) { return is_refused() ? NULL : __libc_memalign(align, size); }

int posix_memalign(void **place, size_t align, size_t size) {
    void *found = is_refused() ? NULL : __libc_memalign(align, size);
    if (!found)
        return ENOMEM;
    *place = found;
    return 0;
}
"""
NEVER = 2 ** 63
WORK = tempfile.mkdtemp(prefix="view_")
LIBRARY = os.path.join(WORK, "refusing.so")
COUNTED = os.path.join(WORK, "counted")


def build():
    source = os.path.join(WORK, "refusing.c")
    with open(source, "w", encoding="utf-8") as file:
        file.write(REFUSING)
    return subprocess.run(["cc", "-O1", "-fno-builtin", "-shared", "-fPIC", "-o", LIBRARY, source]).returncode


def refusing(words, folder, given, first, last):
    """Runs the program on this input with these allocations refused: its status, its line on standard error, its text, and how many
    it asked for."""
    if os.path.exists(COUNTED):
        os.remove(COUNTED)
    done = subprocess.run([PROGRAM] + words, cwd=folder, input=given, capture_output=True, timeout=60,
                          env={"LD_PRELOAD": LIBRARY, "FIRST": str(first), "LAST": str(last), "COUNTED": COUNTED})
    asked = 0
    if os.path.exists(COUNTED):
        with open(COUNTED, encoding="utf-8") as file:
            asked = int(file.read())
    return done.returncode, done.stderr.decode(), done.stdout.decode(), asked


def is_front(there, puts, found, text):
    """Whether the files that a refused run left are those that were there and the first of those that it puts, each of them whole;
    where a text was given, all of them."""
    fronts = [{**there, **dict(list(puts.items())[:count])} for count in range(len(puts) + 1)]
    return found in (fronts[-1:] if text else fronts)


@case
def refused(name, files, words, wanted, status=0, message=None, puts=None, given=b""):
    """Runs the program with none, and then with each of its allocations refused. `puts` are the files that it makes, in order, and
    `given` is its input."""
    problems, runs = [], 0
    folder = os.path.join(WORK, "in")

    def look(first, last, ended, line):
        """Refuses these allocations, and answers how many were asked for."""
        nonlocal runs
        runs += 1
        shutil.rmtree(folder, ignore_errors=True)
        os.mkdir(folder)
        write_files(folder, files)
        try:
            *found, text, asked = refusing(words, folder, given, first, last)
        except subprocess.TimeoutExpired:
            problems.append(f"{first} to {last} refused: no end")
            return 0
        is_text = wanted.startswith(text) if ended == 7 else text == wanted
        if found != [ended, line] or not is_text:
            problems.append(f"{first} to {last} refused: {found}, text {text[:100]!r} .. {text[-100:]!r}")
        if puts is not None and not is_front(files, puts, files_in(folder), text):
            problems.append(f"{first} to {last} refused: the files {sorted(files_in(folder))} are left")
        return asked
    whole = status, MESSAGES[status] if message is None else message
    count = look(NEVER, NEVER, *whole)
    for number in range(1, count + 1):
        look(number, number, 7, MESSAGES[7])
        look(number, NEVER, 7, MESSAGES[7])
    if count == 0 or look(count + 1, NEVER, *whole) != count:
        problems.append("no allocation was asked for, or not as many in each run")
    report(name, problems[:8] + ([f"and {len(problems) - 8} more"] if len(problems) > 8 else []))
    print(f"{name}: {count} allocations, {runs} runs")


def cases():
    one, box = ["tiles", "0", "0,0", "0,0"], ["tiles", "1", "0,0", "1,1"]
    whole = tileset_a()["s/0/0/0.subtree"]
    refused("five_tiles", tileset_a(), box, A_WHOLE)
    refused("a_bitstream", tileset_a(subtree=with_tile_bits(0x3F, 5)), box, A_WHOLE)
    refused("five_files", tileset_c(), box, lines(*all_ones(2, 1, (0, 0), (1, 1)), "end|complete|5"))
    refused("more_subtrees_than_frames", tileset_b(1, 4), ["tiles", "3", "0,0", "7,0"],
            lines(*all_ones(2, 3, (0, 0), (7, 0)), "end|complete|15"))
    octree = all_ones(3, 3, (0, 0, 0), (3, 0, 0))
    refused("an_octree", tileset_b(2, 4, "OCTREE"), ["tiles", "3", "0,0,0", "3,0,0"], lines(*octree, f"end|complete|{len(octree)}"))
    refused("two_pieces", tileset_b(9, 7), ["tiles", "6", "0,0", "63,63"],
            lines(*all_ones(2, 6, (0, 0), (63, 63)), "end|complete|5461"))
    refused("eight_contents", {"tileset.json": tileset("QUADTREE", 2, 2, "a%20b", contents=[f"{c}-{{x}}" for c in range(8)]),
                               "a b": pack(A_JSON.replace('[{"constant":1}]', "[" + ",".join(['{"constant":1}'] * 8) + "]"))},
            one, lines("0|0|0|" + "|".join(f"{c}-0" for c in range(8)), "end|complete|1"))
    refused("a_fault", tileset_c(s_1_0_1=b"\0\0\0"), box, lines("0|0|0", "1|0|0", "1|1|0", "end|fault|3|3|1|0|1"), 1)
    refused("a_missing_file", tileset_c(s_1_1_0=None), box, lines("0|0|0", "1|0|0", "end|fault|2|1|1|1|0"), 1)
    refused("children_of_an_absent_leaf", tileset_d(), ["tiles", "3", "0,0", "7,7"], lines("0|0|0", "1|0|0", "end|complete|2"))
    refused("a_subtree_file_without_json", tileset_a(subtree=whole[:24] + b"[" + whole[25:]), box, lines("end|fault|0|7|0|0|0"), 1)
    refused("a_refusal", tileset_a(), ["tiles", "1", "1,0", "0,0"], lines("refused|4"), 2)
    refused("no_command", tileset_a(), ["tilez", "1", "0,0", "1,1"], "", 2)
    refused("too_few_words", tileset_a(), ["tiles", "1", "0,0"], "", 2)
    refused("no_tileset", {}, box, "", 3, "view: layout fault 1\n")
    refused("no_json", {"tileset.json": b"{"}, box, "", 3, "view: layout fault 3\n")
    refused("no_scheme", {"tileset.json": tileset("quadtree", 2, 2, "s")}, box, "", 3, "view: layout fault 6\n")
    refused("a_folder_for_a_file", {"tileset.json": None}, box, "", 4)
    refused("check_of_five_files", tileset_c(s_1_0_1=b"\0\0\0"), ["check"], lines("fault|3|1|0|1", "end|checked|5|1"), 1)
    refused("check_of_many_files", tileset_b(2, 4), ["check"], lines("end|checked|17|0"))
    refused("make_of_four_files", {}, ["make", *WORKED], lines("made|4|4"), puts=WORKED_FILES)
    refused("make_beside_another_file", {"other": b"stays"}, ["make", "--", *WORKED], lines("made|4|4"), puts=WORKED_FILES)
    refused("no_recipe", {}, ["make", *WORKED[:5]], "", 2, puts={})
    script = "".join(row[0] + "\n" for row in SHARED).encode()
    refused("replay_of_two_passes", tileset_b(2, 3), ["replay", "1", "2"], lines(*(line for row in SHARED for line in row[1:])),
            given=script)
    boxes = b"2 0,0 3,3\n1 0,0 1,1\nx\n2 0,0 3,3\n2 1,1 1,1\n"
    rows = [*all_ones(2, 2, (0, 0), (3, 3)), "end|complete|21"]
    refused("batch_of_a_worker", tileset_b(2, 3), ["batch", "1", "1"],
            lines(*rows, *all_ones(2, 1, (0, 0), (1, 1)), "end|complete|5", "refused|1", *rows, *all_ones(2, 2, (1, 1), (1, 1)),
                  "end|complete|3"), given=boxes)
    refused("batch_of_a_faulty_tileset", tileset_c(s_1_0_1=b"\0\0\0"), ["batch", "1", "4"],
            lines("0|0|0", "1|0|0", "1|1|0", "end|fault|3|3|1|0|1"), given=b"1 0,0 1,1\n")
    refused("survey_of_four_files", {}, ["survey", *WORKED], lines("survey|4|4|4|4|complete"), puts={})


try:
    if build() != 0:
        sys.exit("cc built no library that refuses memory")
    cases()
finally:
    shutil.rmtree(WORK)
passed, failed = harness.counts["passed"], harness.counts["failed"]
print(f"refused memory: {passed} passed, {failed} failed")
sys.exit(1 if failed or not passed else 0)
