"""Cases of `replay`: worked scripts, lines of all kinds, limits of the input, devices that fail, and scripts at random, whose
replies are computed from the set of a tileset's tiles by the rules of the script alone."""
import os
import random

from harness import feed, lines, shell
from tilesets import made_files, make, tileset_a, tileset_b
from walking import random_box, random_scene

MOST_INPUT = 1048576

SHARED = (("attach 0 2 0,0 3,3", "cursor|0"), ("attach 1 1 0,0 1,1", "cursor|1"), ("claim 0", "claimed"), ("claim 1", "claimed"),
          ("pin 0", "granted|0"), ("pin 1", "loading"), ("load 0", "loaded|0"), ("page 0 9", "page|0|0|partial"),
          ("commit 0", "moved|1"), ("claim 0", "claimed"), ("pin 0", "hit|0"), ("commit 0", "moved|5"), ("claim 0", "claimed"),
          ("pin 0", "granted|0"), ("pin 1", "busy"), ("fail 0", "failed"), ("pin 1", "granted|0"), ("load 1", "loaded|0"),
          ("commit 1", "moved|1"), ("drop 0", "dropped"), ("page 0 2", "page|0|2|partial", "0|0|0", "1|0|0"),
          ("page 0 9", "page|2|3|partial", "1|1|0", "1|0|1", "1|1|1"))

FAULTY = (("attach 0 9 0,0 0,0", "refused|3"), ("attach 0 0 0,0 0,0", "cursor|0"), ("claim 5", "no"), ("claim 0", "claimed"),
          ("pin 0", "granted|0"), ("load 0", "loaded|0"), ("commit 0", "moved|0"), ("claim 0", "end"),
          ("page 0 1", "page|0|0|fault"), ("jump", "bad"))

BAD = ("", " ", "jump", "claim", "claim ", "claim  0", " claim 0", "claim 0 ", "claim 0 1", "claim\t0", "Claim 0", "claim 00",
       "claim +1", "claim -1", "claim 4294967296", "attach", "attach 0", "attach 01 1 0,0 1,1", "attach 4294967296 1 0,0 1,1",
       "page 0", "page 0 ", "page 0 01", "page 0 1 2", "page 0 65537", "page 0 4294967296", "load 0 x", "claim 0\r")


def replay(name, files, words, script, wanted, status=0, **others):
    """Runs `replay` over these files, on this script."""
    feed(name, files, ["replay"] + words, script, wanted, status, **others)


def worked_cases():
    for name, files, words, rows in (("replay_of_two_passes_over_a_frame", tileset_b(2, 3), ["1", "2"], SHARED),
                                     ("replay_of_a_faulty_file", tileset_a(subtree=b"\0\0\0"), ["1", "1"], FAULTY)):
        replay(name, files, words, "".join(row[0] + "\n" for row in rows).encode(), lines(*(line for row in rows for line in row[1:])))
    replay("replay_of_a_folder_for_a_file", {**tileset_a(), "s/0/0/0.subtree": None}, ["1", "1"],
           b"attach 0 0 0,0 0,0\nclaim 0\npin 0\nload 0\npin 0\n", lines("cursor|0", "claimed", "granted|0", "failed", "granted|0"))


def line_cases():
    replay("replay_of_bad_lines", tileset_a(), ["1", "1"], "".join(line + "\n" for line in BAD).replace("\r", "\r\r").encode(),
           lines(*["bad"] * len(BAD)))
    replay("replay_of_bytes_that_are_no_text", tileset_a(), ["1", "1"], b"claim \xff\nattach 0 \xff\0\n\0\n", lines("bad", "refused|1", "bad"))
    replay("replay_of_the_largest_numbers", tileset_a(), ["1", "1"],
           b"claim 4294967295\nclaim 4294967296\npage 4294967295 65536\npage 0 65537\nattach 4294967295 x\n",
           lines("no", "bad", "no", "bad", "no"))
    replay("replay_of_cr_lf_ends", tileset_a(), ["1", "1"], b"claim 0\r\nclaim 0\r\n\r\n", lines("no", "no", "bad"))
    replay("replay_of_a_last_line_without_an_end", tileset_a(), ["1", "1"], b"claim 0\nclaim 1", lines("no", "no"))
    replay("replay_of_no_line", tileset_a(), ["1", "1"], b"", "")


def limit_cases():
    line = b"claim 0\n"
    whole = line * (MOST_INPUT // len(line))
    replay("replay_of_the_longest_input", tileset_a(), ["1", "1"], whole, lines("no") * (MOST_INPUT // len(line)))
    replay("replay_of_one_byte_too_many", tileset_a(), ["1", "1"], whole + b"c", "", 8)
    for words in ([], ["1"], ["1", "1", "1"], ["0", "1"], ["1", "01"], ["1025", "1"], ["1", "0"], ["1", "65"], ["1", "-1"]):
        replay("replay_of_the_words_" + "_".join(words or ["none"]), tileset_a(), words, b"claim 0\n", "", 2)
    replay("replay_without_a_tileset", {}, ["1", "1"], b"claim 0\n", "", 3, message="view: layout fault 1\n")


def device_cases():
    folder = os.open("/", os.O_RDONLY)
    replay("replay_of_a_folder_as_input", tileset_a(), ["1", "1"], None, "", 6, stdin=folder)
    os.close(folder)
    with open("/dev/full", "wb") as full:
        replay("replay_to_a_full_device", tileset_a(), ["1", "1"], b"claim 0\n", "", 5, stdout=full)
    replay("replay_of_a_folder_named_tileset_json", {"tileset.json": None}, ["1", "1"], b"claim 0\n", "", 4)
    shell("replay_leaves_nothing_of_its_input", tileset_a(), 'yes "claim 0" | head -n 1000 | { "$VIEW" replay 1 1 | wc -l; wc -c; }',
          "1000\n0\n", "the replies, and what is left of the input")


class Cursor:
    """A walk over a whole tileset: for each step its root and its tiles."""
    def __init__(self, scene, level, low, high):
        depth = scene["subtree"]

        def is_in(tile):
            return tile in scene["tiles"] and all(a >> level - tile[0] <= c <= b >> level - tile[0]
                                                  for a, c, b in zip(low, tile[1:], high))
        there = sorted((t for t in scene["tiles"] if t[0] <= level and is_in(t)), key=lambda t: (t[0], make.interleaved(t[1:])))
        self.steps = []
        for step_level in range(level + 1):
            top = step_level - step_level % depth
            for root in (t for t in there if t[0] == top):
                of_root = [t for t in there if t[0] == step_level and tuple(c >> step_level - top for c in t[1:]) == root[1:]]
                self.steps.append((root, of_root))
        self.made, self.holder = 0, None

    def shown(self):
        return [tile for _, tiles in self.steps[:self.made] for tile in tiles]

    def has_ended(self):
        return self.made == len(self.steps)


class Machine:
    """The frames, cursors and passes of a script, by its rules. A frame is [root, whether it is loading, pins] or None."""
    def __init__(self, scene, frames, passes):
        self.scene, self.frames, self.order = scene, [None] * frames, list(range(frames))
        self.cursors, self.passes = {}, [{"cursor": None, "place": 0, "frame": None} for _ in range(passes)]

    def ask(self, root):
        found = next((f for f, frame in enumerate(self.frames) if frame and frame[0] == root), None)
        if found is not None and self.frames[found][1]:
            return "loading", None
        answer = "hit"
        if found is None:
            free = [f for f, frame in enumerate(self.frames) if frame is None]
            unused = [f for f in reversed(self.order) if self.frames[f] and not self.frames[f][1] and not self.frames[f][2]]
            if not free + unused:
                return "busy", None
            answer, found = "granted", (free + unused)[0]
            self.frames[found] = [root, True, 0]
        else:
            self.frames[found][2] += 1
        self.order = [found] + [f for f in self.order if f != found]
        return answer, found

    def reply(self, name, number, *rest):
        if number >= len(self.passes):
            return ["no"]
        own = self.passes[number]
        cursor, frame = own["cursor"], own["frame"]
        holds = cursor is not None and cursor.holder == number
        if name == "attach":
            if holds:
                return ["no"]
            level, low, high = rest
            if level >= self.scene["levels"]:
                return ["refused|3"]
            at = self.cursors.setdefault(rest, (len(self.cursors), Cursor(self.scene, level, low, high)))
            own.update(cursor=at[1], place=0)
            return [f"cursor|{at[0]}"]
        if name == "claim":
            if cursor is None or holds:
                return ["no"]
            if cursor.has_ended():
                return ["end"]
            if cursor.holder is not None:
                return ["out"]
            cursor.holder = number
            return ["claimed"]
        if name == "pin":
            if not holds or frame is not None:
                return ["no"]
            answer, found = self.ask(cursor.steps[cursor.made][0])
            own["frame"] = found
            return [answer if found is None else f"{answer}|{found}"]
        if name in ("load", "fail"):
            if frame is None or not self.frames[frame][1]:
                return ["no"]
            if name == "fail":
                self.frames[frame], own["frame"] = None, None
                return ["failed"]
            self.frames[frame][1:] = [False, 1]
            return [f"loaded|{frame}"]
        if name == "commit":
            if not holds or frame is None or self.frames[frame][1]:
                return ["no"]
            self.frames[frame][2] -= 1
            own["frame"], cursor.holder = None, None
            cursor.made += 1
            return [f"moved|{len(cursor.shown())}"]
        if name == "drop":
            if not holds:
                return ["no"]
            if frame is not None and self.frames[frame][1]:
                self.frames[frame] = None
            elif frame is not None:
                self.frames[frame][2] -= 1
            own["frame"], cursor.holder = None, None
            return ["dropped"]
        if cursor is None:
            return ["no"]
        tiles = cursor.shown()[own["place"]:][:rest[0]]
        head = f"page|{own['place']}|{len(tiles)}|{'complete' if cursor.has_ended() else 'partial'}"
        own["place"] += len(tiles)
        contents = [[make.filled(uri, t) for c, uri in enumerate(self.scene["contents"]) if self.scene["has"](t, c)] for t in tiles]
        return [head] + ["|".join([*map(str, tile), *uris]) for tile, uris in zip(tiles, contents)]


    def fitting(self, number):
        """What a pass may well do next."""
        own = self.passes[number]
        if own["cursor"] is None:
            return ["attach"]
        if own["cursor"].holder != number:
            return ["claim"] * 3 + ["page"] + ["attach"] * own["cursor"].has_ended()
        if own["frame"] is None:
            return ["pin"]
        return ["load"] * 5 + ["fail"] if self.frames[own["frame"]][1] else ["commit"] * 5 + ["drop"]


NAMES = ("attach", "claim", "pin", "load", "fail", "commit", "drop", "page")


def random_event(chosen, machine, boxes):
    """A line at random, and its event. Most are such that their passes can do them."""
    number = chosen.randrange(len(machine.passes))
    name = chosen.choice(machine.fitting(number))
    if chosen.random() < 0.1:
        name, number = chosen.choice(NAMES), chosen.randrange(len(machine.passes) + 1)
    if name == "attach":
        level, low, high = chosen.choice(boxes)
        return f"attach {number} {level} {','.join(map(str, low))} {','.join(map(str, high))}\n", (name, number, level, low, high)
    if name == "page":
        most = chosen.choice((0, 1, 7, 65536))
        return f"page {number} {most}\n", (name, number, most)
    return f"{name} {number}\n", (name, number)


def random_cases():
    """Scripts at random over tilesets at random, always the same ones."""
    chosen = random.Random(20222)
    for number in range(20):
        scene = random_scene(chosen)
        machine, script, wanted = Machine(scene, chosen.randint(1, 3), chosen.randint(1, 4)), [], []
        boxes = [(level, *random_box(chosen, scene["axes"], min(level, scene["levels"] - 1)))
                 for level in chosen.choices(range(scene["levels"] + 1), k=4)]
        for _ in range(400):
            line, event = random_event(chosen, machine, boxes)
            script.append(line)
            wanted += machine.reply(*event)
        replay(f"random_script_{number}", made_files(scene), [str(len(machine.frames)), str(len(machine.passes))],
               "".join(script).encode(), lines(*wanted))


def cases():
    worked_cases()
    line_cases()
    limit_cases()
    device_cases()
    random_cases()
