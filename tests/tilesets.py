"""Tilesets that the cases run over, and the answers that the plain rules of the standard give."""
import itertools
import json
import os
import struct
import sys

from harness import lines

sys.path.insert(0, os.path.join(os.path.dirname(os.path.abspath(__file__)), "..", "examples"))
import make


def pack(text, binary=b""):
    """A subtree file: header, JSON padded by spaces, binary padded by zeros, each to a multiple of 8."""
    text = text.encode() if isinstance(text, str) else text
    text += b" " * (-len(text) % 8)
    binary += b"\0" * (-len(binary) % 8)
    return b"subt" + struct.pack("<IQQ", 1, len(text), len(binary)) + text + binary


def tileset(scheme, subtree_levels, levels, template, contents=None, content=None):
    root = {"boundingVolume": {"box": [0, 0, 0, 7, 0, 0, 0, 7, 0, 0, 0, 7.5]}, "geometricError": 70.71,
            "implicitTiling": {"subdivisionScheme": scheme, "subtreeLevels": subtree_levels,
                               "availableLevels": levels, "subtrees": {"uri": template}}}
    if content is not None:
        root["content"] = {"uri": content}
    if contents is not None:
        root["contents"] = [{"uri": uri} for uri in contents]
    return json.dumps({"asset": {"version": "1.1"}, "root": root}).encode()


A_JSON = ('{"childSubtreeAvailability":{"constant":0},"contentAvailability":[{"constant":1}],'
          '"tileAvailability":{"constant":1}}')
ONES = '{"tileAvailability":{"constant":1},"childSubtreeAvailability":{"constant":1}}'
NAME = "s/{level}/{x}/{y}.subtree"


def tileset_a(levels=2, subtree=pack(A_JSON)):
    return {"tileset.json": tileset("QUADTREE", 2, levels, NAME, content="c/{level}/{x}/{y}.glb"),
            "s/0/0/0.subtree": subtree}


def with_tile_bits(byte, count=None, content=1):
    tiles = {"bitstream": 0}
    if count is not None:
        tiles["availableCount"] = count
    return pack(json.dumps({"buffers": [{"byteLength": 1}], "bufferViews": [{"buffer": 0, "byteOffset": 0, "byteLength": 1}],
                            "childSubtreeAvailability": {"constant": 0}, "contentAvailability": [{"constant": content}],
                            "tileAvailability": tiles}), bytes([byte]))


def tileset_b(subtree_levels, levels, scheme="QUADTREE"):
    return {"tileset.json": tileset(scheme, subtree_levels, levels, "all.subtree"), "all.subtree": pack(ONES)}


def tileset_c(**other):
    files = {"tileset.json": tileset("QUADTREE", 1, 2, NAME)}
    for name in ("s/0/0/0", "s/1/0/0", "s/1/1/0", "s/1/0/1", "s/1/1/1"):
        files[name + ".subtree"] = pack(ONES)
    for name, data in other.items():
        name = name.replace("_", "/") + ".subtree"
        if data is None:
            del files[name]
        else:
            files[name] = data
    return files


D_RECORD = {"buffers": [{"byteLength": 10}],
            "bufferViews": [{"buffer": 0, "byteOffset": 0, "byteLength": 1}, {"buffer": 0, "byteOffset": 8, "byteLength": 2}],
            "tileAvailability": {"bitstream": 0}, "childSubtreeAvailability": {"bitstream": 1}}
D_BYTES = bytes([3, 0, 0, 0, 0, 0, 0, 0, 0xF0, 0])


def tileset_d(binary=D_BYTES, change=None):
    record = json.loads(json.dumps(D_RECORD))
    if change:
        change(record)
    return {"tileset.json": tileset("QUADTREE", 2, 4, NAME), "s/0/0/0.subtree": pack(json.dumps(record), binary)}


A_WHOLE = lines("0|0|0|c/0/0/0.glb", "1|0|0|c/1/0/0.glb", "1|1|0|c/1/1/0.glb", "1|0|1|c/1/0/1.glb", "1|1|1|c/1/1/1.glb",
                "end|complete|5")
A_ROOT = lines("0|0|0|c/0/0/0.glb", "end|complete|1")


def all_ones(axes, level, low, high):
    """The lines of an answer over a tileset in which every tile is there: the standard's order, computed plainly."""
    rows = []
    for l in range(level + 1):
        tiles = itertools.product(*(range(a >> level - l, (b >> level - l) + 1) for a, b in zip(low, high)))
        rows += ["|".join(map(str, (l,) + tile)) for tile in sorted(tiles, key=make.interleaved)]
    return rows


def set_view(number, member, value):
    def change(record):
        record["bufferViews"][number][member] = value
    return change


def set_buffer(member, value):
    def change(record):
        record["buffers"][0][member] = value
    return change


def set_child(value):
    def change(record):
        record["childSubtreeAvailability"] = value
    return change


def spread_points(scheme, levels, points, number):
    """The points of `make`: tiles of the last level."""
    side = 2 ** (levels - 1)
    for k in range(points):
        point = ((number + 40503 * k) % side, (3 * number + 30011 * k) % side)
        yield point if scheme == "quadtree" else point + ((7 * number + 20011 * k) % side,)


def made_scene(scheme, levels, subtree, contents, points, number):
    """The tileset of `make`, in the form of the examples."""
    axes = 2 if scheme == "quadtree" else 3
    variables = ".{level}.{x}.{y}" + (".{z}" if axes == 3 else "")
    return {"scheme": scheme.upper(), "axes": axes, "subtree": subtree, "levels": levels,
            "tiles": make.with_ancestors(levels - 1, spread_points(scheme, levels, points, number)),
            "template": "s" + variables + ".subtree", "contents": [f"c{c}{variables}.glb" for c in range(contents)],
            "has": lambda tile, content: tile[0] % (content + 1) == 0}


def canonical_file(scene, root):
    """The subtree file that `make` writes: constants where all bits are alike, names in byte order, views at multiples of 8."""
    axes, depth, tiles = scene["axes"], scene["subtree"], scene["tiles"]
    first = make.interleaved(root[1:])

    def node(local, index):
        return (root[0] + local,) + make.separated(axes, (first << axes * local) + index)
    nodes = [node(local, index) for local in range(depth) for index in range(2 ** (axes * local))]
    views, binary = [], bytearray()

    def availability(bits):
        if all(bits) or not any(bits):
            return {"constant": int(bits[0])}
        packed = bytearray((len(bits) + 7) // 8)
        for place, bit in enumerate(bits):
            packed[place // 8] |= bit << place % 8
        views.append({"buffer": 0, "byteLength": len(packed), "byteOffset": len(binary)})
        binary.extend(packed + b"\0" * (-len(packed) % 8))
        return {"availableCount": sum(bits), "bitstream": len(views) - 1}
    record = {"tileAvailability": availability([t in tiles for t in nodes])}
    contents = [availability([t in tiles and scene["has"](t, c) for t in nodes]) for c in range(len(scene["contents"]))]
    record["childSubtreeAvailability"] = availability([node(depth, index) in tiles for index in range(2 ** (axes * depth))])
    if contents:
        record["contentAvailability"] = contents
    if views:
        record |= {"bufferViews": views, "buffers": [{"byteLength": len(binary)}]}
    return pack(json.dumps(record, sort_keys=True, separators=(",", ":")), bytes(binary))


def made_files(scene):
    roots = [tile for tile in scene["tiles"] if tile[0] % scene["subtree"] == 0]
    root = {"boundingVolume": {"box": [0, 0, 0, 1, 0, 0, 0, 1, 0, 0, 0, 1]}, "geometricError": 1, "refine": "ADD",
            "implicitTiling": {"availableLevels": scene["levels"], "subdivisionScheme": scene["scheme"],
                               "subtreeLevels": scene["subtree"], "subtrees": {"uri": scene["template"]}}}
    contents = [{"uri": uri} for uri in scene["contents"]]
    if len(contents) == 1:
        root["content"] = contents[0]
    elif contents:
        root["contents"] = contents
    tileset_json = json.dumps({"asset": {"version": "1.1"}, "geometricError": 1, "root": root}, sort_keys=True, separators=(",", ":"))
    return {**{make.filled(scene["template"], tile): canonical_file(scene, tile) for tile in roots},
            "tileset.json": tileset_json.encode()}
