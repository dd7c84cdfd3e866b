#!/usr/bin/env python3
"""Makes the tilesets examples/terrain, points, inner_buffer, outer_buffer and faulty anew: small, and of the shape of real ones.

A tile is there where a sample of the scene is in it. The files are written by the plain rules of OGC 22-025r4: bit by bit,
from the set of tiles. tests/black_box.py reads that set from here and compares it with what the program answers. The files of
`faulty` are such files, broken on purpose."""
import itertools
import json
import math
import os
import struct

HERE = os.path.dirname(os.path.abspath(__file__))


def with_ancestors(level, leaves):
    """The leaves (tuples of coordinates at this level) and all their ancestors, as (level, x, y[, z])."""
    tiles = set()
    for leaf in leaves:
        for l in range(level + 1):
            tiles.add((l,) + tuple(c >> level - l for c in leaf))
    return tiles


def terrain():
    """A quadtree of six levels in subtrees of two: a valley that is mapped in detail along a river, with two contents, a
    mesh on every tile and a texture on every second level."""
    leaves = set()
    for step in range(400):
        x = 31 * step / 399
        leaves.add((int(x), int(15.5 + 11 * math.sin(x / 4))))
    tiles = with_ancestors(5, leaves) | {(l, x, y) for l in range(3) for x in range(2 ** l) for y in range(2 ** l)}
    return {"name": "terrain", "scheme": "QUADTREE", "axes": 2, "subtree": 2, "levels": 6, "tiles": tiles,
            "contents": ["mesh/{level}/{x}/{y}.glb", "texture/{level}/{x}/{y}.glb"],
            "has": lambda tile, content: content == 0 or tile[0] % 2 == 0}


def points():
    """An octree of five levels in subtrees of three: the points of a helix, one content on each tile."""
    leaves = set()
    for step in range(600):
        turn = 6 * math.pi * step / 599
        leaves.add((int(7.5 + 7 * math.cos(turn)), int(7.5 + 7 * math.sin(turn)), int(15 * step / 599)))
    return {"name": "points", "scheme": "OCTREE", "axes": 3, "subtree": 3, "levels": 5, "tiles": with_ancestors(4, leaves),
            "contents": ["points/{level}/{x}/{y}/{z}.glb"], "has": lambda tile, content: True}


def inner_buffer():
    """A quadtree of three levels in one subtree, with a content on each tile but the root: two bitstreams in one buffer."""
    leaves = {(0, 0), (1, 1), (2, 1), (3, 2), (3, 3)}
    return {"name": "inner_buffer", "scheme": "QUADTREE", "axes": 2, "subtree": 3, "levels": 3, "tiles": with_ancestors(2, leaves),
            "contents": ["c/{level}/{x}/{y}.glb"], "has": lambda tile, content: tile[0] > 0}


def outer_buffer():
    """A quadtree of four levels in subtrees of two, whose subtree files are JSON and whose bitstreams stand in files beside
    them."""
    leaves = {(0, 0), (1, 0), (1, 1), (2, 5), (3, 4), (6, 7), (7, 7)}
    return {"name": "outer_buffer", "scheme": "QUADTREE", "axes": 2, "subtree": 2, "levels": 4, "tiles": with_ancestors(3, leaves),
            "contents": ["c/{level}/{x}/{y}.glb"], "has": lambda tile, content: tile[0] != 1, "form": "json"}


def interleaved(coordinates):
    axes = len(coordinates)
    return sum((c >> j & 1) << (axes * j + a) for a, c in enumerate(coordinates) for j in range(32))


def separated(axes, index):
    return tuple(sum((index >> (axes * j + a) & 1) << j for j in range(21)) for a in range(axes))


def filled(template, tile):
    for name, number in zip(("{level}", "{x}", "{y}", "{z}"), tile):
        template = template.replace(name, str(number))
    return template


def availability(bits, views, binary):
    """An availability object for these bits: a constant, or a bitstream that is put behind the others."""
    if all(bits):
        return {"constant": 1}
    if not any(bits):
        return {"constant": 0}
    binary += b"\0" * (-len(binary) % 8)
    packed = bytearray((len(bits) + 7) // 8)
    for place, bit in enumerate(bits):
        packed[place // 8] |= bit << place % 8
    views.append({"buffer": 0, "byteOffset": len(binary), "byteLength": len(packed)})
    binary += packed
    return {"bitstream": len(views) - 1, "availableCount": sum(bits)}


def record_of_bits(tiles, contents, children):
    """The record of these bits, and the bytes of its buffer, padded by zeros."""
    views, binary = [], bytearray()
    record = {"tileAvailability": availability(tiles, views, binary),
              "contentAvailability": [availability(content, views, binary) for content in contents],
              "childSubtreeAvailability": availability(children, views, binary)}
    if views:
        binary += b"\0" * (-len(binary) % 8)
        record = {"buffers": [{"byteLength": len(binary)}], "bufferViews": views, **record}
    return record, bytes(binary)


def file_of_bits(tiles, contents, children):
    """The subtree file of these bits: the header, the record padded by spaces, and the buffer padded by zeros."""
    record, binary = record_of_bits(tiles, contents, children)
    text = json.dumps(record).encode()
    text += b" " * (-len(text) % 8)
    return b"subt" + struct.pack("<IQQ", 1, len(text), len(binary)) + text + binary


def bits_of(scene, root):
    """The bits of the subtree of a root: of its tiles, of their contents, and of its child subtrees."""
    axes, depth, there = scene["axes"], scene["subtree"], scene["tiles"]

    def tile(local, index):
        base = interleaved(root[1:]) << axes * local
        return (root[0] + local,) + separated(axes, base + index)
    nodes = [tile(local, index) for local in range(depth) for index in range(2 ** (axes * local))]
    return ([t in there for t in nodes], [[t in there and scene["has"](t, c) for t in nodes] for c in range(len(scene["contents"]))],
            [tile(depth, index) in there for index in range(2 ** (axes * depth))])


def subtree_file(scene, root):
    return file_of_bits(*bits_of(scene, root))


def subtree_files(scene, root):
    """The subtree file of a root, and the files beside it, by the ends of their names behind its own."""
    if scene.get("form") != "json":
        return {"": subtree_file(scene, root)}
    record, binary = record_of_bits(*bits_of(scene, root))
    if not binary:
        return {"": json.dumps(record, indent=1).encode() + b"\n"}
    record["buffers"][0]["uri"] = f"{root[2]}.bits.bin"
    return {"": json.dumps(record, indent=1).encode() + b"\n", ".bits.bin": binary}


def faulty():
    """A quadtree of four levels in subtrees of two, whose root names seven child subtrees: six of their files are broken."""
    leaves = {(x, y) for x, y in itertools.product(range(8), range(4)) if y < 2 or x < 6}
    return {"name": "faulty", "scheme": "QUADTREE", "axes": 2, "subtree": 2, "levels": 4, "tiles": with_ancestors(3, leaves),
            "contents": ["c/{level}/{x}/{y}.glb"], "has": lambda tile, content: True}


def broken_files(scene):
    """The files of `faulty` that aren't as they should be, by their roots; None is no file."""
    whole, no_children = subtree_file(scene, (2, 0, 0)), [0] * 16
    two_tiles = file_of_bits([1, 0, 0, 0, 1], [[0] * 5], no_children)
    return {(2, 1, 0): None, (2, 0, 1): whole[:40], (2, 1, 1): b"glTF" + whole[4:],
            (2, 2, 0): two_tiles.replace(b'"availableCount": 2', b'"availableCount": 3'),
            (2, 3, 0): file_of_bits([0, 1, 0, 0, 0], [[0] * 5], no_children),
            (2, 2, 1): file_of_bits([1, 1, 0, 0, 0], [[1, 1, 1, 0, 0]], no_children)}


def write(scene):
    folder = os.path.join(HERE, scene["name"])
    axes = scene["axes"]
    template = "subtrees/{level}/{x}/{y}" + ("/{z}" if axes == 3 else "") + ".subtree"
    contents = [{"uri": uri} for uri in scene["contents"]]
    root = {"boundingVolume": {"box": [0, 0, 0, 500, 0, 0, 0, 500, 0, 0, 0, 500]}, "geometricError": 250, "refine": "REPLACE",
            **({"content": contents[0]} if len(contents) == 1 else {"contents": contents}),
            "implicitTiling": {"subdivisionScheme": scene["scheme"], "subtreeLevels": scene["subtree"],
                               "availableLevels": scene["levels"], "subtrees": {"uri": template}}}
    os.makedirs(folder, exist_ok=True)
    with open(os.path.join(folder, "tileset.json"), "w") as file:
        json.dump({"asset": {"version": "1.1"}, "geometricError": 500, "root": root}, file, indent=1)
        file.write("\n")
    broken = broken_files(scene) if scene["name"] == "faulty" else {}
    for tile in scene["tiles"]:
        if tile[0] % scene["subtree"]:
            continue
        files = {"": broken[tile]} if tile in broken else subtree_files(scene, tile)
        for end, data in files.items():
            if data is None:
                continue
            path = os.path.join(folder, filled(template, tile))
            path = path.removesuffix(".subtree") + end if end else path
            os.makedirs(os.path.dirname(path), exist_ok=True)
            with open(path, "wb") as file:
                file.write(data)


def answer(scene, level, low, high):
    """The answer's lines by the set of tiles alone."""
    there = [t for t in scene["tiles"] if t[0] <= level
             and all(a >> level - t[0] <= c <= b >> level - t[0] for a, c, b in zip(low, t[1:], high))]
    there.sort(key=lambda t: (t[0], interleaved(t[1:])))
    rows = ["\t".join([*map(str, t), *(filled(uri, t) for c, uri in enumerate(scene["contents"]) if scene["has"](t, c))])
            for t in there]
    return "".join(row + "\n" for row in rows + [f"end\tcomplete\t{len(there)}"])


SCENES = [terrain(), points(), inner_buffer(), outer_buffer()]

if __name__ == "__main__":
    for scene in [*SCENES, faulty()]:
        write(scene)
