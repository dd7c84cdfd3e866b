"""Cases of `examples/viewer`: its page in headless Chromium, and what is drawn there. They are run where Chromium is installed."""
import contextlib
import os
import re
import shutil
import socket
import struct
import subprocess
import tempfile
import time
import zlib

from harness import PROGRAM, case, is_chosen, report, write_files
from serving import HOST, START, free_port
from tilesets import tileset_a, tileset_b

EXAMPLES = os.path.join(os.path.dirname(os.path.abspath(__file__)), "..", "examples")
VIEWER = os.path.join(EXAMPLES, "viewer", "viewer")
BROWSER = shutil.which("chromium") or shutil.which("chromium-browser")
PATIENCE = 120
# The box that the page asks for first, and how its canvas looks.
LEVEL, SIDE, PIXELS, BORDER = 5, 32, 720, (0xCC, 0xCC, 0xCC)


class Page:
    """The viewer's page over the tileset of a folder."""

    def __init__(self, folder):
        self.folder = folder

    def __enter__(self):
        self.tools = tempfile.mkdtemp(prefix="view-page-")
        os.symlink(PROGRAM, os.path.join(self.tools, "view"))
        self.port = free_port()
        paths = {**os.environ, "PATH": self.tools + os.pathsep + os.environ["PATH"]}
        self.program = subprocess.Popen([VIEWER, str(self.port)], cwd=self.folder, env=paths, stdin=subprocess.DEVNULL)
        until = time.monotonic() + START
        while self.program.poll() is None and time.monotonic() < until:
            with contextlib.suppress(OSError):
                socket.create_connection((HOST, self.port), 1).close()
                return self
            time.sleep(0.05)
        self.__exit__()
        raise AssertionError("the viewer doesn't listen")

    def __exit__(self, *_):
        self.program.terminate()
        self.program.wait(PATIENCE)
        shutil.rmtree(self.tools)

    def seen(self, *words):
        """What the browser prints of the page, when all that it asks for has come."""
        browser = [BROWSER, "--headless", "--no-sandbox", "--disable-gpu", "--hide-scrollbars", "--window-size=800,1100",
                   f"--user-data-dir={self.tools}/browser", "--virtual-time-budget=20000", *words, f"http://{HOST}:{self.port}/"]
        return subprocess.run(browser, stdin=subprocess.DEVNULL, stdout=subprocess.PIPE, stderr=subprocess.DEVNULL, timeout=PATIENCE,
                              check=True).stdout.decode()

    def said(self):
        return re.search(r'<p id="said"[^>]*>([^<]*)</p>', self.seen("--dump-dom")).group(1)

    def picture(self):
        path = os.path.join(self.tools, "page.png")
        self.seen(f"--screenshot={path}")
        with open(path, "rb") as file:
            return pixels(file.read())


def pixels(data):
    """The rows of a PNG picture of 8 bits for each of three or four colours, as lists of (red, green, blue)."""
    at, packed = 8, b""
    while at < len(data):
        size, kind = struct.unpack(">I4s", data[at:at + 8])
        body = data[at + 8:at + 8 + size]
        if kind == b"IHDR":
            width, height, depth, colours, *_ = struct.unpack(">IIBBBBB", body)
            assert depth == 8 and colours in (2, 6), (depth, colours)
            step = 3 if colours == 2 else 4
        packed += body if kind == b"IDAT" else b""
        at += 12 + size
    raw, rows, above = zlib.decompress(packed), [], bytes(width * step)
    for row in range(height):
        at = row * (width * step + 1)
        above = unfiltered(raw[at], bytearray(raw[at + 1:at + 1 + width * step]), above, step)
        rows.append([tuple(above[x:x + 3]) for x in range(0, width * step, step)])
    return rows


def unfiltered(kind, row, above, step):
    """A row of a PNG picture by its filter: what is left, above, and left above of each byte."""
    for x, _ in enumerate(row):
        left, high, corner = row[x - step] if x >= step else 0, above[x], above[x - step] if x >= step else 0
        nearest = min((left, high, corner), key=lambda byte: abs(left + high - corner - byte))
        row[x] = (row[x] + (0, left, high, (left + high) // 2, nearest)[kind]) & 0xFF
    return row


def canvas(rows):
    """Where the canvas begins: behind the first line of its border."""
    for y, row in enumerate(rows):
        for x in range(len(row) - PIXELS):
            if row[x] == BORDER and row[x:x + PIXELS] == [BORDER] * PIXELS:
                return x + 1, y + 1
    raise AssertionError("no canvas is seen")


def tiles_of(folder):
    answer = subprocess.run([PROGRAM, "tiles", str(LEVEL), "0,0", f"{SIDE - 1},{SIDE - 1}"], cwd=folder, capture_output=True, text=True,
                            timeout=PATIENCE, check=True).stdout.splitlines()
    return [tuple(map(int, line.split("\t")[:3])) for line in answer[:-1]], answer[-1]


@case
def drawn(name, folder):
    """The middle of each tile of the level has the colour of the lowest tile that is there."""
    tiles, end = tiles_of(folder)
    with Page(folder) as page:
        said, rows = page.said(), page.picture()
    with open(os.path.join(EXAMPLES, "viewer", "index.html"), encoding="utf-8") as file:
        colours = [tuple(bytes.fromhex(word)) for word in re.findall(r'"#(\w{6})"', file.read())]
    lowest = {}
    for level, x, y in tiles:
        size = 2 ** (LEVEL - level)
        lowest.update({(a, b): level for a in range(x * size, (x + 1) * size) for b in range(y * size, (y + 1) * size)})
    left, top = canvas(rows)
    problems = [] if said == f"{len(tiles)} tiles; {end}".replace("\t", " ") else [f"it says {said!r}"]
    for x in range(SIDE):
        for y in range(SIDE):
            found = rows[top + int((SIDE - y - 0.5) * PIXELS / SIDE)][left + int((x + 0.5) * PIXELS / SIDE)]
            wanted = colours[lowest[x, y]] if (x, y) in lowest else (255, 255, 255)
            if found != wanted:
                problems.append(f"{found} at {x},{y} in place of {wanted}")
    report(name, problems[:3])


@case
def says(name, files, wanted):
    with tempfile.TemporaryDirectory(prefix="view page ") as folder:
        write_files(folder, files)
        with Page(folder) as page:
            said = page.said()
    report(name, [] if said == wanted else [f"it says {said!r}"])


def cases():
    if not BROWSER:
        if is_chosen("page"):
            print("examples/viewer was not looked at, since Chromium isn't installed")
        return
    drawn("page_of_the_terrain", os.path.join(EXAMPLES, "terrain"))
    octree = sum(8 ** level for level in range(LEVEL + 1))
    says("page_of_an_octree", tileset_b(2, LEVEL + 1, "OCTREE"), f"{octree} tiles; end complete {octree}")
    says("page_of_few_levels", tileset_a(), "refused 3: the tileset has no such level")
