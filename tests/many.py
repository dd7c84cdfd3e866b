"""Cases of `examples/many`: several `serve` behind nginx. They are run where nginx is installed."""
import contextlib
import os
import re
import shutil
import socket
import subprocess
import tempfile
import threading
import time

from harness import is_chosen, lines, report
from serving import HOST, PATIENCE, START, Server, free_port, get, read_all
from tilesets import all_ones, tileset_b

CONFIGURATION = os.path.join(os.path.dirname(os.path.abspath(__file__)), "..", "examples", "many", "nginx.conf")
PROCESSES = 3
LEVEL = 5
SIDE = 2 ** LEVEL


class Front:
    """nginx, with the configuration of the example at other ports."""

    def __init__(self, ports):
        self.ports = ports

    def __enter__(self):
        self.folder = tempfile.mkdtemp(prefix="nginx ")
        self.port = free_port()
        with open(CONFIGURATION, encoding="utf-8") as file:
            text = file.read()
        for number, port in enumerate([self.port, *self.ports]):
            text = text.replace(f"127.0.0.1:{8650 + number}", f"127.0.0.1:{port}")
        path = os.path.join(self.folder, "nginx.conf")
        with open(path, "w", encoding="utf-8") as file:
            file.write(text)
        self.program = subprocess.Popen(["nginx", "-p", self.folder, "-e", "stderr", "-c", path], stdin=subprocess.DEVNULL,
                                        stdout=subprocess.DEVNULL, stderr=subprocess.DEVNULL)
        until = time.monotonic() + START
        while self.program.poll() is None and time.monotonic() < until:
            with contextlib.suppress(OSError):
                self.connect().close()
                return self
            time.sleep(0.05)
        self.__exit__()
        raise AssertionError("nginx doesn't listen")

    def __exit__(self, *_):
        self.program.terminate()
        try:
            self.program.wait(PATIENCE)
        except subprocess.TimeoutExpired:
            self.program.kill()
            self.program.wait()
        shutil.rmtree(self.folder)

    def connect(self):
        return socket.create_connection((HOST, self.port), PATIENCE)


def asked(front, path, query):
    """The status and the body of a reply."""
    with front.connect() as stream:
        stream.sendall(get(path, query, "Connection: close\r\n").encode())
        head, _, body = read_all(stream).partition("\r\n\r\n")
    status = re.match(r"HTTP/1\.1 (\d+)", head)
    return (int(status[1]) if status else 0), body


def plans():
    """Some boxes of the level, each with its query and its answer."""
    for number in range(24):
        low = number % 8 * 4, number // 8 * 8
        high = low[0] + 3, low[1] + 7
        rows = all_ones(2, LEVEL, low, high)
        yield f"level={LEVEL}&lo={low[0]},{low[1]}&hi={high[0]},{high[1]}", lines(*rows, f"end|complete|{len(rows)}")


def differ(front, paths):
    """The plans that are answered otherwise than they should be."""
    for query, wanted in plans():
        for path in paths:
            found = asked(front, path, query)
            if found != (200, wanted):
                yield f"{path}?{query}: {found[0]} {found[1][:100]!r} .. {found[1][-40:]!r}"


def stalled(front, problems):
    """More clients than there are viewers say nothing more, and are let go; others are answered meanwhile."""
    streams = [front.connect() for _ in range(30)]
    try:
        for stream in streams:
            stream.sendall(b"GET /tiles?level")
        problems += differ(front, ["tiles"])
        begun = time.monotonic()
        for stream in streams:
            stream.settimeout(20)
            with contextlib.suppress(OSError):
                read_all(stream)
        if time.monotonic() - begun > 15:
            problems.append("a client that says nothing isn't let go")
    finally:
        for stream in streams:
            stream.close()


def goes_on(front, servers, problems):
    """One process is ended while clients ask."""
    found = []
    ask = threading.Thread(target=lambda: found.extend(differ(front, ["tiles"] * 8)))
    ask.start()
    time.sleep(0.05)
    servers[0].program.kill()
    ask.join(PATIENCE)
    problems += found
    problems += differ(front, ["tiles", "prefix"])


def cases():
    if not shutil.which("nginx") or not is_chosen("many_processes"):
        return
    with contextlib.ExitStack() as stack:
        problems = []
        try:
            servers = [stack.enter_context(Server(tileset_b(2, LEVEL + 1), 8, 8)) for _ in range(PROCESSES)]
            front = stack.enter_context(Front([server.port for server in servers]))
            problems += differ(front, ["tiles", "prefix"])
            for path, query, wanted in (("none", "", (404, "not found\n")), ("tiles", "level=9", (400, lines("refused|1")))):
                if asked(front, path, query) != wanted:
                    problems.append(f"{path}: {asked(front, path, query)}")
            stalled(front, problems)
            goes_on(front, servers, problems)
        except (OSError, AssertionError) as error:
            problems.append(repr(error))
        report("many_processes", problems)
