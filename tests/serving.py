"""Cases of `serve`: what clients of one program are answered over sockets, alone and many at once, that the program goes on after
each, and how it ends where it can't serve."""
import contextlib
import functools
import os
import shutil
import socket
import subprocess
import tempfile
import threading
import time

from harness import MESSAGES, PROGRAM, is_chosen, lines, report, write_files
from tilesets import A_ROOT, A_WHOLE, all_ones, tileset_a, tileset_b, tileset_c

HOST = "127.0.0.1"
# No answer takes as long as this, in seconds.
PATIENCE = 60
# A program that has just begun listens after at most as long as this.
START = 20
MOST_REPLIES = 1000
WHOLE_BOX = "level=1&lo=0,0&hi=1,1"
TYPE = "Content-Type: text/plain; charset=utf-8"


def free_port():
    with socket.socket() as taken:
        taken.bind((HOST, 0))
        return taken.getsockname()[1]


class Server:
    """A program that serves a folder of these files."""

    def __init__(self, files, viewers=4, frames=8):
        self.files, self.viewers, self.frames = files, viewers, frames

    def __enter__(self):
        self.folder = tempfile.mkdtemp(prefix="view ")
        write_files(self.folder, self.files)
        self.port = free_port()
        self.program = subprocess.Popen([PROGRAM, "serve", str(self.port), str(self.viewers), str(self.frames)], cwd=self.folder,
                                        stdin=subprocess.DEVNULL, stdout=subprocess.PIPE, stderr=subprocess.PIPE)
        until = time.monotonic() + START
        while True:
            try:
                self.connect().close()
                return self
            except OSError:
                if self.program.poll() is not None or time.monotonic() > until:
                    self.__exit__()
                    raise AssertionError("the program doesn't listen")
                time.sleep(0.02)

    def __exit__(self, *_):
        self.program.kill()
        self.program.communicate()
        shutil.rmtree(self.folder)

    def connect(self):
        return socket.create_connection((HOST, self.port), PATIENCE)

    def is_up(self):
        """It hasn't ended, and says nothing on its standard output and error."""
        return self.program.poll() is None


def head(status, length, close=False, allow=False):
    return "\r\n".join([f"HTTP/1.1 {status}", *["Allow: GET"] * allow, TYPE, f"Content-Length: {length}",
                        "Connection: " + ("close" if close else "keep-alive"), "", ""])


def reply(status, body, close=False):
    return head(status, len(body.encode()), close, status.startswith("405")) + body


def get(path, query=WHOLE_BOX, more="", version="1.1"):
    return f"GET /{path}?{query} HTTP/{version}\r\nHost: {HOST}\r\n{more}\r\n"


def read_all(stream):
    taken = []
    while True:
        piece = stream.recv(1 << 16)
        if not piece:
            return b"".join(taken).decode()
        taken.append(piece)


def read_reply(stream):
    """One reply: its head, and the body of the length that the head tells."""
    taken = b""
    while b"\r\n\r\n" not in taken:
        piece = stream.recv(1)
        if not piece:
            return taken.decode()
        taken += piece
    length = int(taken.decode().split("Content-Length: ")[1].split("\r\n")[0])
    while length:
        piece = stream.recv(length)
        if not piece:
            break
        taken, length = taken + piece, length - len(piece)
    return taken.decode()


def talk(server, text):
    """All that is replied to a client which sends this and then no more."""
    with server.connect() as stream:
        stream.sendall(text.encode() if isinstance(text, str) else text)
        stream.shutdown(socket.SHUT_WR)
        return read_all(stream)


def after(server, name, problems):
    """The same program still answers."""
    if not server.is_up() or talk(server, get("tiles", "level=0&lo=0,0&hi=0,0")) != reply("200 OK", server.root):
        problems.append("the program doesn't answer any more")
    report(name, problems)


def case(check):
    @functools.wraps(check)
    def chosen(server, name, *given):
        if is_chosen(name):
            problems = []
            try:
                check(server, problems, *given)
            except (OSError, ValueError, IndexError) as error:
                problems.append(repr(error))
            after(server, name, problems)
    return chosen


def wants(problems, found, wanted):
    if found != wanted:
        problems.append(f"{found[:300]!r} .. {found[-80:]!r}, not {wanted[:300]!r} .. {wanted[-80:]!r}")


@case
def replied(server, problems, text, wanted):
    wants(problems, talk(server, text), wanted)


@case
def kept_alive(server, problems):
    """Requests one after another on one connection, each when the one before has its reply."""
    with server.connect() as stream:
        for path, status, body in (("tiles", "200 OK", A_WHOLE), ("prefix", "200 OK", A_WHOLE), ("none", "404 Not Found", "not found\n"),
                                   ("tiles", "200 OK", A_WHOLE)):
            stream.sendall(get(path).encode())
            wants(problems, read_reply(stream), reply(status, body))


@case
def without_delay(server, problems):
    """No reply waits for the client's acknowledgement of the one before: that would be 40 ms each."""
    with server.connect() as stream:
        begun = time.monotonic()
        for _ in range(50):
            stream.sendall(get("tiles").encode())
            wants(problems, read_reply(stream), reply("200 OK", A_WHOLE))
        if time.monotonic() - begun > 1.5:
            problems.append(f"50 replies took {time.monotonic() - begun:.1f} seconds")


@case
def byte_by_byte(server, problems):
    with server.connect() as stream:
        for byte in get("tiles").encode():
            stream.sendall(bytes([byte]))
        wants(problems, read_reply(stream), reply("200 OK", A_WHOLE))


@case
def most_replies(server, problems):
    """The thousandth reply closes the connection."""
    found = talk(server, get("tiles") * (MOST_REPLIES + 1))
    wants(problems, found, reply("200 OK", A_WHOLE) * (MOST_REPLIES - 1) + reply("200 OK", A_WHOLE, close=True))


@case
def gone_early(server, problems, text):
    """Clients that leave before they have read a reply, or before they have asked."""
    for _ in range(8):
        with server.connect() as stream:
            stream.sendall(text)


@case
def at_once(server, problems, count, asked, wanted):
    """So many clients, which have all connected before any asks."""
    streams = [server.connect() for _ in range(count)]
    found = [None] * count

    def ask(number):
        with streams[number] as stream:
            stream.sendall(get("tiles", asked, "Connection: close\r\n").encode())
            with contextlib.suppress(OSError):
                found[number] = read_all(stream)
    threads = [threading.Thread(target=ask, args=(number,)) for number in range(count)]
    for thread in threads:
        thread.start()
    for thread in threads:
        thread.join(PATIENCE)
    others = [number for number in range(count) if found[number] != reply("200 OK", wanted, close=True)]
    if others:
        problems.append(f"{len(others)} of {count} have another answer, as {str(found[others[0]])[:200]!r}")


@case
def slow_reader(server, problems, asked, wanted):
    """A client that takes a long answer in small pieces, with pauses."""
    with socket.socket() as stream:
        stream.setsockopt(socket.SOL_SOCKET, socket.SO_RCVBUF, 4096)
        stream.settimeout(PATIENCE)
        stream.connect((HOST, server.port))
        stream.sendall(get("tiles", asked, "Connection: close\r\n").encode())
        taken = b""
        for number in range(1 << 20):
            if number < 100:
                time.sleep(0.005)
            piece = stream.recv(4096)
            if not piece:
                break
            taken += piece
    wants(problems, taken.decode(), reply("200 OK", wanted, close=True))


@case
def never_reads(server, problems, asked):
    """A client that asks for long answers and takes none of them keeps one viewer, and no other."""
    with socket.socket() as stream:
        stream.setsockopt(socket.SOL_SOCKET, socket.SO_RCVBUF, 4096)
        stream.connect((HOST, server.port))
        stream.sendall(get("tiles", asked).encode() * 8)
        time.sleep(0.2)
        wants(problems, talk(server, get("tiles", "level=0&lo=0,0&hi=0,0")), reply("200 OK", server.root))


@case
def all_stalled(server, problems):
    """Clients that stop in the middle of a head keep all viewers. The next one waits, and is answered once one of them has left."""
    streams = [server.connect() for _ in range(server.viewers)]
    try:
        for stream in streams:
            stream.sendall(b"GET /tiles?lev")
        with server.connect() as next_one:
            next_one.sendall(get("tiles", more="Connection: close\r\n").encode())
            next_one.settimeout(0.5)
            with contextlib.suppress(TimeoutError):
                problems.append(f"a reply while all viewers are kept: {next_one.recv(1 << 16)[:100]!r}")
            streams.pop().close()
            next_one.settimeout(PATIENCE)
            wants(problems, read_all(next_one), reply("200 OK", A_WHOLE, close=True))
    finally:
        for stream in streams:
            stream.close()


@case
def by_curl(server, problems):
    """What a user types, in one connection for all of it."""
    at = f"http://{HOST}:{server.port}"
    done = subprocess.run(["curl", "-s", "--max-time", str(PATIENCE), f"{at}/tiles?{WHOLE_BOX}", f"{at}/prefix?{WHOLE_BOX}", f"{at}/none"],
                          capture_output=True, timeout=PATIENCE)
    wants(problems, done.stdout.decode(), A_WHOLE + A_WHOLE + "not found\n")


def served(files, root, viewers=4, frames=8):
    server = Server(files, viewers, frames)
    server.root = root
    return server


def table_cases(server):
    """The replies that the head decides, and the requests behind them."""
    good = reply("200 OK", A_WHOLE)
    bad = reply("400 Bad Request", "bad request\n", close=True)
    refused = [reply("400 Bad Request", lines(f"refused|{number}")) for number in range(6)]
    head_of_405 = head("405 Method Not Allowed", 19, allow=True)
    for name, text, wanted in (
            ("served_tiles", get("tiles"), good),
            ("served_prefix_of_nothing_yet", get("prefix", "level=1&lo=1,1&hi=1,1"), reply("200 OK", lines("end|partial|0"))),
            ("served_prefix_of_all", get("tiles") + get("prefix"), good * 2),
            ("served_in_any_order", get("tiles", "hi=1%2C1&level=1&lo=0,0"), good),
            ("served_pipelined", get("tiles") + get("none") + get("prefix") + get("tiles", "level=0&lo=0,0&hi=0,0"),
             good + reply("404 Not Found", "not found\n") + good + reply("200 OK", A_ROOT)),
            ("served_http_1_0", get("tiles", version="1.0") + get("tiles"), reply("200 OK", A_WHOLE, close=True)),
            ("served_close_asked", get("tiles", more="connection: ClOsE\r\n") + get("tiles"), reply("200 OK", A_WHOLE, close=True)),
            ("served_line_feeds_alone", f"GET /tiles?{WHOLE_BOX} HTTP/1.1\n\n", good),
            ("served_not_found", get("tiles/") + get("tiles"), reply("404 Not Found", "not found\n") + good),
            ("served_absolute_form", f"GET http://{HOST}/tiles?{WHOLE_BOX} HTTP/1.1\r\n\r\n", reply("404 Not Found", "not found\n")),
            ("served_not_allowed", "POST /tiles HTTP/1.1\r\nContent-Length: 0\r\n\r\n" + get("tiles"),
             reply("405 Method Not Allowed", "method not allowed\n") + good),
            ("served_head_of_head", "HEAD /tiles HTTP/1.1\r\n\r\n" + get("tiles"), head_of_405 + good),
            ("served_refused_twice", get("tiles", WHOLE_BOX + "&hi=1,1"), refused[1]),
            ("served_refused_plus", get("tiles", "level=+1&lo=0,0&hi=1,1"), refused[1]),
            ("served_refused_axes", get("prefix", "level=1&lo=0,0,0&hi=1,1,1"), refused[2]),
            ("served_refused_level", get("tiles", "level=2&lo=0,0&hi=1,1"), refused[3]),
            ("served_refused_order", get("tiles", "level=1&lo=1,0&hi=0,1") + get("tiles"), refused[4] + good),
            ("served_refused_box", get("tiles", "level=1&lo=0,0&hi=2,1"), refused[5]),
            ("served_body_announced", "GET /tiles HTTP/1.1\r\nContent-Length: 3\r\n\r\nabc" + get("tiles"), bad),
            ("served_chunks_announced", "POST /tiles HTTP/1.1\r\nTransfer-Encoding: chunked\r\n\r\n0\r\n\r\n", bad),
            ("served_no_http", b"\x16\x03\x01\x02\x00\x01\x00\x01\xfc\x03\x03", bad),
            ("served_64_headers", get("tiles", more="a: b\r\n" * 63), good),
            ("served_65_headers", get("tiles", more="a: b\r\n" * 64), bad),
            ("served_longest_head", get("tiles", more="a: " + "b" * (8192 - len(get("tiles")) - 5) + "\r\n"), good),
            ("served_head_too_long", get("tiles", more="a: " + "b" * 8192 + "\r\n"),
             reply("431 Request Header Fields Too Large", "head too long\n", close=True)),
            ("served_cut_head", get("tiles") + "GET /tiles?lev", good),
            ("served_nothing", b"", "")):
        replied(server, name, text, wanted)


def ends_before_serving():
    """Where it can't serve the program says why, and ends."""
    for name, files, words, status, message in (
            ("serve_without_a_layout", {}, ["4", "8"], 3, "view: layout fault 1\n"),
            ("serve_over_an_unreadable_layout", {"tileset.json": None}, ["4", "8"], 4, MESSAGES[4]),
            ("serve_with_no_viewers", tileset_a(), ["0", "8"], 2, MESSAGES[2]),
            ("serve_with_too_many_viewers", tileset_a(), ["65", "8"], 2, MESSAGES[2]),
            ("serve_with_too_many_frames", tileset_a(), ["4", "1025"], 2, MESSAGES[2]),
            ("serve_with_a_word_too_few", tileset_a(), ["4"], 2, MESSAGES[2])):
        if is_chosen(name):
            ends(name, files, [str(free_port()), *words], status, message)
    for name, port in (("serve_at_port_0", "0"), ("serve_at_port_65536", "65536")):
        if is_chosen(name):
            ends(name, tileset_a(), [port, "4", "8"], 2, MESSAGES[2])
    name = "serve_at_a_port_that_is_taken"
    if is_chosen(name):
        with socket.socket() as taken:
            taken.bind((HOST, 0))
            taken.listen()
            ends(name, tileset_a(), [str(taken.getsockname()[1]), "4", "8"], 11, "view: listen fault\n")


def ends(name, files, words, status, message):
    folder = tempfile.mkdtemp(prefix="view ")
    try:
        write_files(folder, files)
        done = subprocess.run([PROGRAM, "serve", *words], cwd=folder, stdin=subprocess.DEVNULL, capture_output=True, timeout=PATIENCE)
        found = (done.returncode, done.stdout.decode(), done.stderr.decode())
        report(name, [] if found == (status, "", message) else [repr(found)])
    except subprocess.TimeoutExpired:
        report(name, ["it doesn't end"])
    finally:
        shutil.rmtree(folder)


def reads_fail(server):
    """A file that can't be read is told, nothing of it stays, and it is read again when it is asked for again."""
    name = "served_read_fault"
    if not is_chosen(name):
        return
    problems = []
    path = os.path.join(server.folder, "s", "1", "1", "0.subtree")
    with open(path, "rb") as file:
        whole = file.read()
    os.remove(path)
    os.mkdir(path)
    fault = reply("502 Bad Gateway", "read fault\n")
    published = reply("200 OK", lines("0|0|0", "end|partial|1"))
    asked = "level=1&lo=1,0&hi=1,0"
    wants(problems, talk(server, get("tiles", asked) + get("prefix", asked)), fault + published)
    os.rmdir(path)
    with open(path, "wb") as file:
        file.write(whole)
    wants(problems, talk(server, get("tiles", asked)), reply("200 OK", lines("0|0|0", "1|1|0", "end|complete|2")))
    after(server, name, problems)


def with_server(cases, *given):
    try:
        with served(*given) as server:
            cases(server)
            if not server.is_up():
                report("served_on", ["the program has ended"])
    except AssertionError as error:
        report("served", [str(error)])


def cases_of_a(server):
    table_cases(server)
    kept_alive(server, "served_keep_alive")
    without_delay(server, "served_without_delay")
    byte_by_byte(server, "served_byte_by_byte")
    most_replies(server, "served_a_thousand_times")
    gone_early(server, "served_gone_with_a_request", get("tiles").encode())
    gone_early(server, "served_gone_with_many", get("tiles").encode() * 100)
    gone_early(server, "served_gone_in_a_head", b"GET /til")
    gone_early(server, "served_gone_at_once", b"")
    all_stalled(server, "served_after_all_stalled")
    if shutil.which("curl"):
        by_curl(server, "served_by_curl")


def cases_of_many(server):
    rows = all_ones(2, 5, (0, 0), (31, 31))
    at_once(server, "served_64_at_once", 64, "level=5&lo=0,0&hi=31,31", lines(*rows, f"end|complete|{len(rows)}"))


def cases_of_long(server):
    asked = "level=16&lo=0,0&hi=0,32767"
    wanted = lines(*all_ones(2, 16, (0, 0), (0, 32767)), "end|complete|65536")
    slow_reader(server, "served_slow_reader", asked, wanted)
    never_reads(server, "served_beside_one_that_never_reads", asked)
    gone_early(server, "served_gone_in_a_long_answer", get("tiles", asked).encode())
    replied(server, "served_long_twice", get("tiles", asked) + get("prefix", asked), reply("200 OK", wanted) * 2)


def cases():
    ends_before_serving()
    with_server(cases_of_a, tileset_a(), A_ROOT)
    with_server(cases_of_many, tileset_b(2, 6), lines("0|0|0", "end|complete|1"), 8, 4)
    with_server(cases_of_long, tileset_b(9, 18), lines("0|0|0", "end|complete|1"), 2, 2)
    with_server(reads_fail, tileset_c(), lines("0|0|0", "end|complete|1"), 1, 8)
