"""Running the program from outside, and telling what was wrong. Texts are written with `|` for TAB."""
import functools
import os
import resource
import shutil
import signal
import socket
import subprocess
import sys
import tempfile

PROGRAM = os.path.abspath(sys.argv[1])
WORD = sys.argv[2] if len(sys.argv) > 2 else ""
MESSAGES = {0: "", 1: "view: a subtree is faulty\n", 2: "view: usage\n", 4: "view: read fault\n", 5: "view: write fault\n",
            6: "view: input fault\n", 7: "view: out of memory\n", 8: "view: input too long\n"}
counts = {"passed": 0, "failed": 0}


def is_chosen(name):
    """Whether a case is to be run: those whose name has the word that was given, or all."""
    return WORD in name


def case(check):
    """A check that is passed over where the case of that name isn't to be run."""
    @functools.wraps(check)
    def chosen(name, *given, **named):
        if is_chosen(name):
            check(name, *given, **named)
    return chosen


def report(name, problems):
    if problems:
        counts["failed"] += 1
        print(f"FAILED {name}: {'; '.join(problems)}")
    else:
        counts["passed"] += 1


def lines(*rows):
    return "".join("\t".join(row.split("|")) + "\n" for row in rows)


def write_files(folder, files):
    for name, data in files.items():
        path = os.path.join(folder, name)
        os.makedirs(os.path.dirname(path), exist_ok=True)
        if data is None:
            os.makedirs(path)
        else:
            with open(path, "wb") as file:
                file.write(data)


def files_in(folder):
    """The files of a folder by name; a folder in it is None."""
    found = {}
    for name in os.listdir(folder):
        path = os.path.join(folder, name)
        if os.path.isdir(path):
            found[name] = None
        else:
            with open(path, "rb") as file:
                found[name] = file.read()
    return found


def under(limits):
    """What a process does before it becomes the program: it sets these limits of the system, RLIMIT_AS and the like. A write
    past RLIMIT_FSIZE fails then, and ends nothing."""
    def begin():
        signal.signal(signal.SIGXFSZ, signal.SIG_IGN)
        for which, most in (limits or {}).items():
            resource.setrlimit(which, (most, most))
    return begin


@case
def run(name, files, words, wanted, status=0, message=None, stdout=None, limits=None, given=None, stdin=subprocess.DEVNULL):
    """Runs the program over these files; `wanted` is its whole standard output. Its standard input has the bytes that are given,
    or is `stdin`."""
    folder = tempfile.mkdtemp(prefix="view ")
    try:
        write_files(folder, files)
        taken = {"stdin": stdin} if given is None else {"input": given}
        done = subprocess.run([PROGRAM] + words, cwd=folder, stderr=subprocess.PIPE, timeout=120, preexec_fn=under(limits),
                              stdout=stdout if stdout is not None else subprocess.PIPE, **taken)
        problems = []
        if done.returncode != status:
            problems.append(f"status {done.returncode}, not {status}")
        out = (done.stdout or b"").decode()
        if out != wanted:
            problems.append(f"output {out[:200]!r} .. {out[-80:]!r}, not {wanted[:200]!r} .. {wanted[-80:]!r}")
        line = MESSAGES[status] if message is None else message
        if done.stderr.decode() != line:
            problems.append(f"standard error {done.stderr!r}, not {line!r}")
        report(name, problems)
    finally:
        shutil.rmtree(folder)


def feed(name, files, words, given, wanted, status=0, **others):
    """Runs the program over these files, on these bytes of standard input, or on `stdin` where they are None."""
    run(name, files, words, wanted, status, given=given, **others)


@case
def shell(name, files, command, wanted, note):
    """Runs a shell command in a folder of these files, with the program as $VIEW."""
    folder = tempfile.mkdtemp(prefix="view ")
    try:
        write_files(folder, files)
        done = subprocess.run(["bash", "-c", command], cwd=folder, capture_output=True, timeout=120,
                              env={**os.environ, "VIEW": PROGRAM})
        report(name, [] if done.stdout.decode() == wanted else [f"{note}: {done.stdout[:200]!r} {done.stderr[:200]!r}"])
    finally:
        shutil.rmtree(folder)


@case
def pieces(name, files, words, wanted, status=0):
    """Runs the program with a socket for its output, which keeps writes apart: each has at most 98,304 bytes, and all but
    the last have at least half of that. Together they are the text that is wanted."""
    folder = tempfile.mkdtemp(prefix="view ")
    try:
        write_files(folder, files)
        ours, theirs = socket.socketpair(socket.AF_UNIX, socket.SOCK_SEQPACKET)
        with ours:
            with theirs:
                program = subprocess.Popen([PROGRAM] + words, cwd=folder, stdin=subprocess.DEVNULL, stdout=theirs, stderr=subprocess.DEVNULL)
            taken = list(iter(lambda: ours.recv(1 << 20), b""))
        sizes = [len(piece) for piece in taken]
        problems = [] if program.wait(120) == status and b"".join(taken).decode() == wanted else ["the pieces aren't the text"]
        if len(sizes) < 2 or max(sizes) > 98304 or min(sizes[:-1]) < 32768:
            problems.append(f"pieces of {sizes} bytes")
        report(name, problems)
    finally:
        shutil.rmtree(folder)


@case
def left_in_folder(name, there, words, wanted, text, status, stdout=None, limits=None):
    """Runs the program over files that are there, and looks at what is there then."""
    folder = tempfile.mkdtemp(prefix="view ")
    try:
        write_files(folder, there)
        done = subprocess.run([PROGRAM] + words, cwd=folder, stdout=stdout or subprocess.PIPE, stderr=subprocess.PIPE, timeout=120,
                              preexec_fn=under(limits))
        found = files_in(folder)
        problems = [] if (done.returncode, (done.stdout or b"").decode(), done.stderr.decode()) == (status, text, MESSAGES[status]) else [repr(done)]
        report(name, problems + ([] if found == wanted else [f"files {sorted(found)}, not {sorted(wanted)}"]))
    finally:
        shutil.rmtree(folder)
