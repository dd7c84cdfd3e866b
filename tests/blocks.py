"""The commands that the documents show with what they print, and their running in a clean copy of the repository.

They stand in the blocks that are fenced as `console`: a line that begins with `$ ` is a command, and the lines below it are what
it prints, standard error with it; a line `...` stands for any lines. The blocks of a document are run in one shell that has
`view` on its path, and each begins in the document's folder."""
import glob
import os
import re
import shlex
import shutil
import subprocess

TOP = os.path.dirname(os.path.dirname(os.path.abspath(__file__)))
BLOCK = re.compile(r"^```console\n(.*?)^```$", re.M | re.S)
END = "= the end of the command ="


def documents():
    """The documents whose blocks are run, from the top."""
    paths = [os.path.join(TOP, "README.md"), *sorted(glob.glob(os.path.join(TOP, "examples", "*", "README.md")))]
    return [os.path.relpath(path, TOP) for path in paths]


def blocks_of(document):
    """The blocks of a document: of each its commands, each with the lines that it prints."""
    with open(os.path.join(TOP, document), encoding="utf-8") as file:
        texts = BLOCK.findall(file.read())
    for text in texts:
        commands = []
        for line in text.splitlines():
            if line.startswith("$ "):
                commands.append((line[2:], []))
            else:
                commands[-1][1].append(line)
        yield commands


def files_of_repository():
    """The files that a clean clone has, as they stand here."""
    listed = subprocess.run(["git", "ls-files", "-z"], cwd=TOP, capture_output=True)
    if listed.returncode == 0:
        return [name for name in os.fsdecode(listed.stdout).split("\0") if name and os.path.exists(os.path.join(TOP, name))]
    return [os.path.relpath(os.path.join(at, name), TOP) for at, folders, names in os.walk(TOP)
            if not {"out", ".git", "__pycache__"} & set(os.path.relpath(at, TOP).split(os.sep)) for name in names]


def clean_copy(program, folder):
    """Lays the files of a clean clone into the folder, and the program, as it is built."""
    for name in files_of_repository():
        path = os.path.join(folder, name)
        os.makedirs(os.path.dirname(path), exist_ok=True)
        shutil.copy2(os.path.join(TOP, name), path)
    out = os.path.join(folder, "crates", "view", "out")
    os.makedirs(out)
    shutil.copy(program, os.path.join(out, "view"))
    if shutil.which("rt"):
        tool = ["python3", os.path.join(folder, "tests", "program.py")]
        tree = subprocess.run([*tool, "tree"], capture_output=True, text=True, check=True).stdout.strip()
        subprocess.run([*tool, "note", tree], check=True)


def as_pattern(lines):
    return "".join("(?:.*\n)*" if line == "..." else re.escape(line) + "\n" for line in lines)


def problems(document, folder):
    """Runs the commands of a document in a clean copy. Without `rt` those that are `make` with a target are left out."""
    home = os.path.join(folder, "home")
    os.makedirs(home, exist_ok=True)
    start = os.path.join(folder, os.path.dirname(document))
    script, wanted = ["exec 2>&1"], []
    for commands in blocks_of(document):
        script.append(f"cd {shlex.quote(start)}")
        for command, lines in commands:
            if shutil.which("rt") or not command.startswith("make "):
                script += [command, f"echo '{END}'"]
                wanted.append((command, lines))
    path = os.path.join(folder, "crates", "view", "out") + ":" + os.environ["PATH"]
    # A make that runs these checks isn't one that the commands know of: theirs would tell of it.
    known = {name: value for name, value in os.environ.items() if name not in ("MAKEFLAGS", "MAKELEVEL", "MFLAGS")}
    environment = {**known, "PATH": path, "HOME": home, "LC_ALL": "C.UTF-8"}
    done = subprocess.run(["bash", "-c", "\n".join(script)], env=environment,
                          stdin=subprocess.DEVNULL, stdout=subprocess.PIPE, timeout=300)
    printed = done.stdout.decode(errors="replace").split(END + "\n")
    for (command, lines), text in zip(wanted, printed):
        if not re.fullmatch(as_pattern(lines), text + ("\n" if text and not text.endswith("\n") else "")):
            yield f"{document}: `{command}` prints {text[:300]!r}"
    if len(printed) != len(wanted) + 1:
        yield f"{document}: the shell ended after {len(printed) - 1} of {len(wanted)} commands"
