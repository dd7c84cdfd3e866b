#!/usr/bin/env python3
"""Checks that the documents name what is there: each definition of docs/definitions.md stands in the file beside it, each name
in docs/proofs.md is that of a crate, a module, a type, a function or a clause, docs/architecture.md has each crate, and all
of them name files and targets of `make` that are there.

Checks too that docs/definitions.md is whole. A page of definitions is on it, or says in its first line that it is for proofs and
inner functions. No page on it, and no clause of a function that docs/proofs.md names, cites a page of the latter kind.

Checks too that links lead somewhere; that the manual page is well formed, as far as a tool for that is there, and has each
command; that `examples/report` has words for each fault of a subtree file; and that each block of commands in `README.md` and in
the examples prints what it shows, where the program is built of this very tree and `--texts` isn't given.

Usage: documents.py [--texts]"""
import glob
import itertools
import os
import re
import shutil
import subprocess
import sys
import tempfile

import blocks

TOP = os.path.dirname(os.path.dirname(os.path.abspath(__file__)))
ITEM = r"\b(?:fn|mod|struct|enum|trait|type|ensures|requires)\s+(\w+)|\b(?:ghost|const)\s+(\w+)"
QUOTED = re.compile(r"`([^`]*)`")
INNER = "-- For proofs and inner functions: "
CITED = re.compile(r"use Rattle\.(\w+)\.specs\.(\w+)\.\{([^}]*)\}")
FUNCTION = re.compile(r"(?:pub(?:\(crate\))? )?(?:const |unsafe )*fn (\w+)")
WORD = re.compile(r"[A-Za-z_][\w'-]*")
DOCUMENTS = ("README.md", "CONTRIBUTING.md", "docs/*.md", "examples/*/README.md")
# A path from the top, or one that begins with a crate, as the pages of definitions and proofs have them.
PATH = re.compile(r"(?:[\w.]+/)+[\w.,{}/]*")


def read(path):
    with open(path, encoding="utf-8") as file:
        return file.read()


def rows(document):
    """The cells of each row of the document's tables."""
    for line in read(os.path.join(TOP, "docs", document)).splitlines():
        if line.startswith("|") and not set(line) <= set("|-"):
            yield [cell.strip() for cell in line.strip("|").split("|")]


def expanded(path):
    """The paths that a path with alternatives in braces names."""
    parts = [part.split(",") for part in re.split(r"\{([^}]*)\}", path)]
    parts[::2] = [[",".join(part)] for part in parts[::2]]
    return ["".join(choice) for choice in itertools.product(*parts)]


def missing_definitions():
    for cells in list(rows("definitions.md"))[1:]:
        paths = [path for quoted in QUOTED.findall(cells[1]) for path in expanded(quoted)]
        files = [os.path.join(TOP, "crates", path) for path in paths]
        for file in (file for file in files if not os.path.exists(file)):
            yield f"definitions.md: no file {os.path.relpath(file, TOP)}"
        text = "\n".join(read(file) for file in files if os.path.exists(file))
        for name in QUOTED.findall(cells[0]):
            if not re.search(rf"(?<![\w-]){re.escape(name)}(?![\w-])", text):
                yield f"definitions.md: {name} isn't in {cells[1]}"


def known_names():
    names = {"tileset.json", "S", "K", "I", "O"}
    for path in glob.glob(os.path.join(TOP, "crates", "*", "src", "**", "*.rt"), recursive=True):
        names.update(name for found in re.findall(ITEM, read(path)) for name in found if name)
    return names | set(os.listdir(os.path.join(TOP, "crates")))


def unknown_names():
    known = known_names()
    for name in QUOTED.findall(read(os.path.join(TOP, "docs", "proofs.md"))):
        for part in name.split("::"):
            if part not in known:
                yield f"proofs.md: {name} is nothing in the crates"


def pages():
    """The pages of definitions, by crate and name, with their text."""
    for path in glob.glob(os.path.join(TOP, "crates", "*", "specs", "*.antt")):
        crate, _, name = os.path.relpath(path, os.path.join(TOP, "crates"))[: -len(".antt")].split(os.sep)
        if name != "Lib":
            yield (crate, name), read(path)


def cited_pages(text, words=None):
    """The pages that a text imports names from: any name, or one of the words."""
    for crate, page, names in CITED.findall(text):
        if words is None or any(name.split(" as ")[-1].strip() in words for name in names.split(",")):
            yield crate, page


def listed_pages():
    for cells in rows("definitions.md"):
        for quoted in QUOTED.findall(cells[1]):
            for path in expanded(quoted):
                found = re.fullmatch(r"(\w+)/specs/(\w+)\.antt", path)
                if found:
                    yield found.groups()


def claimed_functions():
    """The names of functions in docs/proofs.md, by the crate that stands last before each."""
    crates = set(os.listdir(os.path.join(TOP, "crates")))
    for cells in rows("proofs.md"):
        crate = None
        for part in (part for name in QUOTED.findall(cells[-1]) for part in name.split("::")):
            if part in crates:
                crate = part
            else:
                yield crate, part


def contracts(text):
    """Each function of a source file, with the words of its contract."""
    name, words = None, []
    for line in (line.strip() for line in text.splitlines()):
        found = FUNCTION.match(line)
        if found:
            name, words = found.group(1), []
        if name and not line.startswith("//"):
            words += WORD.findall(line)
            ends_here = line.endswith((";", "{")) and not line.startswith(("ensures", "requires"))
            if ends_here:
                yield name, set(words)
                name = None


def incomplete_definitions():
    all_pages = dict(pages())
    listed = set(listed_pages())
    inner = {page for page, text in all_pages.items() if text.startswith(INNER)}
    for page in sorted(set(all_pages) - listed - inner):
        yield f"definitions.md: {'/'.join(page)} is neither on it nor a page for proofs and inner functions"
    for page in sorted(listed & inner):
        yield f"definitions.md: {'/'.join(page)} says that it is for proofs and inner functions"
    for page in sorted(listed & set(all_pages)):
        for cited in sorted(set(cited_pages(all_pages[page])) & inner):
            yield f"definitions.md: {'/'.join(page)} cites {'/'.join(cited)}, which is for proofs and inner functions"
    claimed = set(claimed_functions())
    for path in glob.glob(os.path.join(TOP, "crates", "*", "src", "**", "*.rt"), recursive=True):
        crate = os.path.relpath(path, os.path.join(TOP, "crates")).split(os.sep)[0]
        text = read(path)
        for function, words in contracts(text):
            if (crate, function) in claimed or (None, function) in claimed:
                for cited in sorted(set(cited_pages(text, words)) & inner):
                    yield f"proofs.md: {crate}, {function} cites {'/'.join(cited)}, which is for proofs and inner functions"


def unknown_crates():
    """Crates that the page of the architecture leaves out, and those that it has and that aren't there."""
    named = set(re.findall(r"\*\*`(\w+)`\*\*", read(os.path.join(TOP, "docs", "architecture.md"))))
    there = set(os.listdir(os.path.join(TOP, "crates")))
    for name in sorted(named ^ there):
        yield f"architecture.md: {name} is {'in no paragraph' if name in there else 'no crate'}"


def documents():
    for pattern in DOCUMENTS:
        for path in sorted(glob.glob(os.path.join(TOP, pattern))):
            yield os.path.relpath(path, TOP), read(path)


def missing_files():
    """Quoted paths to nothing. Words in capitals stand for a name of the reader's choice, and out/ is made."""
    tops = set(os.listdir(TOP)) | set(os.listdir(os.path.join(TOP, "crates")))
    for document, text in documents():
        for quoted in QUOTED.findall(text):
            if not PATH.fullmatch(quoted) or quoted.split("/")[0] not in tops or "out" in quoted.split("/") or re.search(r"\b[A-Z]+\b", quoted):
                continue
            for path in expanded(quoted):
                if not any(os.path.exists(os.path.join(TOP, top, path)) for top in ("", "crates")):
                    yield f"{document}: no file {path}"


def missing_links():
    """Links and pictures of a document to no file, and links to no heading of it."""
    for document, text in documents():
        headings = {re.sub(r"[^\w -]", "", line.lstrip("# ").lower()).replace(" ", "-") for line in text.splitlines() if line.startswith("#")}
        for link in re.findall(r'\]\(([^)\s]+)\)|src="([^"]+)"', text):
            path, _, heading = (link[0] or link[1]).partition("#")
            if heading and heading not in headings or not os.path.exists(os.path.join(TOP, os.path.dirname(document), path)):
                yield f"{document}: a link to nothing, {path or heading}"


def unknown_targets():
    targets = set(re.findall(r"(?m)^([\w-]+):", read(os.path.join(TOP, "Makefile"))))
    for document, text in documents():
        for name in re.findall(r"(?:^|`)make ([\w-]+)", text, re.M):
            if name not in targets:
                yield f"{document}: make {name} is no target"


def faults_of_the_page():
    """What the first of these tools that is there says of the manual page."""
    page = os.path.join(TOP, "docs", "view.1")
    environment = {**os.environ, "MANPAGER": "cat", "LC_ALL": "C.UTF-8"}
    for tool in (["mandoc", "-T", "lint"], ["man", "--warnings", "-l"], ["groff", "-mandoc", "-ww", "-z"]):
        if shutil.which(tool[0]):
            done = subprocess.run([*tool, page], capture_output=True, text=True, env=environment)
            said = (done.stdout if tool[0] == "mandoc" else "") + done.stderr
            yield from (f"view.1: {line}" for line in said.splitlines())
            break
    text = read(page)
    for name in re.findall(r"^\| `view (\w+)", read(os.path.join(TOP, "README.md")), re.M):
        if f".Cm {name}" not in text:
            yield f"view.1: the command {name} isn't in it"


def faults_without_words():
    """Faults of a subtree file that examples/report has no words for, and such that are no faults."""
    table = read(os.path.join(TOP, "docs", "faults.md")).partition("## Subtree files")[2]
    numbers = set(re.findall(r"^\| (\d+) \|", table, re.M))
    worded = set(re.findall(r"^    (\d+): \(", read(os.path.join(TOP, "examples", "report", "report")), re.M))
    for number in sorted(numbers ^ worded, key=int):
        yield f"examples/report: fault {number} is {'without words' if number in numbers else 'no fault'}"


def unlisted_examples():
    front = read(os.path.join(TOP, "README.md"))
    for folder in sorted(glob.glob(os.path.join(TOP, "examples", "*", ""))):
        name = os.path.relpath(folder, TOP)
        if os.path.basename(name) != "__pycache__" and (f"`{name}`" not in front or not os.path.exists(os.path.join(folder, "README.md"))):
            yield f"{name}: it has no README.md, or the front page hasn't it"


def is_built():
    """Whether the program of this very tree is there."""
    words = [sys.executable, os.path.join(TOP, "tests", "program.py"), "is-current"]
    return shutil.which("rt") is not None and subprocess.run(words).returncode == 0


def faults_of_blocks(texts_alone):
    count = sum(len(commands) for document in blocks.documents() for commands in blocks.blocks_of(document))
    program = os.path.join(TOP, "crates", "view", "out", "view")
    if texts_alone or not is_built():
        print(f"documents: {count} commands were not run" + ("" if texts_alone else ", since the program isn't built of this tree"))
        return
    with tempfile.TemporaryDirectory(prefix="view-documents-") as folder:
        blocks.clean_copy(program, folder)
        for document in blocks.documents():
            yield from blocks.problems(document, folder)
    print(f"documents: {count} commands were run")


if sys.argv[1:] not in ([], ["--texts"]):
    sys.exit(__doc__)
problems = [
    *missing_definitions(), *incomplete_definitions(), *unknown_names(), *unknown_crates(), *missing_files(), *missing_links(),
    *unknown_targets(), *unlisted_examples(), *faults_of_the_page(), *faults_without_words(),
    *faults_of_blocks(sys.argv[1:] == ["--texts"])
]
for problem in problems:
    print(f"FAILED {problem}")
print(f"documents: {len(problems)} problems")
sys.exit(1 if problems else 0)
