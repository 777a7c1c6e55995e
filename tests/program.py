#!/usr/bin/env python3
"""Takes strictone and strictload as the gate has built them, or proves and builds them, runs both on folders on disk, and compares the bytes
that they write and their exit status with those that the rules give. Run it with no words. It exits 1 where a row differs.

Rows of two kinds lie beside it. verdicts.txt has a module's text and what is decided of it, with a tab between them. There
the picture of a control character (U+2400 and the 31 behind it) stands for that character, and `~N~TEXT~` for so many times that text.
folders.txt has folders: `== NAME`, `-- file NAME` and the file's lines, `-- report` and its lines, `-- status N`."""
import os, subprocess, sys, tempfile

HERE = os.path.dirname(os.path.abspath(__file__))
TOP = os.path.dirname(HERE)
PROGRAMS = ["strictone", "strictload"]
M = b"import __strict__\n"

# The files of the folder `d`, the words, the bytes on standard output, the exit status.
ROWS = {
    "bytes that are no text": ({"a.py": M + b"\xff\n"}, ["d"], b"module a refused line 2 E01\n", 2),
    "as many modules as are taken": (
        {f"m{n}.py": M for n in range(1000, 2024)},
        ["d"],
        "".join(f"module m{n} published 0\n" for n in range(1000, 2024)).encode(),
        0,
    ),
    "one module more": ({f"m{n}.py": M for n in range(1000, 2025)}, ["d"], b"", 7),
    "as many bytes as are taken": (
        {f"m{n}.py": b"#" * 1_048_576 for n in range(10, 42)},
        ["d"],
        "".join(f"module m{n} plain\n" for n in range(10, 42)).encode(),
        0,
    ),
    "one byte more": ({"a.py": b"#", **{f"m{n}.py": b"#" * 1_048_576 for n in range(10, 42)}}, ["d"], b"", 7),
    "a folder by its path with a slash": ({"a.py": M}, ["./d/"], b"module a published 0\n", 0),
    "two words": ({"a.py": M}, ["d", "e"], b"bad words\n", 3),
    "no words": ({"a.py": M}, [], b"bad words\n", 3),
    "an option": ({"a.py": M}, ["--help"], b"bad words\n", 3),
    "a generated folder": ({"a.py": M}, ["gen:8"], b"bad words\n", 3),
    "a word that isn't UTF-8": ({"a.py": M}, [b"\xff"], b"bad words\n", 3),
    "a folder that isn't there": ({}, ["e"], b"", 4),
    "a name that isn't UTF-8": ({b"\xff.py": M}, ["d"], b"", 4),
}


def lines_of(name):
    with open(os.path.join(HERE, name), encoding="utf-8", newline="\n") as table:
        return table.read().split("\n")


def spelled(cell):
    """What a cell of a table spells."""
    parts = cell.split("~")
    for place in range(1, len(parts) - 1, 3):
        parts[place : place + 2] = ["", parts[place + 1] * int(parts[place])]
    return "".join(chr(ord(c) - 0x2400) if 0x2400 <= ord(c) < 0x2420 else c for c in "".join(parts)).encode()


def verdicts():
    """The rows of verdicts.txt as folders, of many modules each."""
    rows = [line.split("\t") for line in lines_of("verdicts.txt") if "\t" in line]
    for begins in range(0, len(rows), 25):
        files, output = {}, []
        for place, (text, verdict) in enumerate(rows[begins : begins + 25]):
            files[f"r{place:02}.py"] = spelled(text)
            output.append(f"module r{place:02} {verdict}\n")
        status = 2 if any(" refused " in line for line in output) else 0
        yield f"verdicts from row {begins + 1} on", (files, ["d"], "".join(output).encode(), status)


def folders():
    """The rows of folders.txt."""
    for block in "\n".join(lines_of("folders.txt")).split("== ")[1:]:
        name, *parts = block.split("\n-- ")
        files, report = {}, ""
        for part in parts:
            head, _, text = part.partition("\n")
            if head == "report":
                report = text and text + "\n"
            elif head.startswith("status "):
                yield name, (files, ["d"], report.encode(), int(head[7:]))
            else:
                files[head[5:]] = (text and text + "\n").encode()


def path_of(program):
    return os.path.join(TOP, "crates", program, "out", program)


def is_current(path):
    """Whether the program is there and no source is newer, as where the gate has just built it."""
    if not os.path.exists(path):
        return False
    made = os.path.getmtime(path)
    sources = [os.path.join(TOP, "crates.txt")]
    for top, folders, files in os.walk(os.path.join(TOP, "crates")):
        folders[:] = [folder for folder in folders if folder != "out"]
        sources += [os.path.join(top, name) for name in files if name.endswith((".rt", ".antt"))]
    return all(os.path.getmtime(source) <= made for source in sources)


def prove(program):
    """Proves and builds a program, where the one that is there isn't current."""
    path = path_of(program)
    if is_current(path):
        return
    if os.path.exists(path):
        os.remove(path)
    crate = os.path.join(TOP, "crates", program)
    done = subprocess.run(["rt", "run", "--"], cwd=crate, stdin=subprocess.DEVNULL, stdout=subprocess.PIPE, stderr=subprocess.STDOUT)
    if not os.path.exists(path):
        sys.exit(done.stdout.decode() + f"tests/program.py: {program} isn't proved")


def make(top, files):
    os.mkdir(os.path.join(top, "d"))
    os.mkdir(os.path.join(top, "d", "inner.py"))
    for name, data in files.items():
        with open(os.path.join(os.fsencode(top), b"d", os.fsencode(name)), "wb") as file:
            file.write(data)


def differs(name, got, want):
    if got == want:
        return 0
    print(f"{name}: wanted {want!r}, got {got!r}")
    return 1


def run(program, top, words, stdout):
    done = subprocess.run([path_of(program), *words], cwd=top, stdin=subprocess.DEVNULL, stdout=stdout, stderr=subprocess.PIPE)
    return done.stdout, done.returncode, done.stderr


def wrong_rows(program, rows):
    """How many rows the program gets wrong."""
    wrong = 0
    for name, (files, words, output, status) in rows.items():
        with tempfile.TemporaryDirectory() as top:
            make(top, files)
            wrong += differs(f"{program}: {name}", run(program, top, words, subprocess.PIPE), (output, status, b""))
    with open(os.path.join(TOP, "examples", "service.txt"), "rb") as report:
        got = run(program, TOP, ["examples/service"], subprocess.PIPE)
        wrong += differs(f"{program}: examples/service", got, (report.read(), 2, b""))
    with tempfile.TemporaryDirectory() as top:
        make(top, {"a.py": M})
        with open("/dev/full", "wb") as full:
            wrong += differs(f"{program}: a full output", run(program, top, ["d"], full), (None, 5, b""))
        reader, writer = os.pipe()
        os.close(reader)
        wrong += differs(f"{program}: a closed output", run(program, top, ["d"], writer), (None, 5, b""))
        os.close(writer)
    return wrong


wrong, rows = 0, {**ROWS, **dict(verdicts()), **dict(folders())}
for program in PROGRAMS:
    prove(program)
    wrong += wrong_rows(program, rows)
print(f"tests/program.py: {len(PROGRAMS) * (len(rows) + 3) - wrong} rows as they must be, {wrong} not")
sys.exit(1 if wrong else 0)
