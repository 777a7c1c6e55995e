#!/usr/bin/env python3
"""Runs the built strictone on files of CPython's standard library, read where it lies, with a marker put before each. It prints how often
each verdict comes, and exits 1 where the program doesn't write one line for each file in order. Where the library is missing, it says so."""
import collections, os, re, subprocess, sys, sysconfig, tempfile

TOP = os.path.dirname(os.path.dirname(os.path.abspath(__file__)))
PROGRAM = os.path.join(TOP, "crates", "strictone", "out", "strictone")
MOST_FILES, MOST_BYTES = 1024, 33_554_432
LINE = re.compile(r"module (\w+) (published|plain|refused)(?: \d+| line \d+ (\w+)|)")


def library():
    """The library's files, by the names under which they are laid flat."""
    top = sysconfig.get_paths()["stdlib"]
    found = {}
    for folder, inner, files in os.walk(top):
        inner[:] = [name for name in inner if name not in ("site-packages", "__pycache__")]
        for file in files:
            stem, ending = os.path.splitext(os.path.relpath(os.path.join(folder, file), top))
            name = "lib_" + stem.replace(os.sep, "_")
            if ending == ".py" and name.isascii() and name.isidentifier():
                found[name] = os.path.join(folder, file)
    return sorted(found.items())


def lay(folder):
    """Lays the first files into the folder, as many as it may have, and answers their names."""
    names, room = [], MOST_BYTES
    for name, path in library()[:MOST_FILES]:
        with open(path, "rb") as file:
            data = b"import __strict__\n" + file.read()
        room -= min(len(data), 1_048_577)
        if room < 0:
            break
        names.append(name)
        with open(os.path.join(folder, name + ".py"), "wb") as file:
            file.write(data)
    return names


subprocess.run([os.path.join(TOP, "run")], stdout=subprocess.DEVNULL, check=False)
with tempfile.TemporaryDirectory() as folder:
    names = lay(folder)
    if not names:
        print("bench/stdlib.py: skipped, since this Python has no standard library in files")
        sys.exit(0)
    done = subprocess.run([PROGRAM, folder], stdout=subprocess.PIPE, stderr=subprocess.PIPE)
lines = [LINE.fullmatch(line) for line in done.stdout.decode().splitlines()]
for verdict, count in collections.Counter(line[3] or line[2] for line in lines if line).most_common():
    print(f"{verdict:9} {count:5}")
right = done.returncode in (0, 2) and not done.stderr and [line and line[1] for line in lines] == names
print(f"bench/stdlib.py: {len(names)} files, {'a verdict for each' if right else f'wrong lines, status {done.returncode}'}")
sys.exit(0 if right else 1)
