#!/usr/bin/env python3
"""Times the built strictone on 1,000 modules of 100 assignments, and CPython as it imports the same files in a new process: the best of
five runs of each, in turn. Of strictone the whole process counts, of CPython the imports alone, and neither writes a file. It prints
both and their ratio, and exits 1 where strictone takes more than twice as long."""
import os, subprocess, sys, tempfile, time

TOP = os.path.dirname(os.path.dirname(os.path.abspath(__file__)))
PROGRAM = os.path.join(TOP, "crates", "strictone", "out", "strictone")
MODULES = 1000
RUNS = 5
IMPORTS = """
import sys, time
sys.dont_write_bytecode = True
sys.path[:0] = sys.argv[1:3]
begun = time.perf_counter()
for number in range(int(sys.argv[3])):
    __import__(f"module_{number:04}")
print(time.perf_counter() - begun)
"""


def make(folder):
    """The modules. Each tenth imports the one before it."""
    body = "".join(f"NAME_{n} = {n}\n" for n in range(100))
    for number in range(MODULES):
        before = f"import module_{number - 1:04}\n" if number % 10 == 9 else ""
        with open(os.path.join(folder, f"module_{number:04}.py"), "w") as file:
            file.write("import __strict__\n" + before + body)


def strictone(folder):
    begun = time.perf_counter()
    done = subprocess.run([PROGRAM, folder], stdout=subprocess.PIPE)
    took = time.perf_counter() - begun
    if done.returncode or done.stdout.count(b" published 10") != MODULES:
        sys.exit("bench/imports.py: not every module is published")
    return took


def cpython(folder, markers):
    words = [sys.executable, "-I", "-c", IMPORTS, folder, markers, str(MODULES)]
    return float(subprocess.run(words, stdout=subprocess.PIPE, check=True).stdout)


subprocess.run([os.path.join(TOP, "run")], stdout=subprocess.DEVNULL, check=False)
with tempfile.TemporaryDirectory() as folder, tempfile.TemporaryDirectory() as markers:
    make(folder)
    # What the markers import in CPython.
    open(os.path.join(markers, "__strict__.py"), "w").close()
    runs = [(strictone(folder), cpython(folder, markers)) for _ in range(RUNS)]
ours, theirs = map(min, zip(*runs))
print(f"bench/imports.py: strictone {ours:.3f} s, CPython {theirs:.3f} s, {ours / theirs:.2f} times")
sys.exit(1 if ours > 2 * theirs else 0)
