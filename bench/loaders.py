#!/usr/bin/env python3
"""Times strictload by 1, 2 and 4 loaders, and strictone beside it, on 1,024 modules of 200 lines: the four take turns, and the table has the
least milliseconds of so many runs of each. In the first folder no module imports another, in the second each imports the one at half its
number. It builds strictload for each number of loaders over a copy of the crates that it needs, and compares what the programs write."""
import os, subprocess, sys, tempfile, time
from measuring import TOP, build

MODULES, LINES, RUNS = 1024, 200, 7
COUNTS = [1, 2, 4]
ALONE = os.path.join(TOP, "crates", "strictone", "out", "strictone")


def below(crate):
    """The crates that it stands on, from below."""
    rows = {}
    with open(os.path.join(TOP, "crates.txt")) as file:
        for line in file:
            head, _, deps = line.partition(":")
            if head.strip() and not head.startswith("#"):
                rows[head.split()[0]] = deps.split()
    found = []

    def visit(name):
        for dep in rows[name]:
            if dep in rows and dep not in found:
                visit(dep)
                found.append(dep)

    visit(crate)
    return found


def built(room, loaders):
    """strictload by so many loaders, built."""
    with open(os.path.join(TOP, "crates", "strictload", "src", "main.rt")) as file:
        text = file.read()
    name, line = f"loaders_{loaders}", "const LOADERS: u32 = 4;"
    if text.count(line) != 1:
        sys.exit(f"bench/loaders.py: strictload has no line '{line}'")
    top = os.path.join(room, name)
    os.mkdir(top)
    crate = build(top, name, text.replace(line, f"const LOADERS: u32 = {loaders};"), below("strictload"), {})
    done = subprocess.run(["rt", "run", "--", "-"], cwd=crate, stdin=subprocess.DEVNULL, stdout=subprocess.PIPE, stderr=subprocess.STDOUT, text=True)
    program = os.path.join(crate, "out", name)
    if not os.path.exists(program):
        sys.exit(done.stdout + f"bench/loaders.py: strictload by {loaders} isn't proved")
    return program


def make(folder, imports):
    for number in range(MODULES):
        head = f"import module_{number // 2:04}\n" if imports and number else "VALUE = 0\n"
        body = "".join(f"NAME_{line} = {line * 1000 + number}\n" for line in range(2, LINES))
        with open(os.path.join(folder, f"module_{number:04}.py"), "w") as file:
            file.write("import __strict__\n" + head + body)


def measure(programs, folder):
    """The least milliseconds of each program, which take turns."""
    least, wanted = {name: float("inf") for name in programs}, None
    for _ in range(RUNS):
        for name, program in programs.items():
            begun = time.perf_counter()
            done = subprocess.run([program, folder], stdout=subprocess.PIPE)
            least[name] = min(least[name], (time.perf_counter() - begun) * 1000)
            wanted = wanted or done.stdout
            if done.returncode or done.stdout != wanted:
                sys.exit(f"bench/loaders.py: {name} ended with {done.returncode}, or wrote something else")
    return least


if not os.path.exists(ALONE):
    sys.exit("bench/loaders.py: strictone isn't proved and built")
with tempfile.TemporaryDirectory() as room:
    programs = {"strictone": ALONE, **{f"{count} loaders": built(room, count) for count in COUNTS}}
    print("| folder | " + " | ".join(programs) + " |")
    print("|---" * (len(programs) + 1) + "|")
    for label, imports in [("no imports", False), ("each imports the one at half its number", True)]:
        with tempfile.TemporaryDirectory() as folder:
            make(folder, imports)
            least = measure(programs, folder)
        print(f"| {label} | " + " | ".join(f"{least[name]:.0f} ms" for name in programs) + " |")
