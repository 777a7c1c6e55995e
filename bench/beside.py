#!/usr/bin/env python3
"""Times the built strictone, or the programs given, beside each other on folders whose imports, classes or lines are many. They run in turn,
each five times, or fewer times once its runs took half a minute. It prints a row of a table for each folder: of each program the least
seconds of the processor in user mode, and the least of the peaks of memory in MiB. It exits 1 where a run ends by a signal. `--only WORD`
takes the folders whose titles have the word."""
import argparse, itertools, os, string, subprocess, sys, tempfile

TOP = os.path.dirname(os.path.dirname(os.path.abspath(__file__)))
GREATEST = 1 << 20
RUNS, ENOUGH = 5, 30
LETTERS = string.ascii_letters + string.digits


def write(folder, name, text):
    with open(os.path.join(folder, name + ".py"), "w") as file:
        file.write("import __strict__\n" + text)


def spelled(number):
    """A short name for each number."""
    name = ""
    while True:
        number, letter = divmod(number, len(LETTERS))
        name = LETTERS[letter] + name
        if not number:
            return "v" + name


def all_before(folder):
    for number in range(1024):
        write(folder, f"m{number:04}", "".join(f"import m{before:04}\n" for before in range(number)) + f"A = {number}\n")


def names_taken(count, globals_there, modules=1):
    """A module with so many globals, and so many that take so many names from it, in turn."""

    def make(folder):
        names = [spelled(number) for number in range(globals_there)]
        write(folder, "a_module", "".join(f"{name} = 1\n" for name in names))
        for number in range(modules):
            write(folder, f"m{number}", "from a_module import " + ",".join(itertools.islice(itertools.cycle(names), count)) + "\n")

    return make


def same_name(is_there):
    def make(folder):
        write(folder, "m", "import " + ", ".join(["q"] * ((GREATEST - 64) // 3)) + "\n")
        if is_there:
            write(folder, "q", "A = 1\n")

    return make


def chain(count, member):
    """So many classes, each below the one before, with a member each."""

    def make(folder):
        rows = (f"class C{n}{f'(C{n - 1})' if n else ''}:\n {member.replace('#', str(n))}\n" for n in range(count))
        text = "".join(rows)
        assert len(text) < GREATEST - 64
        write(folder, "m", text)

    return make


def lines(modules, count):
    def make(folder):
        for number in range(modules):
            write(folder, f"m{number:04}", "".join(f"NAME_{n} = {n}\n" for n in range(1, count)))

    return make


FIELD, METHOD = "f#: int", "def f#(self): pass"
FOLDERS = [
    ("1,024 modules, each imports all before it", all_before),
    ("20,000 names taken from one module", names_taken(20_000, 20_000)),
    ("40,000 names taken from one module", names_taken(40_000, 40_000)),
    ("200,000 names taken from one module, 49,990 by each of four", names_taken(49_990, 49_990, 4)),
    ("200,000 names taken from one module, each of 40,000 five times", names_taken(200_000, 40_000)),
    ("`import q, q, ..` over 1 MiB, q in the folder", same_name(True)),
    ("`import q, q, ..` over 1 MiB, q in no folder", same_name(False)),
    *((f"a chain of {count:,} classes with a field each", chain(count, FIELD)) for count in (2_000, 4_000, 8_000, 30_000)),
    *((f"a chain of {count:,} classes with a method each", chain(count, METHOD)) for count in (2_000, 4_000, 8_000, 22_000)),
    ("25 modules of 40,000 lines `NAME_i = i`", lines(25, 40_000)),
    ("1,000 modules of 100 lines", lines(1_000, 100)),
]


def run(program, folder):
    child = subprocess.Popen([program, folder], stdout=subprocess.DEVNULL)
    _, status, used = os.wait4(child.pid, 0)
    if os.waitstatus_to_exitcode(status) < 0:
        sys.exit(f"bench/beside.py: {program} ended by a signal")
    return used.ru_utime, used.ru_maxrss / 1024


def least(programs, folder):
    """The least seconds and memory of each program."""
    measured = [[] for _ in programs]
    for _ in range(RUNS):
        for program, runs in zip(programs, measured):
            if sum(seconds for seconds, _ in runs) < ENOUGH:
                runs.append(run(program, folder))
    return [tuple(map(min, zip(*runs))) for runs in measured]


parser = argparse.ArgumentParser(description=__doc__)
parser.add_argument("programs", nargs="*", default=[os.path.join(TOP, "crates", "strictone", "out", "strictone")])
parser.add_argument("--only", default="")
words = parser.parse_args()
for title, make in FOLDERS:
    if words.only in title:
        with tempfile.TemporaryDirectory() as folder:
            make(folder)
            cells = [f"{seconds:.2f} s | {memory:.0f} MiB" for seconds, memory in least(words.programs, folder)]
        print(f"| {title} | {' | '.join(cells)} |", flush=True)
