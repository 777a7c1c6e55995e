#!/usr/bin/env python3
"""Times the built strictone on folders of growing size, and prints for each the bytes read, the seconds and the peak
memory. It exits 1 where 1,000 modules of 100 lines take more than 15 times what 100 such modules take, or where the
memory beyond what an empty folder takes, mostly that of the trees, is more than 80 times the bytes read."""
import os, subprocess, sys, tempfile, time

TOP = os.path.dirname(os.path.dirname(os.path.abspath(__file__)))
PROGRAM = os.path.join(TOP, "crates", "strictone", "out", "strictone")
LINES = 100


def make(folder, modules, lines):
    for number in range(modules):
        body = "".join(f"NAME_{line} = {line * 1000 + number}\n" for line in range(1, lines))
        with open(os.path.join(folder, f"module_{number:05}.py"), "w") as file:
            file.write("import __strict__\n" + body)
    return sum(entry.stat().st_size for entry in os.scandir(folder))


def measure(folder, runs=5):
    """The least seconds of some runs, and the peak memory in bytes."""
    best, peak = float("inf"), 0
    for _ in range(runs):
        begun = time.perf_counter()
        child = subprocess.Popen([PROGRAM, folder], stdout=subprocess.DEVNULL)
        _, status, usage = os.wait4(child.pid, 0)
        best = min(best, time.perf_counter() - begun)
        peak = max(peak, usage.ru_maxrss * 1024)
        if status:
            sys.exit(f"bench/folders.py: the program ended with {status}")
    return best, peak


subprocess.run([os.path.join(TOP, "run")], stdout=subprocess.DEVNULL, check=False)
seconds, least, wrong = {}, 0, 0
# The last has 1,000,000 lines.
for modules, lines in [(0, LINES), (100, LINES), (300, LINES), (1000, LINES), (1, 10_000), (1, 40_000), (25, 40_000)]:
    with tempfile.TemporaryDirectory() as folder:
        size = make(folder, modules, lines)
        took, peak = measure(folder)
    least = least or peak
    if peak - least > 80 * size:
        wrong += 1
    if lines == LINES:
        seconds[modules] = took
    print(f"{modules:5} modules of {lines:6} lines: {size:9} bytes, {took:8.4f} s, {peak // 1024:7} KiB")
ratio = seconds[1000] / seconds[100]
print(f"bench/folders.py: 1,000 modules take {ratio:.1f} times what 100 take")
sys.exit(1 if wrong or ratio > 15 else 0)
