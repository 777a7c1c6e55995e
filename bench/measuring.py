"""Builds a program over copies of the crates that it needs, and runs it."""
import os, shutil, subprocess, tempfile

TOP = os.path.dirname(os.path.dirname(os.path.abspath(__file__)))


def build(room, name, program, below, proofs):
    """The program's crate with what its proof needs, by paths, beside copies of those that it stands on."""
    for crate in below:
        shutil.copytree(os.path.join(TOP, "crates", crate), os.path.join(room, "crates", crate), ignore=shutil.ignore_patterns("incremental"))
    with open(os.path.join(TOP, "crates.txt")) as file:
        lines = [line for line in file if line.split(":")[0] in below]
    with open(os.path.join(room, "crates.txt"), "w") as file:
        file.writelines([*lines, f"{name}: {' '.join(below)} sqlite_items\n"])
    crate = os.path.join(room, "crates", name)
    for path, text in {"src/main.rt": program, **proofs}.items():
        os.makedirs(os.path.dirname(os.path.join(crate, path)), exist_ok=True)
        with open(os.path.join(crate, path), "w") as file:
            file.write(text)
    return crate


def printed(name, program, below, text, proofs={}):
    """What the program prints when it reads the text."""
    with tempfile.TemporaryDirectory() as room:
        crate = build(room, name, program, below, proofs)
        return subprocess.run(["rt", "run"], cwd=crate, input=text, stdout=subprocess.PIPE, stderr=subprocess.STDOUT, text=True).stdout
