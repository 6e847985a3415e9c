"""A workspace of its own, in a temporary folder, for the program of `encode.rt.txt` over the crates
of this repository: `checks/encoders` tries it there, and `bench/encode` builds it. Nothing is
written into the checkout."""

import os
import re
import shutil
import subprocess
from concurrent.futures import ThreadPoolExecutor

HERE = os.path.dirname(os.path.abspath(__file__))
TOP = os.path.dirname(HERE)
NAME = "encode"
BELOW = ["enc_front", "enc_drivers", "enc_handles"]


def lines_of(path):
    """The lines of crates.txt by crate."""
    with open(path, encoding="utf-8") as file:
        lines = [line.strip() for line in file if line.strip() and not line.startswith("#")]
    return {re.split(r"[\s:]", line)[0]: line for line in lines}


def needed(lines, names):
    """The crates that these stand on, themselves too, of those that crates.txt names."""
    found = []
    for name in names:
        if name in lines and name not in found:
            below = lines[name].partition(":")[2].split()
            found += [other for other in [*needed(lines, below), name] if other not in found]
    return found


def make(folder, with_built=False):
    """Makes the workspace, and answers the program's folder. What is built of the crates is taken
    along only where it is asked for."""
    lines = lines_of(os.path.join(TOP, "crates.txt"))
    crates = needed(lines, BELOW)
    for crate in crates:
        source = os.path.join(TOP, "crates", crate)
        parts = ["src", "specs", "proofs"] + ["out/rlib"] * with_built
        for part in parts:
            if os.path.isdir(os.path.join(source, part)):
                shutil.copytree(os.path.join(source, part), os.path.join(folder, "crates", crate, part))
    shutil.copy(os.path.join(TOP, "HANDLES"), folder)
    with open(os.path.join(folder, "crates.txt"), "w", encoding="utf-8") as file:
        for crate in crates:
            file.write(lines[crate] + "\n")
        file.write("%s: %s\n" % (NAME, " ".join(BELOW)))
    program = os.path.join(folder, "crates", NAME)
    os.makedirs(os.path.join(program, "src"))
    shutil.copy(os.path.join(HERE, "encode.rt.txt"), os.path.join(program, "src", "main.rt"))
    return program


def try_cases(program, cases, data):
    """Compiles the program without proofs and runs it on each case of a folder, with these files by
    name: the status, the output of each case, which ends with LF, and what was said."""
    words = ["rt", "try", "--cases", cases]
    for name, path in data.items():
        words += ["--data", "%s=%s" % (name, path)]
    done = subprocess.run(words, cwd=program, stdin=subprocess.DEVNULL, capture_output=True, check=False)
    parts = re.split(rb"(?m)^== ([\w.-]+)\n", done.stdout)[1:]
    outputs = {name.decode(): output for name, output in zip(parts[::2], parts[1::2])}
    return done.returncode, outputs, done.stderr.decode(errors="replace")


def try_side_by_side(program, folders, data):
    """As `try_cases`, each folder at the same time: the first status that isn't 0, with what was said
    there, and all outputs."""
    with ThreadPoolExecutor(len(folders)) as pool:
        tries = list(pool.map(lambda cases: try_cases(program, cases, data), folders))
    outputs = {name: output for _, some, _ in tries for name, output in some.items()}
    status, said = next(((status, said) for status, _, said in tries if status), (0, ""))
    return status, outputs, said


def build(program):
    """Proves and links the program, and answers its path, or none, and what was said."""
    words = ["rt", "run", "--", "windows-1252", "utf8", "1"]
    done = subprocess.run(words, cwd=program, stdin=subprocess.DEVNULL, capture_output=True, check=False)
    made = os.path.join(program, "out", NAME)
    said = done.stderr.decode(errors="replace")
    return made if done.returncode == 0 and os.access(made, os.X_OK) else None, said
