"""The files of definitions that the clauses of the program's `run` reach, from the sources: those that
the `ghost use` lines of `run`'s file name, those that the `use` lines of these name, and so on, as far
as they stand in specs/ of a crate that crates.txt lists. Their lines are counted without comments,
blank lines and imports. The list stands in docs/DEFINITIONS.md between two markers, lowest files first:
each file behind those that it names. `definitions.py` compares it, `definitions.py --write` writes it."""

import re
import sys
from pathlib import Path

TOP = Path(__file__).resolve().parent.parent
PAGE = TOP / "docs" / "DEFINITIONS.md"
RUN = TOP / "crates" / "unwrap" / "src" / "run.rt"
BEGIN = "<!-- checks/definitions writes what follows -->"
END = "<!-- checks/definitions wrote what stands above -->"


def crates():
    """The crates of crates.txt, each behind those that it stands on."""
    lines = (TOP / "crates.txt").read_text().splitlines()
    lines = [line.partition(":") for line in lines if ":" in line and not line.startswith("#")]
    below = {name.split()[0]: others.split() for name, _, others in lines}
    found = []

    def add(name):
        if name in below and name not in found:
            for other in below[name]:
                add(other)
            found.append(name)

    for name in below:
        add(name)
    return found


CRATES = crates()
# Files that hold how a value of the code stands between two calls, beside or in place of what an input
# means: what stands there. Where none of them is reached any more, a reader of the clauses of `run` has
# to believe nothing of the code's states.
STATES = {
    "enc_drivers/Steps": "what a driver's look at the front of bytes answers",
    "enc_drivers/Resume": "a driver's standing and its resume equation, beside the text of units",
    "enc_front/Decoder": "a decoder's place and standing, and the text that is still to come",
    "enc_front/DecoderCalls": "what a decoder's calls do to its standing",
    "enc_io/Peeker": "a peeker's standing and its calls, beside the bytes behind a mark",
    "enc_io/Reader": "a reader's standing, and the text that it has still to give",
    "enc_io/ReaderCalls": "what a reader's calls do to its standing",
    "words/Tokens": "tokens and their errors as the code has them, beside tokens of a reading",
    "unwrap/Copies": "how a copy leaves a reader",
    "unwrap/Streams": "how a stream leaves a reader, beside how `text` ends",
    "unwrap/Unwraps": "how a header's reader ends, beside how `unwrap` ends",
}


def file_of(path):
    """The file of specs/ that an import names, if it stands in the repository."""
    parts = path.split(".")
    if len(parts) < 4 or parts[0] != "Rattle" or parts[1] not in CRATES or parts[2] != "specs":
        return None
    for length in range(len(parts), 3, -1):
        file = (TOP / "crates" / parts[1] / "specs").joinpath(*parts[3:length]).with_suffix(".antt")
        if file.is_file():
            return file
    return None


def named(file):
    """The files of definitions that a file's imports name, in their order."""
    text = re.sub(r"--[^\n]*|//[^\n]*", "", file.read_text())
    words = re.findall(r"^\s*(?:pub )?(?:ghost )?use\s+([\w.]+)", text, re.M)
    found = dict.fromkeys(filter(None, map(file_of, words)))
    return [other for other in found if other != file]


def lines_of(file):
    """How many lines of a file define something: no comments, blank lines, imports."""
    text = re.sub(r"\{-.*?-\}", "", file.read_text(), flags=re.S)
    text = re.sub(r"^\s*(?:pub )?use [\w.]+(?:\.\{[^}]*\})?[^\n]*$", "", text, flags=re.M)
    return sum(1 for line in text.splitlines() if line.strip() and not line.strip().startswith("--"))


def in_reading_order():
    """All that `run` reaches, each behind those that it names."""
    found, open_ = [], set()

    def visit(file):
        if file in found or file in open_:
            return
        open_.add(file)
        for other in sorted(named(file), key=lambda one: (CRATES.index(crate_of(one)), str(one))):
            visit(other)
        found.append(file)

    for file in sorted(named(RUN), key=lambda one: (CRATES.index(crate_of(one)), str(one))):
        visit(file)
    return sorted(found, key=lambda one: CRATES.index(crate_of(one)))


def crate_of(file):
    return file.relative_to(TOP / "crates").parts[0]


def name_of(file):
    return str(file.relative_to(TOP / "crates" / crate_of(file) / "specs").with_suffix(""))


def wrapped(words, width=100):
    lines, line = [], ""
    for word in words:
        if line and len(line) + len(word) + 1 > width:
            lines.append(line)
            line = ""
        line += (" " if line else "") + word
    return lines + [line]


def text_of(files):
    lines = [BEGIN, ""]
    total = sum(map(lines_of, files))
    lines += [f"{len(files)} files, {total} lines.", ""]
    for crate in CRATES:
        own = [file for file in files if crate_of(file) == crate]
        if own:
            names = [f"`{name_of(file)}` {lines_of(file)}," for file in own]
            names[-1] = names[-1].rstrip(",") + "."
            lines += wrapped([f"**{crate}**:", *names]) + [""]
    shown = {crate_of(file) + "/" + name_of(file): lines_of(file) for file in files}
    held = [(name, what) for name, what in STATES.items() if name in shown]
    if held:
        count = sum(shown[name] for name, _ in held)
        lines += [f"Of these, {len(held)} with {count} lines also hold how a value of the code stands:", ""]
        lines += ["| file | what stands there |", "|---|---|"]
        lines += [f"| `{name}` | {what} |" for name, what in held] + [""]
    return "\n".join(lines + [END]), total


def main():
    files = in_reading_order()
    wanted, total = text_of(files)
    text = PAGE.read_text()
    found = re.search(re.escape(BEGIN) + ".*?" + re.escape(END), text, re.S)
    if found is None:
        print("definitions: docs/DEFINITIONS.md has lost its two markers")
        return 1
    if found[0] != wanted:
        if "--write" not in sys.argv:
            print("definitions: docs/DEFINITIONS.md is behind the sources: checks/definitions --write")
            return 1
        PAGE.write_text(text.replace(found[0], wanted))
    print(f"definitions: the clauses of run reach {len(files)} files and {total} lines")
    return 0


if __name__ == "__main__":
    sys.exit(main())
