"""Times the library's encoders beside encoding_rs, and prints ratios.

    bench/encode [PROGRAM] [--size MIB] [--rounds N] [--only WORD] [--indexes FOLDER] [--peer FILE]
    bench/encode [PROGRAM] --callgrind [--size MIB] ..

The command `unwrap` encodes nothing, so the program is `checks/encode.rt.txt`, a few lines over the
library, which `rt run` proves and links in a temporary folder unless PROGRAM names it. It reads a
text of some 120,000 characters in UTF-8 and encodes it again and again, 64 MiB in all or what --size
says, each time from its beginning into pieces of 4096 bytes. So does the program beside it,
bench/peer over Debian's encoding_rs. What both write is compared byte for byte first, with what
Python encodes and so with each other, and where one differs the script ends with 1.

ASCII goes by so fast that it is encoded sixteen times as often as that for the times. The rounds run
one command after another, so that a busy machine slows all of them; each figure is a
ratio of medians of the processor's time, user and system, with the start of each program taken off,
which for ours has the reading of index files in it. A byte is one of UTF-8. Index files come from
tools/indexes. What is missing is skipped with a line.

With --callgrind it counts instructions a byte by valgrind, over 1 MiB or what --size says.
"""

import argparse
import os
import shutil
import sys
import tempfile

from rounds import (
    HERE, MIB, Bench, digest_of, instructions, make_indexes, peak_memory, write, written,
)
from texts import texts_to_encode

sys.path.append(os.path.join(HERE, "..", "checks"))
import workspace

BENCH = Bench("bench/encode")
ASCII_MORE = 16


def build_program(folder):
    """The program, proved and linked in a folder, or none."""
    if shutil.which("rt") is None:
        BENCH.skipped("no rt to build the program with")
        return None
    made, said = workspace.build(workspace.make(folder, with_built=True))
    if made is None:
        sys.exit("bench/encode: the program isn't built:\n%s" % said[-2000:])
    return made


class Commands:
    """The two programs, and what each is given."""

    def __init__(self, program, peer, indexes):
        self.program = program
        self.peer = peer
        self.indexes = indexes

    def both(self, text, times):
        """The commands by name, or none where an index file is missing."""
        if any(kind not in self.indexes for kind in text.kinds):
            BENCH.skipped("%s: no index file" % text.name)
            return None
        files = [self.indexes[kind] for kind in text.kinds]
        found = {"own": [self.program, text.label, "utf8", str(times), *files]}
        if self.peer is not None:
            found["encoding_rs"] = [self.peer, "encode", text.label, str(times)]
        return found


def rows(commands, options, path):
    """Each text with its commands, whose input then stands at the path, and how often it goes
    through."""
    for text in texts_to_encode():
        if options.only not in text.name:
            continue
        times = max(1, options.size // len(text.content))
        both = commands.both(text, times)
        if both is not None:
            write(path, text.content)
            yield text, both, times


def differing(text, both, path, times):
    """How many commands write something else than Python encodes."""
    want = digest_of(text.text, times)
    wrong = [name for name, words in both.items() if written(words, path) != (want, 0)]
    for name in wrong:
        print("%s: %s writes something else, or fails" % (text.name, name))
    return len(wrong)


def compare(commands, options, path, empty):
    print("\ntext | ns a byte | encoding_rs | at most, aim | KiB")
    differ = 0
    for text, both, times in rows(commands, options, path):
        wrong = differing(text, both, path, times)
        differ += wrong
        if wrong:
            continue
        if text.name.endswith("ASCII"):
            times *= ASCII_MORE
            both = commands.both(text, times)
        starts = BENCH.medians(both, empty, options.rounds)
        whole = BENCH.medians(both, path, options.rounds)
        net = {name: max(whole[name] - starts[name], 1e-6) for name in both}
        most, aim = text.goal
        ratio = net["own"] / net["encoding_rs"] if "encoding_rs" in net else None
        cells = [
            text.name,
            "%.2f" % (net["own"] * 1e9 / (times * len(text.content))),
            "" if ratio is None else "%.2f" % ratio,
            "%.2f, %.2f%s" % (most, aim, ", over" if ratio is not None and ratio > most else ""),
            str(peak_memory(both["own"], path) or "not read"),
        ]
        print(" | ".join(cells), flush=True)
    return differ


def count_instructions(commands, options, path, empty):
    if shutil.which("valgrind") is None:
        BENCH.skipped("no valgrind")
        return
    print("\ntext | instructions a byte | encoding_rs")
    for text, both, times in rows(commands, options, path):
        found = []
        for words in both.values():
            whole, start = instructions(words, path), instructions(words, empty)
            if whole is None or start is None:
                found.append("not read")
            else:
                found.append("%.2f" % ((whole - start) / (times * len(text.content))))
        print(" | ".join([text.name, *found]), flush=True)


def main():
    parser = argparse.ArgumentParser(
        description=__doc__, formatter_class=argparse.RawDescriptionHelpFormatter
    )
    parser.add_argument("program", nargs="?", help="the program of checks/encode.rt.txt, built already")
    parser.add_argument("--size", type=float, help="MiB of a text")
    parser.add_argument("--rounds", type=int, default=7)
    parser.add_argument("--only", default="", help="only texts with this word in their name")
    parser.add_argument("--indexes", help="a folder with index files")
    parser.add_argument("--peer", help="the program over encoding_rs, built already")
    parser.add_argument("--callgrind", action="store_true", help="count instructions")
    options = parser.parse_args()
    if options.size is None:
        options.size = 1 if options.callgrind else 64
    options.size = int(options.size * MIB)
    with tempfile.TemporaryDirectory() as folder:
        program = options.program or build_program(os.path.join(folder, "workspace"))
        if program is None:
            return
        indexes = make_indexes(options.indexes or os.path.join(folder, "indexes"))
        peer = options.peer or BENCH.build_peer(os.path.join(folder, "peer"))
        commands = Commands(os.path.abspath(program), peer, indexes)
        path, empty = os.path.join(folder, "input"), os.path.join(folder, "empty")
        write(empty, b"")
        if options.callgrind:
            count_instructions(commands, options, path, empty)
            return
        differ = compare(commands, options, path, empty)
    if differ:
        sys.exit("bench/encode: %d outputs differ" % differ)


if __name__ == "__main__":
    main()
