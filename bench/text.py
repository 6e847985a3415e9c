"""Times `unwrap text` beside encoding_rs_io, iconv, uconv and `cat`, and prints ratios.

    bench/text [PROGRAM] [--size MIB] [--rounds N] [--only WORD] [--indexes FOLDER] [--peer FILE]
    bench/text [PROGRAM] --callgrind [--size MIB] ..

Each text is 64 MiB, or what --size says. The rounds run one command after another, so that a busy
machine slows all of them; each figure is a ratio of medians of the processor's time, user and
system, over all rounds. What each command writes is compared byte for byte first: with the text as
it was before it was encoded, and so with each other. What another program writes otherwise is told
and its time left out; where this one or encoding_rs_io differ the script ends with 1.

The program beside ours is bench/peer, over Debian's package librust-encoding-rs-io-dev, which cargo
builds offline with the same lengths of what is read and written at once. Index files come from
tools/indexes. Peak memory is read by /usr/bin/time. What is missing is skipped with a line.

With --callgrind it counts instructions a byte by valgrind, over 1 MiB or what --size says, with
those of a run on empty input taken off.
"""

import argparse
import os
import shutil
import statistics
import subprocess
import sys
import tempfile

from rounds import (
    HERE, MIB, Bench, digest_of, instructions, make_indexes, peak_memory, write, write_many, written,
)
from texts import HOSTILE, texts

BENCH = Bench("bench/text")
STARTS = 60
HEADER = b"=?UTF-8?Q?Gr=C3=BC=C3=9Fe?= aus =?ISO-8859-1?Q?M=FCnchen?="


class Commands:
    """The commands that are there, and what each is given for a text."""

    def __init__(self, program, peer, indexes):
        self.program = program
        self.peer = peer
        self.indexes = indexes

    def own(self, label, kinds):
        """The words, or none where an index file is missing."""
        if any(kind not in self.indexes for kind in kinds):
            return None
        words = [self.program, "text"]
        if label is not None:
            words += ["--encoding", label]
        return words + [self.indexes[kind] for kind in kinds]

    def missing(self, name):
        """Tells of a text without its index file, where others are there."""
        if self.indexes:
            BENCH.skipped("%s: no index file" % name)

    def beside(self, text):
        """Other commands by name."""
        found = {}
        label = [] if text.label is None else [text.label]
        if self.peer is not None:
            found["encoding_rs_io"] = [self.peer, *label]
        if text.iconv is not None:
            if shutil.which("iconv"):
                found["iconv"] = ["iconv", "-f", text.iconv, "-t", "UTF-8"]
            if shutil.which("uconv"):
                found["uconv"] = ["uconv", "-f", text.iconv, "-t", "UTF-8"]
        found["cat"] = ["cat"]
        return found


class Report:
    def __init__(self):
        self.differ = 0

    def kept(self, commands, text, path, count):
        """The commands that write the text; tells the others."""
        want = digest_of(text.text, count)
        kept = {}
        for name, words in commands.items():
            if name == "cat":
                kept[name] = words
                continue
            got, status = written(words, path)
            if status == 0 and got == want:
                kept[name] = words
                continue
            print("%s: %s writes something else, or ends with %d" % (text.name, name, status))
            self.differ += name in ("own", "encoding_rs_io")
        return kept


def beside(times, name):
    return "" if name not in times else "%.2f" % (times["own"] / max(times[name], 1e-6))


def compare(commands, options, path, report):
    others = ["encoding_rs_io", "iconv", "uconv", "cat"]
    print("\ntext | ns a byte | " + " | ".join(others) + " | at most, aim | four times | KiB")
    for text in texts():
        own = commands.own(text.label, text.kinds)
        if options.only not in text.name:
            continue
        if own is None:
            commands.missing(text.name)
            continue
        both = {"own": own, **commands.beside(text)}
        write_many(path, text.content, options.size // 4)
        quarter = BENCH.medians({"own": own}, path, min(3, options.rounds))["own"]
        count = write_many(path, text.content, options.size)
        kept = report.kept(both, text, path, count)
        if "own" not in kept:
            continue
        times = BENCH.medians(kept, path, options.rounds)
        most, aim = text.goal
        over = ""
        if "encoding_rs_io" in times and times["own"] > most * times["encoding_rs_io"]:
            over = ", over"
        print(
            " | ".join(
                [
                    text.name,
                    "%.2f" % (times["own"] * 1e9 / (count * len(text.content))),
                    *(beside(times, name) for name in others),
                    "%.2f, %.2f%s" % (most, aim, over),
                    "%.1f" % (times["own"] / max(quarter, 1e-6)),
                    str(peak_memory(own, path) or "not read"),
                ]
            ),
            flush=True,
        )


def hostile(commands, options, path, report):
    size = min(options.size, 16 * MIB)
    print("\n%d KiB of nothing but | encoding | ns a byte | encoding_rs_io | four times | KiB" % (size >> 10))
    for name, label, kinds, chunk in HOSTILE:
        own = commands.own(label, kinds)
        if options.only not in "%s %s" % (label, name):
            continue
        if own is None:
            commands.missing("%s, %s" % (label, name))
            continue
        many = chunk * (MIB // 4 // len(chunk))
        write_many(path, many, size // 4)
        quarter = BENCH.medians({"own": own}, path, min(3, options.rounds))["own"]
        count = write_many(path, many, size)
        both = {"own": own}
        if commands.peer is not None:
            both["encoding_rs_io"] = [commands.peer] + ([] if label is None else [label])
            if len({written(words, path) for words in both.values()}) != 1:
                print("%s, %s: encoding_rs_io writes something else" % (label, name))
                report.differ += 1
        times = BENCH.medians(both, path, min(3, options.rounds))
        print(
            " | ".join(
                [
                    "%s, %s" % (name, chunk.hex(" ").upper()),
                    str(label or "none"),
                    "%.2f" % (times["own"] * 1e9 / (count * len(many))),
                    beside(times, "encoding_rs_io"),
                    "%.1f" % (times["own"] / max(quarter, 1e-6)),
                    str(peak_memory(own, path) or "not read"),
                ]
            ),
            flush=True,
        )


def starts(commands, path):
    """Start to end on a short header, by the clock on the wall, beside `true`."""
    write(path, HEADER)
    rows = {"true": [shutil.which("true")], "a short header": [commands.program, "unwrap"]}
    if commands.indexes:
        rows["with all index files"] = [commands.program, "unwrap", *commands.indexes.values()]
    times = {name: [] for name in rows}
    for _ in range(STARTS):
        for name, words in rows.items():
            times[name].append(BENCH.wall(words, path))
    print("\nstart to end | ms | beside `true` | KiB | at most")
    goals = {
        "true": "",
        "a short header": "5 ms, 3 times `true`",
        "with all index files": "60 ms, 16384 KiB",
    }
    least = statistics.median(times["true"])
    for name, words in rows.items():
        median = statistics.median(times[name])
        memory = peak_memory(words, path) or "not read"
        print("%s | %.2f | %.1f | %s | %s" % (name, median * 1e3, median / least, memory, goals[name]))


def count_instructions(commands, options, folder):
    if shutil.which("valgrind") is None:
        BENCH.skipped("no valgrind")
        return
    path = os.path.join(folder, "input")
    empty = os.path.join(folder, "empty")
    write(empty, b"")
    print("\ntext | instructions a byte | encoding_rs_io")
    for text in texts():
        own = commands.own(text.label, text.kinds)
        if options.only not in text.name or own is None:
            continue
        count = write_many(path, text.content, options.size)
        both = [own]
        if commands.peer is not None:
            both.append(commands.beside(text)["encoding_rs_io"])
        found = []
        for words in both:
            whole, start = instructions(words, path), instructions(words, empty)
            if whole is None or start is None:
                found.append("not read")
            else:
                found.append("%.2f" % ((whole - start) / (count * len(text.content))))
        print(" | ".join([text.name, *found]), flush=True)


def takes_indexes(program, indexes):
    """Whether the program takes index files."""
    if not indexes:
        return False
    words = [program, "text", *indexes.values()]
    done = subprocess.run(words, stdin=subprocess.DEVNULL, capture_output=True, check=False)
    return done.returncode == 0


def main():
    parser = argparse.ArgumentParser(
        description=__doc__, formatter_class=argparse.RawDescriptionHelpFormatter
    )
    parser.add_argument("program", nargs="?", default=os.path.join(HERE, "../crates/unwrap/out/unwrap"))
    parser.add_argument("--size", type=float, help="MiB of a text")
    parser.add_argument("--rounds", type=int, default=7)
    parser.add_argument("--only", default="", help="only texts with this word in their name")
    parser.add_argument("--indexes", help="a folder with index files")
    parser.add_argument("--peer", help="the program over encoding_rs_io, built already")
    parser.add_argument("--callgrind", action="store_true", help="count instructions")
    options = parser.parse_args()
    if options.size is None:
        options.size = 1 if options.callgrind else 64
    options.size = int(options.size * MIB)
    program = os.path.abspath(options.program)
    if not os.access(program, os.X_OK):
        BENCH.skipped("no program %s" % options.program)
        return
    report = Report()
    with tempfile.TemporaryDirectory() as folder:
        indexes = make_indexes(options.indexes or os.path.join(folder, "indexes"))
        if not takes_indexes(program, indexes):
            BENCH.skipped("texts that need index files: none there, or the program takes none")
            indexes = {}
        peer = options.peer or BENCH.build_peer(os.path.join(folder, "peer"))
        commands = Commands(program, peer, indexes)
        path = os.path.join(folder, "input")
        if options.callgrind:
            count_instructions(commands, options, folder)
            return
        compare(commands, options, path, report)
        hostile(commands, options, path, report)
        starts(commands, path)
    if report.differ:
        sys.exit("bench/text: %d outputs differ" % report.differ)


if __name__ == "__main__":
    main()
