"""Times a program on large headers beside `cat`, and beside Python's and
Perl's decoders of encoded words where they are there, and prints ratios.

Each time is the least of several runs, with the start of the process taken
off by a run on empty input where the column says so. Peak memory is read by
`/usr/bin/time`, where that is there.
"""

import base64
import os
import shutil
import subprocess
import sys
import tempfile
import time

from rounds import Bench, peak_memory, write

BENCH = Bench("bench/headers")
LIMIT = 1 << 20
RUNS = 40
PEER_RUNS = 3
PEER_SECONDS = 60
PYTHON = """
import sys
from email.header import decode_header, make_header
text = sys.stdin.buffer.read().decode("ascii")
sys.stdout.buffer.write(str(make_header(decode_header(text))).encode("utf-8"))
"""
PERL = """
use Encode;
binmode STDIN;
binmode STDOUT, ":utf8";
local $/;
print decode("MIME-Header", scalar <STDIN>);
"""


def repeated(piece, size):
    """`piece` again and again, cut at `size` bytes."""
    return (piece * (size // len(piece) + 1))[:size]


def q_words(count):
    """`count` Q words with a space between, 72 bytes each with it."""
    word = b"=?utf-8?Q?" + b"Keith_Moore=40" * 4 + b"abc?="
    assert len(word) == 71
    return b" ".join([word] * count)


def b_words(count):
    """`count` B words with a space between, 72 bytes each with it."""
    text = b"Keith Moore <moore@cs.utk.edu>, and some more"
    word = b"=?utf-8?B?" + base64.b64encode(text) + b"?="
    assert len(word) == 72
    return b" ".join([word] * count)


def inputs(share):
    """Named headers of `LIMIT // share` bytes or fewer."""
    size = LIMIT // share
    return {
        "clear text": repeated(b"Keith Moore <moore@cs.utk.edu>, ", size),
        "Q words": q_words(12_000 // share),
        "B words": b_words(12_000 // share),
        "malformed words": repeated(b"=?utf-8?Q?a b?= ", size),
        "`=?=?=?`": repeated(b"=?", size),
        "unclosed words": repeated(b"=?utf-8?Q?abc", size),
        "spaces": repeated(b" ", size),
    }


def least_time(command, path):
    """The least time of `RUNS` runs, in seconds."""
    return min(BENCH.wall(command, path) for _ in range(RUNS))


def peers():
    """Commands that decode a header's encoded words, by name, where they are there."""
    found = {"Python email.header": [sys.executable, "-c", PYTHON]}
    perl = shutil.which("perl")
    if perl is not None:
        found["Perl MIME-Header"] = [perl, "-e", PERL]
    return found


def peer_time(command, path):
    """The least time of a few runs, in seconds, or none where it fails or takes too long."""
    best = float("inf")
    for _ in range(PEER_RUNS):
        with open(path, "rb") as source:
            start = time.perf_counter()
            try:
                subprocess.run(
                    command,
                    stdin=source,
                    stdout=subprocess.DEVNULL,
                    stderr=subprocess.DEVNULL,
                    check=True,
                    timeout=PEER_SECONDS,
                )
            except (subprocess.SubprocessError, OSError):
                return None
            best = min(best, time.perf_counter() - start)
    return best


def compare_with_cat(program, cat, path):
    write(path, b"")
    start = least_time(program, path)
    small = inputs(4)
    print("header | bytes | beside `cat` and a start | beside a quarter, starts off | peak memory by input")
    for name, content in inputs(1).items():
        write(path, small[name])
        quarter = least_time(program, path)
        write(path, content)
        whole = least_time(program, path)
        beside = least_time([cat], path) + start
        growth = (whole - start) / max(quarter - start, 1e-6)
        peak = peak_memory(program, path)
        memory = "not read" if peak is None else f"{peak * 1024 / len(content):.1f}"
        print(f"{name} | {len(content)} | {whole / beside:.1f} | {growth:.1f} | {memory}")


def compare_with_peers(program, path):
    for peer, command in peers().items():
        write(path, b"")
        start = least_time(program, path)
        peer_start = peer_time(command, path)
        if peer_start is None:
            print(f"{peer}: skipped, it doesn't run here")
            continue
        for name in ["Q words", "B words", "malformed words"]:
            write(path, inputs(1)[name])
            own = least_time(program, path) - start
            other = peer_time(command, path)
            if other is None:
                print(f"{peer} | {name} | failed, or over {PEER_SECONDS} s")
            else:
                print(f"{peer} | {name} | {(other - peer_start) / max(own, 1e-6):.0f} times the time, starts off")


def main():
    program = [os.path.abspath(sys.argv[1]), "unwrap"]
    cat = shutil.which("cat")
    if cat is None:
        BENCH.skipped("no cat")
        return
    with tempfile.TemporaryDirectory() as folder:
        path = os.path.join(folder, "input")
        compare_with_cat(program, cat, path)
        compare_with_peers(program, path)


if __name__ == "__main__":
    main()
