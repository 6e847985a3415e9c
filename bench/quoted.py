"""Times a program's quoted-printable commands on 32 MiB of text and of bytes,
beside Perl's MIME::QuotedPrint on the same bytes and beside `cat`.

The rounds run one command after another, so that a busy machine slows all of
them. Each time is the least of the rounds, with the start of the process taken
off by runs on empty input. Half sizes show that the cost is linear.
"""

import os
import random
import shutil
import subprocess
import sys
import tempfile

from rounds import Bench, write

BENCH = Bench("bench/quoted")
SIZE = 32 << 20
ROUNDS = 7
STARTS = 10
PERL = "binmode STDIN; binmode STDOUT; local $/; my $in = <STDIN>; print {};"
WORDS = "the quick brown fox jumps over a lazy dog, Grüße aus München = naïve café".split()


def text(size, rng):
    """Lines of 3 to 14 words, some of them past ASCII, each ended by CR LF."""
    lines = []
    total = 0
    while total < size:
        line = (" ".join(rng.choice(WORDS) for _ in range(rng.randrange(3, 15))) + "\r\n").encode()
        lines.append(line)
        total += len(line)
    return b"".join(lines)[:size]


def perl(call):
    found = shutil.which("perl")
    if found is None:
        return None
    probe = subprocess.run([found, "-MMIME::QuotedPrint", "-e", "1"], capture_output=True, check=False)
    if probe.returncode != 0:
        return None
    return [found, "-MMIME::QuotedPrint", "-e", PERL.format(call)]


def least(commands, path, rounds):
    best = {name: float("inf") for name in commands}
    for _ in range(rounds):
        for name, command in commands.items():
            best[name] = min(best[name], BENCH.wall(command, path))
    return best


def compare(title, commands, content, folder):
    path = os.path.join(folder, "input")
    write(path, b"")
    starts = least(commands, path, STARTS)
    write(path, content[: len(content) // 2])
    half = least({"own": commands["own"]}, path, ROUNDS)["own"] - starts["own"]
    write(path, content)
    whole = {name: taken - starts[name] for name, taken in least(commands, path, ROUNDS).items()}
    own = whole["own"]
    beside = f"{own / whole['perl']:.2f}" if "perl" in whole else "no perl"
    floor = own / max(whole["cat"], 1e-6)
    rate = len(content) / own / 1e6
    print(f"{title} | {len(content)} | {rate:.0f} | {beside} | {floor:.1f} | {own / max(half, 1e-6):.1f}")


def main():
    program = os.path.abspath(sys.argv[1])
    cat = shutil.which("cat")
    if cat is None:
        BENCH.skipped("no cat")
        return
    rng = random.Random(1)
    mixed = text(SIZE, rng)
    binary = rng.randbytes(SIZE)
    limit = ["--limit", "999999999"]
    print("call | bytes read | MB/s | beside Perl | beside `cat` | beside a half")
    with tempfile.TemporaryDirectory() as folder:
        for title, content, words, call in [
            ("text", mixed, [], 'encode_qp($in, "\\r\\n")'),
            ("bytes", binary, ["--binary"], 'encode_qp($in, "\\r\\n", 1)'),
        ]:
            commands = {"own": [program, "qp-encode", *limit, *words], "cat": [cat]}
            other = perl(call)
            if other is not None:
                commands["perl"] = other
            compare(f"encode {title}", commands, content, folder)
            encoded = subprocess.run(commands["own"], input=content, stdout=subprocess.PIPE, check=True).stdout
            for mode in [[], ["--strict"]]:
                commands = {"own": [program, "qp-decode", *limit, *mode], "cat": [cat]}
                other = perl("decode_qp($in)")
                if other is not None:
                    commands["perl"] = other
                compare(" ".join(["decode", *mode, title]), commands, encoded, folder)


if __name__ == "__main__":
    main()
