"""Compares a program's quoted-printable text with Python's and Perl's.

5,000 random inputs go through the program in batches of ten, joined by CR LF,
since a start of the program costs more than the work: 500 starts to encode,
half of them as text and half as binary data, at line limits from 6 to 998. In
text mode a batch is encoded as its inputs are one by one, since a line ends
at each join. Outside decoders have to give each batch back.

The other way round, Python and Perl encode 100 batches as binary data, and the
program reads what they write with `qp-decode --strict`.

Known differences: Python ends soft breaks in LF alone where the data has no
CR LF, which strict reading refuses; they are made CR LF first. Python writes
some lines of 77 bytes, which strict reading refuses too; such texts are read
with a limit of 77. Perl reads a line break of a text as LF alone.
"""

import binascii
import random
import re
import shutil
import struct
import subprocess
import sys

INPUTS = 5000
BATCH = 10
READ_BACK = 100
NAME = "checks/quoted_printable"

# Reads frames of a letter, a length and so many bytes; answers each by a length
# and what `decode_qp` or `encode_qp` gives of them.
PERL = r"""
use MIME::QuotedPrint;
binmode STDIN; binmode STDOUT;
$/ = undef;
my $all = <STDIN>;
my $at = 0;
while ($at < length $all) {
    my ($kind, $len) = unpack "aN", substr $all, $at, 5;
    my $bytes = substr $all, $at + 5, $len;
    $at += 5 + $len;
    my $answer = $kind eq "d" ? decode_qp($bytes) : encode_qp($bytes, "\r\n", 1);
    print pack("N", length $answer), $answer;
}
"""


def random_input(rng):
    """Text, bytes, or a mix with many blanks, line breaks and equals signs."""
    size = rng.randrange(0, 120)
    kind = rng.randrange(3)
    if kind == 0:
        return rng.randbytes(size)
    if kind == 1:
        return bytes(rng.choice(b"abcdefg hij klm,.=\t") for _ in range(size))
    pieces = [b" ", b"\t", b"\r\n", b"\r", b"\n", b"=", b"a", b"word", b"\xc3\xa9", b" \r\n"]
    return b"".join(rng.choice(pieces) for _ in range(size // 2))


def batches(rng):
    return [
        b"\r\n".join(random_input(rng) for _ in range(BATCH))
        for _ in range(INPUTS // BATCH)
    ]


def run(program, words, data):
    done = subprocess.run([program, *words], input=data, capture_output=True, check=False)
    return done.returncode, done.stdout


def by_perl(frames):
    """What Perl answers to frames of a letter and bytes, or none where it has no such module."""
    perl = shutil.which("perl")
    if perl is None:
        return None
    asked = b"".join(kind + struct.pack(">I", len(data)) + data for kind, data in frames)
    done = subprocess.run([perl, "-e", PERL], input=asked, capture_output=True, check=False)
    if done.returncode != 0:
        return None
    answers = []
    at = 0
    while at < len(done.stdout):
        (size,) = struct.unpack_from(">I", done.stdout, at)
        answers.append(done.stdout[at + 4 : at + 4 + size])
        at += 4 + size
    return answers


def has_bad_line(encoded, limit):
    """A line over the limit, a blank at the end of one, or an escape cut."""
    for line in encoded.split(b"\r\n"):
        if len(line) > limit or line[-1:] in (b" ", b"\t"):
            return True
        if not re.fullmatch(rb"(?:[\t -<>-~]|=[0-9A-F]{2})*=?", line):
            return True
    return False


class Report:
    def __init__(self):
        self.wrong = 0

    def expect(self, right, what, data):
        if not right:
            self.wrong += 1
            if self.wrong <= 5:
                print(f"{NAME}: {what}: {data[:80]!r}")


def encode_all(program, rng, inputs, report):
    written = []
    for number, data in enumerate(inputs):
        limit = 6 + number % 20 if number % 3 == 0 else rng.randrange(6, 999)
        words = ["qp-encode", "--line", str(limit)]
        if number % 2 == 1:
            words.append("--binary")
        status, encoded = run(program, words, data)
        report.expect(status == 0, f"{words}: status {status}", data)
        report.expect(not has_bad_line(encoded, limit), f"{words}: a line is wrong", data)
        report.expect(number % 2 == 0 or b"=0A" in encoded or b"\n" not in data, f"{words}: a line break is kept", data)
        written.append(encoded)
    return written


def read_back(program, name, encoded, inputs, report):
    for data, text in zip(inputs, encoded):
        words = ["qp-decode", "--strict"]
        if name == "Python" and max(map(len, text.split(b"\r\n"))) == 77:
            words += ["--line", "77"]
        status, decoded = run(program, words, text)
        report.expect(status == 0 and decoded == data, f"strict reading of {name}'s text, status {status}", data)
    print(f"{NAME}: strict reading: {len(encoded)} texts of {name} read")


def main():
    program = sys.argv[1]
    rng = random.Random(20450607)
    inputs = batches(rng)
    report = Report()
    written = encode_all(program, rng, inputs, report)
    for data, encoded in zip(inputs, written):
        report.expect(binascii.a2b_qp(encoded) == data, "Python reads something else", data)
    print(f"{NAME}: Python: {INPUTS} inputs in {len(written)} texts read")
    few = inputs[:READ_BACK]
    theirs = [re.sub(rb"=\r?\n", b"=\r\n", binascii.b2a_qp(data, istext=False)) for data in few]
    read_back(program, "Python", theirs, few, report)
    answers = by_perl([(b"d", text) for text in written] + [(b"e", data) for data in few])
    if answers is None:
        print(f"{NAME}: skipped, no perl with MIME::QuotedPrint")
    else:
        for number, (data, decoded) in enumerate(zip(inputs, answers)):
            want = data if number % 2 == 1 else data.replace(b"\r\n", b"\n")
            report.expect(decoded == want, "Perl reads something else", data)
        print(f"{NAME}: Perl: {INPUTS} inputs in {len(written)} texts read")
        read_back(program, "Perl", answers[len(written) :], few, report)
    if report.wrong:
        sys.exit(f"{NAME}: {report.wrong} comparisons differ")


if __name__ == "__main__":
    main()
