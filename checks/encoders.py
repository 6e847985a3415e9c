"""Compares the library's encoders with iconv, Python's codecs and its decoders, scalar by scalar.

To every encoding that has an encoder go all scalars of the Basic Multilingual Plane, and the first
4096 of planes 1 and 2, each with LF behind it, which no encoding has within a sequence: so each
line of the output is what one scalar gives, and is empty where it has no bytes. To UTF-8 go all
scalars there are. The text is handed over once as UTF-8 and once as UTF-16.

1. Both forms give the same bytes.
2. Each line is exactly what the standard says (Encoding Standard, sections 8 to 14), with the index
   files as tables: `Standard.bytes_of`, a few lines, and no code of the library's.
3. Each line is what Python's codec and iconv write, or is empty where they have nothing, but for
   what `DIFFERENCES` and `ENCODED` list: a difference ends the check with 1 where neither the bytes
   of this library nor theirs are listed there.
4. `unwrap text` decodes each line to the scalar, but for what `NOT_READ_BACK` lists.

The program between is `encode.rt.txt`, which `rt try` compiles without proofs, with checks of every
access and every sum, in a temporary folder.
"""

import os
import subprocess
import sys
import tempfile

import workspace
from codes import SINGLES, WIDE, Check, index_files, shown
from differences import ENCODED, NOT_READ_BACK
from standard import NEEDED

NAME = "checks/encoders"
FORMS = ("utf8", "utf16")
# As unwrap decodes them: UTF-16 is encoded to UTF-8 (section 4.3, "get an output encoding").
UTF = {"utf-8": "utf-8", "utf-16le": "utf-8", "utf-16be": "utf-8"}
WIDE_ENCODERS = ("euc-kr", "euc-jp", "gbk", "gb18030")
BUILT_IN = ("windows-1252", "x-user-defined", *UTF)
# How many tries run side by side, each with its share of the cases.
LANES = min(3, os.cpu_count() or 1)
# The most scalars of UTF-8 at once: a try's output ends at a mebibyte.
PIECE = 200_000
SURROGATES = range(0xD800, 0xE000)


def scalars_below(end):
    return [n for n in range(end) if n not in SURROGATES]


LINES = [n for n in scalars_below(0x10000) if n != 10]
LINES += [*range(0x10000, 0x11000), *range(0x20000, 0x21000)]
TEXT = "".join(chr(n) + "\n" for n in LINES)


def cells(data):
    return data.hex().upper() or "nothing"


class Encoders(Check):
    """The comparisons of what was written."""

    name = NAME

    def __init__(self, program, files):
        super().__init__(program, files)
        self.decodes = os.access(program, os.X_OK)
        self.list_differences(ENCODED)

    def codes(self):
        """The encodings whose index files are there."""
        all_codes = [*BUILT_IN, *SINGLES, *WIDE_ENCODERS]
        return [code for code in all_codes if all(kind in self.files for kind in self.kinds(code))]

    def kinds(self, code):
        return [] if code in UTF else NEEDED.get(code, [code])

    def cases(self, folders):
        """Writes the cases of the program into the folders; the index files that they name."""
        kinds = set()
        for code in reversed(self.codes()):
            kinds.update(self.kinds(code))
            self.case(folders, code, TEXT)
        every = scalars_below(0x110000)
        for at in range(0, len(every), PIECE):
            text = "".join(map(chr, every[at : at + PIECE])) + "\n"
            self.case(folders, "utf-8", text, ".%d" % at)
        return {kind: self.files[kind] for kind in sorted(kinds)}

    def case(self, folders, code, text, part=""):
        for form in FORMS:
            folder = min(folders, key=lambda folder: len(os.listdir(folder)))
            path = os.path.join(folder, "%s%s.%s" % (code, part, form))
            with open(path, "w", encoding="utf-8", newline="") as file:
                file.write(text)
            words = [code, form, "1", *("%s=%s" % (kind, kind) for kind in self.kinds(code))]
            with open(path + ".args", "w", encoding="utf-8") as file:
                file.write("\n".join(words) + "\n")

    def written(self, outputs, code):
        """The bytes of each scalar in an encoding."""
        first, second = (outputs.get("%s.%s" % (code, form), b"").split(b"\n") for form in FORMS)
        if len(first) != len(LINES) + 1 or len(second) != len(first):
            self.tell("%s: %d and %d lines of %d" % (code, len(first) - 1, len(second) - 1, len(LINES)))
            return None
        for scalar, one, other in zip(LINES, first, second):
            if one != other:
                self.tell("%s U+%04X: %s from UTF-8, %s from UTF-16" % (code, scalar, cells(one), cells(other)))
        return first[:-1]

    def code(self, outputs, code):
        """The comparisons of one encoding, and what they came to where nothing differs that isn't
        listed."""
        wrong = self.wrong
        lines = self.written(outputs, code)
        if lines is None:
            return None
        for scalar, line in zip(LINES, lines):
            want = self.standard.bytes_of(code, scalar)
            if line != want:
                self.tell("%s U+%04X: %s, the standard has %s" % (code, scalar, cells(line), cells(want)))
        counts = [self.beside(code, lines, name, theirs) for name, theirs in self.others_of(code)]
        said = "%d of them with bytes" % sum(map(bool, lines))
        if counts:
            said += ", as by " + " and ".join(counts)
        if self.decodes:
            said += self.read_back(code, lines)
        return said if self.wrong == wrong else None

    def others_of(self, code):
        """What other encoders write for the scalars, by name."""
        names = {"windows-1252": ("cp1252", "CP1252"), "x-user-defined": (None, None), **SINGLES, **WIDE}
        names.update((label, (codec, codec.upper())) for label, codec in UTF.items())
        python, iconv = names[code]
        if python:
            yield "Python", TEXT.encode(python, "ignore").split(b"\n")[:-1]
        if iconv:
            lines = by_iconv(iconv)
            if len(lines) == len(LINES):
                yield "iconv", lines
            else:
                self.say("skipped, no iconv with %s" % iconv)

    def beside(self, code, lines, whose, theirs):
        """Compares with what another encoder writes."""
        listed = 0
        for scalar, line, other in zip(LINES, lines, theirs):
            if line == other:
                continue
            if any(data and self.is_listed(code, whose, data) for data in (line, other)):
                listed += 1
            else:
                self.tell(
                    "%s U+%04X: %s has %s, the library %s"
                    % (code, scalar, whose, cells(other), cells(line))
                )
        return "%s but for %d listed" % (whose, listed) if listed else whose

    def read_back(self, code, lines):
        """Compares the scalars with what the program decodes of their bytes."""
        kept = [(scalar, line) for scalar, line in zip(LINES, lines) if line]
        text = self.decoded(UTF.get(code, code), b"".join(line + b"\n" for _, line in kept))
        decoded = text.split("\n")[:-1]
        if len(decoded) != len(kept):
            self.tell("%s: %d lines decoded of %d" % (code, len(decoded), len(kept)))
        listed = NOT_READ_BACK.get(code, {})
        for (scalar, line), found in zip(kept, decoded):
            if found != chr(listed.get(scalar, scalar)):
                self.tell("%s U+%04X: %s is decoded as %s" % (code, scalar, cells(line), shown(found)))
        return ", decoded again but for %d listed" % len(listed) if listed else ", decoded again"

    def utf_8(self, outputs):
        """All scalars through UTF-8."""
        every = scalars_below(0x110000)
        wrong = self.wrong
        for at in range(0, len(every), PIECE):
            want = ("".join(map(chr, every[at : at + PIECE])) + "\n").encode()
            for form in FORMS:
                if outputs.get("utf-8.%d.%s" % (at, form)) != want:
                    self.tell("utf-8: text from U+%04X on differs, as %s" % (every[at], form))
        if self.wrong == wrong:
            self.say("utf-8: %d scalars as they are, from UTF-8 and from UTF-16" % len(every))

    def run(self, folder):
        """All comparisons, over a program made in this folder."""
        lanes = [os.path.join(folder, "cases%d" % lane) for lane in range(LANES)]
        for lane in lanes:
            os.mkdir(lane)
        data = self.cases(lanes)
        program = workspace.make(os.path.join(folder, "workspace"))
        status, outputs, said = workspace.try_side_by_side(program, lanes, data)
        if status == 2:
            self.say("skipped, rt can't try the program: %s" % said.strip()[-300:])
            return
        if status != 0:
            self.tell("the program fails with status %d:\n%s" % (status, said[-2000:]))
            return
        self.utf_8(outputs)
        found = {code: self.code(outputs, code) for code in self.codes()}
        good = {code: said for code, said in found.items() if said is not None}
        wide = [code for code in good if code in UTF or code in WIDE_ENCODERS]
        for code in wide:
            self.say("%s: %d scalars as the standard says, %s" % (code, len(LINES), good[code]))
        alone = "%d codes of one byte: %d scalars each as the standard says, and by others but for what is listed"
        self.say(alone % (len(good) - len(wide), len(LINES)))


def by_iconv(name):
    """What iconv writes for the scalars, with nothing for those that have no bytes."""
    words = ["iconv", "-c", "-f", "UTF-8", "-t", name]
    try:
        done = subprocess.run(words, input=TEXT.encode(), capture_output=True, check=False)
    except FileNotFoundError:
        return []
    return done.stdout.split(b"\n")[:-1]


def main():
    with tempfile.TemporaryDirectory() as folder:
        check = Encoders(sys.argv[1], index_files(os.path.join(folder, "indexes"), sys.argv[2]))
        if not check.decodes:
            check.say("skipped, reading back: no program %s" % sys.argv[1])
        if not check.files:
            check.say("skipped but for encodings that are built in, no index files and no package to make them from")
        check.run(folder)
    if check.wrong:
        sys.exit("%s: %d comparisons differ" % (NAME, check.wrong))


if __name__ == "__main__":
    main()
