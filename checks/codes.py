"""Compares a program's decoders with iconv and Python's codecs, sequence by sequence.

Of each code that needs an index: every byte, every two bytes, in EUC-JP every three bytes that
begin with 8F, and of gb18030's four bytes all that the ranges map, and a grid of the others. The
sequences of a code go through one run of the program, each with LF behind it, which no code takes
for a part of a sequence; so each line of the text is what one sequence gives.

1. Each line is exactly what the standard says (Encoding Standard, sections 8 to 14), with the
   index files as tables: `Standard` below is its decoders in a few lines, and no code of the
   program's. Malformed sequences are compared with all their U+FFFD.
2. Each byte past ASCII alone, and each sequence that begins with a lead byte, has the text that the
   other decoders give it, or has no text where they give none. Their tables aren't all the
   standard's: `DIFFERENCES` lists where, and why. A difference that isn't listed there ends the
   check with 1.

UTF-8 is compared with Python's on all sequences of four bytes of 25 that tell its cases apart, and
UTF-16 on every scalar. ISO-2022-JP has modes: it is compared on random text that Python's codec
encodes, on every two bytes, and on rows that iconv and Python refuse.
"""

import ctypes
import itertools
import os
import random
import subprocess
import sys
import tempfile

from differences import DIFFERENCES, MOVED, REFUSED
from standard import BAD, NEEDED, Standard, four_of

NAME = "checks/codes"
HERE = os.path.dirname(os.path.abspath(__file__))

SINGLES = {
    "ibm866": ("cp866", "CP866"),
    "iso-8859-2": ("iso8859-2", "ISO-8859-2"),
    "iso-8859-4": ("iso8859-4", "ISO-8859-4"),
    "iso-8859-5": ("iso8859-5", "ISO-8859-5"),
    "iso-8859-7": ("iso8859-7", "ISO-8859-7"),
    "iso-8859-8": ("iso8859-8", "ISO-8859-8"),
    "iso-8859-8-i": ("iso8859-8", "ISO-8859-8"),
    "iso-8859-13": ("iso8859-13", "ISO-8859-13"),
    "iso-8859-15": ("iso8859-15", "ISO-8859-15"),
    "koi8-r": ("koi8-r", "KOI8-R"),
    "koi8-u": ("koi8-u", "KOI8-U"),
    "macintosh": ("mac-roman", "MACINTOSH"),
    "windows-874": ("cp874", "CP874"),
    "windows-1250": ("cp1250", "CP1250"),
    "windows-1251": ("cp1251", "CP1251"),
    "windows-1253": ("cp1253", "CP1253"),
    "windows-1254": ("cp1254", "CP1254"),
    "windows-1255": ("cp1255", "CP1255"),
    "windows-1256": ("cp1256", "CP1256"),
    "windows-1257": ("cp1257", "CP1257"),
    "windows-1258": ("cp1258", "CP1258"),
}
WIDE = {
    "big5": ("big5hkscs", "BIG5-HKSCS"),
    "euc-kr": ("cp949", "CP949"),
    "shift_jis": ("cp932", "CP932"),
    "euc-jp": ("euc_jp", "EUC-JP-MS"),
    "gbk": ("gb18030", "GB18030"),
    "gb18030": ("gb18030", "GB18030"),
}


class Python:
    """A codec of Python."""

    name = "Python"

    def __init__(self, codec):
        self.codec = codec

    def text(self, data):
        try:
            return data.decode(self.codec)
        except UnicodeDecodeError:
            return None


class Iconv:
    """A decoder of the C library's iconv, called in this process."""

    name = "iconv"

    def __init__(self, library, name):
        self.library = library
        self.converter = library.iconv_open(b"UTF-8", name.encode())
        self.room = ctypes.create_string_buffer(4096)

    def text(self, data):
        call = self.library.iconv
        call(self.converter, None, None, None, None)
        source = ctypes.c_char_p(data)
        left = ctypes.c_size_t(len(data))
        sink = ctypes.c_char_p(ctypes.addressof(self.room))
        free = ctypes.c_size_t(len(self.room))
        end = (ctypes.byref(sink), ctypes.byref(free))
        answer = call(self.converter, ctypes.byref(source), ctypes.byref(left), *end)
        if answer == ctypes.c_size_t(-1).value or left.value:
            return None
        # Some decoders hold a character until they are told that this is the end.
        call(self.converter, None, None, *end)
        return self.room.raw[: len(self.room) - free.value].decode("utf-8", "surrogatepass")


def iconv_library():
    """The C library with iconv, or none."""
    library = ctypes.CDLL(None)
    if not hasattr(library, "iconv_open"):
        return None
    library.iconv_open.restype = ctypes.c_void_p
    library.iconv_open.argtypes = [ctypes.c_char_p, ctypes.c_char_p]
    library.iconv.restype = ctypes.c_size_t
    library.iconv.argtypes = [ctypes.c_void_p] + [ctypes.c_void_p] * 4
    return library


class Check:
    name = NAME

    def __init__(self, program, files):
        self.program = program
        self.files = files
        self.standard = Standard(files)
        self.library = iconv_library()
        self.wrong = 0
        self.listed = {}
        self.list_differences(DIFFERENCES)

    def list_differences(self, rows):
        """Lists the sequences of these rows as known to differ."""
        for names, whose, spans, _ in rows:
            for code in names.split():
                for name in ("Python", "iconv") if whose == "both" else (whose,):
                    self.listed.setdefault((code, name), []).extend(spans_of(spans))

    def say(self, text):
        print("%s: %s" % (self.name, text), flush=True)

    def tell(self, text):
        self.wrong += 1
        if self.wrong <= 20:
            self.say(text)

    def decoded(self, code, data):
        """What the program decodes of bytes."""
        words = [self.program, "text", "--encoding", code]
        words += ["%s=%s" % (kind, self.files[kind]) for kind in NEEDED.get(code, [code]) if kind in self.files]
        done = subprocess.run(words, input=data, capture_output=True, check=False)
        if done.returncode != 0:
            self.tell("%s: status %d" % (code, done.returncode))
        return done.stdout.decode("utf-8", "replace")

    def indexed(self):
        """Every code that needs index files."""
        for code, (python, iconv) in SINGLES.items():
            self.code(code, python, iconv)
        self.say("%d codes of one byte as the standard says, and by others but for what is listed" % len(SINGLES))
        for code, (python, iconv) in WIDE.items():
            self.code(code, python, iconv)
        self.four_bytes()
        self.iso_2022_jp()

    def lines(self, code, sequences):
        """The text of each sequence, none of which has LF in it."""
        text = self.decoded(code, b"".join(sequence + b"\n" for sequence in sequences))
        lines = text.split("\n")
        if len(lines) != len(sequences) + 1:
            self.tell("%s: %d lines of %d" % (code, len(lines) - 1, len(sequences)))
        return lines

    def others(self, code, python, iconv):
        """The other decoders that are there."""
        found = [Python(python)]
        if self.library is not None:
            other = Iconv(self.library, iconv)
            if other.converter not in (None, ctypes.c_void_p(-1).value):
                return found + [other]
        self.say("skipped, no iconv with %s" % iconv)
        return found

    def is_listed(self, code, whose, data):
        if code == "iso-2022-jp":
            data = data[3:-3]
        number = int.from_bytes(data, "big")
        return any(
            length == len(data) and first <= number <= last
            for length, first, last in self.listed.get((code, whose), [])
        )

    def compare_units(self, code, units, others):
        """Compares texts of whole sequences, or none of each, with other decoders'."""
        counts = []
        for other in others:
            differ = 0
            for data, text in units.items():
                theirs = other.text(data)
                if theirs == text:
                    continue
                if self.is_listed(code, other.name, data):
                    differ += 1
                else:
                    self.tell(
                        "%s %s: %s has %s, the program %s"
                        % (code, data.hex().upper(), other.name, shown(theirs), shown(text))
                    )
            counts.append("%s but for %d listed" % (other.name, differ) if differ else other.name)
        return " and ".join(counts)

    def code(self, code, python, iconv):
        """Every byte and every two bytes, and three of EUC-JP."""
        standard = self.standard
        sequences = [bytes([byte]) for byte in range(256) if byte != 10]
        if code in WIDE:
            sequences += [a + b for a in sequences for b in sequences]
        if code == "euc-jp":
            singles = sequences[:255]
            sequences += [b"\x8f" + a + b for a in singles for b in singles]
        lines = self.lines(code, sequences)
        units = {}
        for data, line in zip(sequences, lines):
            want = standard.line(code, data)
            if line != want:
                self.tell("%s %s: %s, the standard has %s" % (code, data.hex(), shown(line), shown(want)))
            lead = data[0]
            if lead < 0x80:
                continue
            whole = standard.is_lead(code, lead) and len(data) == (3 if (code, lead) == ("euc-jp", 0x8F) else 2)
            if whole or len(data) == 1 and not standard.is_lead(code, lead):
                units[data] = None if BAD in line else line
        others = self.others(code, python, iconv) if python else []
        counts = self.compare_units(code, units, others)
        if code in WIDE:
            self.say("%s: %d sequences as the standard says, %d as by %s" % (code, len(sequences), len(units), counts))

    def four_bytes(self):
        """gb18030's sequences of four bytes."""
        standard = self.standard
        mapped = list(itertools.chain(range(39420), range(189000, 1237576)))
        rest = list(range(39420, 189000, 97)) + list(range(1237576, 126 * 10 * 1260, 97))
        sequences = [four_of(place) for place in mapped + rest]
        lines = self.lines("gb18030", sequences)
        wanted = [chr(scalar) for scalar in range(0x10000, 0x110000)]
        wanted = [standard.four(place) for place in range(39420)] + wanted + [BAD] * len(rest)
        for data, line, want in zip(sequences, lines, wanted):
            if line != want:
                self.tell("gb18030 %s: %s, the standard has %s" % (data.hex(), shown(line), shown(want)))
        others = self.others("gb18030", "gb18030", "GB18030")
        few = range(39420)
        units = {sequences[n]: lines[n] for n in few}
        units.update((sequences[n], None) for n in range(len(mapped), len(sequences), 10))
        counts = self.compare_units("gb18030", units, others)
        # All above the basic plane at once, since they are many.
        content = b"".join(sequences[39420 : len(mapped)])
        text = "".join(lines[39420 : len(mapped)])
        if content.decode("gb18030") != text:
            self.tell("gb18030: above the basic plane Python has something else")
        self.broken_four_bytes()
        self.say("gb18030: %d sequences of four bytes as the standard says and by %s" % (len(sequences), counts))

    def broken_four_bytes(self):
        """A grid of sequences whose third or fourth byte is out of its range: the first byte is
        malformed, and the others are read again."""
        firsts = (0x81, 0x84, 0x90, 0xE3, 0xFE)
        edges = (0x00, 0x2F, 0x30, 0x39, 0x3A, 0x40, 0x7F, 0x80, 0x81, 0xC4, 0xFE, 0xFF)
        sequences = []
        for first, second, third, fourth in itertools.product(firsts, (0x30, 0x35, 0x39), edges, edges):
            if not (0x81 <= third <= 0xFE and 0x30 <= fourth <= 0x39):
                sequences.append(bytes([first, second, third, fourth]))
        for data, line in zip(sequences, self.lines("gb18030", sequences)):
            want = BAD + chr(data[1]) + self.standard.line("gb18030", data[2:])
            if line != want:
                self.tell("gb18030 %s: %s, the standard has %s" % (data.hex(), shown(line), shown(want)))

    def iso_2022_jp(self):
        """Random bytes as the standard says; random text, each two bytes, and rows as by others."""
        rng = random.Random(2022)
        alphabet = b"\x1b\x1b\x1b\x1b$$((BBJI@\x24\x22\x31\x0a\x0e\x0f\x80\xff\x61\x5c\x7e\x21"
        pieces = [bytes([byte]) for byte in alphabet] + [b"\x1b$B", b"\x1b(B", b"\x1b(J", b"\x1b(I"]
        noise = b"".join(rng.choice(pieces) for _ in range(400_000))
        if self.decoded("iso-2022-jp", noise) != self.standard.iso_2022_jp(noise):
            self.tell("iso-2022-jp: random bytes give something else than the standard says")
        for data, want in REFUSED:
            line = self.decoded("iso-2022-jp", bytes.fromhex(data))
            if line != want:
                self.tell("iso-2022-jp %s: %s, the standard has %s" % (data, shown(line), shown(want)))
        others = self.others("iso-2022-jp", "iso2022_jp_ext", "ISO-2022-JP-3")
        # Text of characters that Python has, in lines, through the program and all others.
        known = [chr(n) for n in range(0x20, 0x10000) if encodes(chr(n), "iso2022_jp") and n not in MOVED]
        text = "".join(rng.choice(known) if rng.random() < 0.9 else rng.choice(" a\n") for _ in range(100_000))
        content = text.encode("iso2022_jp")
        if self.decoded("iso-2022-jp", content) != text:
            self.tell("iso-2022-jp: random text of %d characters differs" % len(text))
        spelled = text[:1000].encode("iso2022_jp")
        for other in others:
            if other.text(spelled) != text[:1000]:
                self.tell("iso-2022-jp: %s has something else for random text" % other.name)
        for escape, end, size in ((b"\x1b$B", b"\x1b(B", 2), (b"\x1b(J", b"\x1b(B", 1), (b"\x1b(I", b"\x1b(B", 1)):
            sequences = [bytes(some) for some in itertools.product(range(0x21, 0x7F), repeat=size)]
            content = b"".join(escape + data + end + b"\n" for data in sequences)
            lines = self.decoded("iso-2022-jp", content).split("\n")
            units = {
                escape + data + end: None if BAD in line else line for data, line in zip(sequences, lines)
            }
            counts = self.compare_units("iso-2022-jp", units, others)
            name = escape[1:].decode()
            self.say("iso-2022-jp: %d sequences behind ESC %s as by %s" % (len(units), name, counts))
        self.say("iso-2022-jp: random bytes as the standard says, random text as by Python")

    def utf_8(self):
        edges = bytes.fromhex("00 41 7F 80 8F 90 9F A0 BF C0 C1 C2 DF E0 E1 EC ED EE EF F0 F1 F3 F4 F5 FF")
        content = b"".join(bytes(four) + b"\n" for four in itertools.product(edges, repeat=4))
        if self.decoded("utf-8", content) != content.decode("utf-8", "replace"):
            self.tell("utf-8: Python has something else")
        scalars = [chr(n) for n in range(0x110000) if not 0xD800 <= n < 0xE000 and n != 0xFEFF]
        text = "".join(scalars)
        for code in ("utf-8", "utf-16le", "utf-16be"):
            if self.decoded(code, text.encode(code)) != text:
                self.tell("%s: the text of all scalars differs" % code)
        self.say("windows-1252 and x-user-defined as the standard says; UTF-8 and UTF-16: every scalar, and 390625 sequences of UTF-8, as by Python")


def encodes(character, codec):
    try:
        return bool(character.encode(codec))
    except UnicodeEncodeError:
        return False


def spans_of(text):
    """Spans of sequences in hexadecimal: a length, the first and the last number."""
    for span in text.split():
        first, _, last = span.partition("-")
        yield len(first) // 2, int(first, 16), int(last or first, 16)


def shown(text):
    return "nothing" if text is None else " ".join("%04X" % ord(character) for character in text) or "no text"


def index_files(folder, asked):
    """The index files by kind: of the folder that is asked for, or made into a new one."""
    tool = os.path.join(HERE, "..", "tools", "indexes")
    if not asked:
        made = subprocess.run([sys.executable, tool, folder], capture_output=True, check=False)
        if made.returncode != 0:
            return {}
    words = [sys.executable, tool, "--list", asked or folder]
    listed = subprocess.run(words, capture_output=True, check=True).stdout.decode()
    return dict(word.split("=", 1) for word in listed.splitlines())


def main():
    with tempfile.TemporaryDirectory() as folder:
        check = Check(sys.argv[1], index_files(folder, sys.argv[2]))
        check.code("windows-1252", "cp1252", "CP1252")
        check.code("x-user-defined", None, None)
        check.utf_8()
        if not check.files:
            check.say("skipped, no index files and no package to make them from")
        else:
            check.indexed()
    if check.wrong:
        sys.exit("%s: %d comparisons differ" % (NAME, check.wrong))


if __name__ == "__main__":
    main()
