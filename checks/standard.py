"""The decoders and encoders of the Encoding Standard (sections 8 to 14) over index files, in a few
lines: what `checks/codes` and `checks/encoders` compare with. They take whole sequences and single
scalars, and nothing of them is the program's."""

import bisect
import codecs

BAD = "\ufffd"
NEEDED = {
    "big5": ["big5"],
    "euc-kr": ["euc-kr"],
    "shift_jis": ["jis0208"],
    "euc-jp": ["jis0208", "jis0212"],
    "gbk": ["gb18030", "gb18030-ranges"],
    "gb18030": ["gb18030", "gb18030-ranges"],
    "iso-2022-jp": ["jis0208"],
    "iso-8859-8-i": ["iso-8859-8"],
    "windows-1252": [],
    "x-user-defined": [],
}
TWO_BYTE = ("big5", "euc-kr", "shift_jis", "euc-jp", "gbk", "gb18030")


class Standard:
    """The standard's decoders over index files: texts of whole sequences."""

    def __init__(self, files):
        self.index = {kind: dict(rows_of(path)) for kind, path in files.items()}
        self.ranges = sorted(self.index.get("gb18030-ranges", {}).items())
        self.least = {}
        self.single = {}

    def place(self, kind, place):
        scalar = self.index[kind].get(place)
        return None if scalar is None else chr(scalar)

    def alone(self, code, byte):
        """The text of a byte past ASCII that is a whole sequence."""
        if code == "windows-1252":
            return codecs.decode(bytes([byte]), "cp1252", "c1") if byte < 0xA0 else chr(byte)
        if code == "x-user-defined":
            return chr(0xF780 + byte - 0x80)
        if code not in TWO_BYTE:
            return self.place(NEEDED.get(code, [code])[0], byte - 0x80)
        if code in ("gbk", "gb18030") and byte == 0x80:
            return "\u20ac"
        if code == "shift_jis" and byte == 0x80:
            return "\x80"
        if code == "shift_jis" and 0xA1 <= byte <= 0xDF:
            return chr(0xFF61 + byte - 0xA1)
        return None

    def is_lead(self, code, byte):
        if code == "shift_jis":
            return 0x81 <= byte <= 0x9F or 0xE0 <= byte <= 0xFC
        if code == "euc-jp":
            return byte in (0x8E, 0x8F) or 0xA1 <= byte <= 0xFE
        return code in TWO_BYTE and 0x81 <= byte <= 0xFE

    def pair(self, code, lead, trail):
        """The text of two bytes, or none."""
        if code == "big5":
            if not (0x40 <= trail <= 0x7E or 0xA1 <= trail <= 0xFE):
                return None
            place = (lead - 0x81) * 157 + trail - (0x40 if trail < 0x7F else 0x62)
            two = {1133: "Ê̄", 1135: "Ê̌", 1164: "ê̄", 1166: "ê̌"}
            return two.get(place) or self.place("big5", place)
        if code == "euc-kr":
            if not 0x41 <= trail <= 0xFE:
                return None
            return self.place("euc-kr", (lead - 0x81) * 190 + trail - 0x41)
        if code == "shift_jis":
            if not (0x40 <= trail <= 0x7E or 0x80 <= trail <= 0xFC):
                return None
            place = (lead - (0x81 if lead < 0xA0 else 0xC1)) * 188
            place += trail - (0x40 if trail < 0x7F else 0x41)
            if 8836 <= place <= 10715:
                return chr(0xE000 + place - 8836)
            return self.place("jis0208", place)
        if code == "euc-jp":
            if lead == 0x8E and 0xA1 <= trail <= 0xDF:
                return chr(0xFF61 + trail - 0xA1)
            if lead < 0xA1 or not 0xA1 <= trail <= 0xFE:
                return None
            return self.place("jis0208", (lead - 0xA1) * 94 + trail - 0xA1)
        if not (0x40 <= trail <= 0x7E or 0x80 <= trail <= 0xFE):
            return None
        place = (lead - 0x81) * 190 + trail - (0x40 if trail < 0x7F else 0x41)
        return self.place("gb18030", place)

    def four(self, place):
        """The text of a place of gb18030's four-byte sequences, or none."""
        if 39419 < place < 189000 or place > 1237575:
            return None
        if place == 7457:
            return "\ue7c7"
        first, scalar = max(row for row in self.ranges if row[0] <= place)
        return chr(scalar + place - first)

    def line(self, code, data):
        """The text of one or two bytes, or of three that begin with 8F in EUC-JP, before LF."""
        lead, rest = data[0], data[1:]
        if lead < 0x80:
            text = chr(lead)
        elif not self.is_lead(code, lead):
            text = self.alone(code, lead) or BAD
        elif not rest:
            return BAD
        elif code in ("gbk", "gb18030") and 0x30 <= rest[0] <= 0x39:
            # The third byte is LF: the first is malformed, and the second stands for itself.
            return BAD + chr(rest[0])
        elif code == "euc-jp" and lead == 0x8F and 0xA1 <= rest[0] <= 0xFE:
            return self.three(rest)
        else:
            text = self.pair(code, lead, rest[0])
            if text is None:
                text = BAD if rest[0] >= 0x80 else BAD + chr(rest[0])
            rest = rest[1:]
        return text + (self.line(code, rest) if rest else "")

    def iso_2022_jp(self, data):
        """The whole text of ISO-2022-JP, which has modes."""
        sets = {b"(B": "ASCII", b"(J": "Roman", b"(I": "Katakana", b"$@": "JIS", b"$B": "JIS"}
        out = []
        mode, behind_escape, at = "ASCII", False, 0
        while at < len(data):
            byte = data[at]
            if byte == 0x1B and data[at + 1 : at + 3] in sets:
                if behind_escape:
                    out.append(BAD)
                mode, behind_escape = sets[data[at + 1 : at + 3]], True
                at += 3
                continue
            behind_escape = False
            at += 1
            if byte == 0x1B:
                out.append(BAD)
            elif mode == "JIS":
                if not 0x21 <= byte <= 0x7E or at == len(data) or data[at] == 0x1B:
                    out.append(BAD)
                    continue
                trail = data[at]
                at += 1
                place = (byte - 0x21) * 94 + trail - 0x21
                out.append(0x21 <= trail <= 0x7E and self.place("jis0208", place) or BAD)
            elif mode == "Katakana":
                out.append(chr(0xFF61 + byte - 0x21) if 0x21 <= byte <= 0x5F else BAD)
            elif byte >= 0x80 or byte in (0x0E, 0x0F):
                out.append(BAD)
            else:
                out.append({0x5C: "¥", 0x7E: "‾"}.get(byte, chr(byte)) if mode == "Roman" else chr(byte))
        return "".join(out)

    def places(self, kind, below):
        """The least place of each scalar of an index, of those below a number."""
        if (kind, below) not in self.least:
            rows = sorted(self.index[kind].items(), reverse=True)
            self.least[kind, below] = {scalar: place for place, scalar in rows if place < below}
        return self.least[kind, below]

    def range_place(self, scalar):
        """The least place of gb18030's four-byte sequences with this scalar, or none."""
        if scalar == 0xE7C7:
            return 7457
        row = bisect.bisect([start for _, start in self.ranges], scalar) - 1
        if row < 0:
            return None
        first, start = self.ranges[row]
        place = first + scalar - start
        rows_behind = self.ranges[row + 1 :]
        end = rows_behind[0][0] if rows_behind else 1237576
        return None if place >= end or 39420 <= place < 189000 or place == 7457 else place

    def bytes_of(self, code, scalar):
        """The bytes of a scalar in an encoding, empty where it has none: those of its encoder, or
        of UTF-8's for UTF-16. GBK and gb18030 go by the index and the ranges alone."""
        if scalar < 0x80:
            return bytes([scalar])
        if code in ("utf-8", "utf-16le", "utf-16be"):
            return chr(scalar).encode()
        if code == "euc-kr":
            return pair_of(self.places("euc-kr", 23940).get(scalar), 190, 0x41)
        if code == "euc-jp":
            other = {0xA5: b"\x5c", 0x203E: b"\x7e"}.get(scalar)
            if other or 0xFF61 <= scalar <= 0xFF9F:
                return other or bytes([0x8E, scalar - 0xFF61 + 0xA1])
            moved = 0xFF0D if scalar == 0x2212 else scalar
            return pair_of(self.places("jis0208", 8836).get(moved), 94, 0xA1, 0xA1)
        if code in ("gbk", "gb18030"):
            return self.gb(code, scalar)
        if code not in self.single:
            alone = ((self.alone(code, byte), byte) for byte in range(0xFF, 0x7F, -1))
            self.single[code] = {ord(text): bytes([byte]) for text, byte in alone if text}
        return self.single[code].get(scalar, b"")

    def gb(self, code, scalar):
        """The bytes of a scalar past ASCII in GBK or gb18030."""
        if scalar == 0xE5E5:
            return b""
        if code == "gbk" and scalar == 0x20AC:
            return b"\x80"
        place = self.places("gb18030", 23940).get(scalar)
        if place is not None:
            return bytes([place // 190 + 0x81, place % 190 + (0x40 if place % 190 < 0x3F else 0x41)])
        place = None if code == "gbk" else self.range_place(scalar)
        return b"" if place is None else four_of(place)

    def three(self, rest):
        """The text of 8F and these bytes, the first of them A1 to FE, before LF."""
        if len(rest) == 1:
            return BAD
        if 0xA1 <= rest[1] <= 0xFE:
            return self.place("jis0212", (rest[0] - 0xA1) * 94 + rest[1] - 0xA1) or BAD
        return BAD if rest[1] >= 0x80 else BAD + chr(rest[1])


def rows_of(path):
    """The rows of an index file: pairs of a place and a scalar."""
    with open(path, encoding="utf-8") as file:
        for line in file:
            if line.strip() and not line.startswith("#"):
                place, scalar = line.split("\t")[:2]
                yield int(place), int(scalar, 16)


def pair_of(place, count, trail, lead=0x81):
    """The two bytes of a place with so many trails from the first one, or none."""
    return b"" if place is None else bytes([place // count + lead, place % count + trail])


def four_of(place):
    first, rest = divmod(place, 12600)
    second, rest = divmod(rest, 1260)
    third, fourth = divmod(rest, 10)
    return bytes([first + 0x81, second + 0x30, third + 0x81, fourth + 0x30])


def c1(error):
    """Bytes that a codec has no text for, as the controls of the same number."""
    return chr(error.object[error.start]), error.start + 1


codecs.register_error("c1", c1)
