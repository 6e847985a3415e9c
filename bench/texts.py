"""The texts that `bench/text` and `bench/encode` time, each made anew from a few words by a fixed seed."""

import codecs
import random

WORDS = {
    "ASCII": "the quick brown fox jumps over a lazy dog and 1,024 others by night; see (page 12)",
    "Latin": "Grüße aus München, naïve café été où déjà vu; señor mañana, smörgåsbord på øen",
    "Cyrillic": "съешь же ещё этих мягких французских булок, да выпей чаю; весь мир и 12 друзей",
    "Greek": "ξεσκεπάζω την ψυχοφθόρα βδελυγμία και πάλι, γαζέες και μυρτιές δεν θα βρω πια",
    "Korean": "다람쥐 헌 쳇바퀴에 타고파. 키스의 고유조건은 입술끼리 만나야 하고, 특별한 기술은 필요치 않다",
    "Japanese": "色は匂へど 散りぬるを 我が世誰ぞ 常ならむ。 カタカナの行も、 漢字も 有為の奥山 今日越えて",
    "Simplified": "视野无限广， 窗外有蓝天。 我们 的 编码 标准 是 文字 流 的 转换， 每 一 个 字节 都 要 读",
    "Traditional": "視野無限廣， 窗外有藍天。 我們 的 編碼 標準 是 文字 流 的 轉換， 每 一 個 位元組 都 要 讀",
    "Emoji": "🙂 text with 🚀 some 🎉 signs, ещё слова и 한국어 단어 né à côté 漢字かな 𝄞 and more ASCII",
}
CHARACTERS = 120_000

# Beside encoding_rs_io: the most of its time that is to be reached, and the aim.
ASCII_MOST = (0.85, 0.6)
BAD_MOST = (1.0, 0.8)


class Text:
    """A name, the label of its encoding if one is named, the kinds of indexes that it needs, its
    bytes, their text in UTF-8, and what is to be reached."""

    def __init__(self, name, label, kinds, content, text, goal, iconv=None):
        self.name = name
        self.label = label
        self.kinds = kinds
        self.content = content
        self.text = text
        self.goal = goal
        self.iconv = iconv


class Code:
    """An encoding: its label, Python's codec, iconv's name, the kinds of indexes it needs, and
    bytes of one malformed unit that no text goes on with."""

    def __init__(self, label, codec, iconv, kinds=(), malformed=b"\xff"):
        self.label = label
        self.codec = codec
        self.iconv = iconv
        self.kinds = kinds
        self.malformed = malformed


def single(label, codec, iconv, malformed=None):
    return Code(label, codec, iconv, (label,), malformed)


UTF_8 = Code("utf-8", "utf-8", "UTF-8")
UTF_16LE = Code("utf-16le", "utf-16-le", "UTF-16LE", malformed=b"\x00\xdc")
UTF_16BE = Code("utf-16be", "utf-16-be", "UTF-16BE", malformed=b"\xdc\x00")
WINDOWS_1252 = Code("windows-1252", "cp1252", "CP1252", malformed=None)
WINDOWS_1251 = single("windows-1251", "cp1251", "CP1251")
WINDOWS_1253 = single("windows-1253", "cp1253", "CP1253", b"\xff")
KOI8_R = single("koi8-r", "koi8-r", "KOI8-R")
ISO_8859_5 = single("iso-8859-5", "iso8859-5", "ISO-8859-5")
ISO_8859_7 = single("iso-8859-7", "iso8859-7", "ISO-8859-7", b"\xff")
EUC_KR = Code("euc-kr", "cp949", "CP949", ("euc-kr",))
SHIFT_JIS = Code("shift_jis", "cp932", "CP932", ("jis0208",))
EUC_JP = Code("euc-jp", "euc_jp", "EUC-JP", ("jis0208", "jis0212"))
BIG5 = Code("big5", "big5", "BIG5", ("big5",))
GBK = Code("gbk", "gbk", "GBK", ("gb18030", "gb18030-ranges"))
GB18030 = Code("gb18030", "gb18030", "GB18030", ("gb18030", "gb18030-ranges"))
USER_DEFINED = Code("x-user-defined", "ascii", None)
ISO_2022_JP = Code("iso-2022-jp", "iso2022_jp", "ISO-2022-JP", ("jis0208",))

# Each text's code, words, and what is to be reached.
ROWS = [
    (UTF_8, "Latin", (0.5, 0.4)),
    (UTF_8, "Cyrillic", (0.6, 0.4)),
    (UTF_8, "Korean", (0.6, 0.4)),
    (UTF_8, "Emoji", (0.5, 0.4)),
    (UTF_16LE, "Latin", (1.0, 0.8)),
    (UTF_16LE, "Cyrillic", (0.7, 0.5)),
    (UTF_16LE, "Korean", (0.7, 0.5)),
    (UTF_16LE, "Emoji", (0.7, 0.5)),
    (UTF_16BE, "Latin", (1.0, 0.8)),
    (UTF_16BE, "Korean", (0.7, 0.5)),
    (WINDOWS_1252, "Latin", (0.8, 0.5)),
    (WINDOWS_1251, "Cyrillic", (0.4, 0.2)),
    (KOI8_R, "Cyrillic", (0.4, 0.2)),
    (ISO_8859_5, "Cyrillic", (0.4, 0.2)),
    (ISO_8859_7, "Greek", (0.4, 0.2)),
    (EUC_KR, "Korean", (0.9, 0.7)),
    (SHIFT_JIS, "Japanese", (0.9, 0.7)),
    (EUC_JP, "Japanese", (0.9, 0.7)),
    (BIG5, "Traditional", (0.9, 0.7)),
    (GBK, "Simplified", (0.7, 0.6)),
    (GB18030, "Simplified", (0.7, 0.6)),
    (ISO_2022_JP, "Japanese", (1.0, 1.0)),
]
ASCII_ROWS = [
    UTF_8, WINDOWS_1252, WINDOWS_1251, EUC_KR, SHIFT_JIS, EUC_JP, BIG5, GBK, GB18030, ISO_2022_JP,
]
MALFORMED_ROWS = [
    (UTF_8, "Cyrillic"), (UTF_16LE, "Korean"), (WINDOWS_1253, "Greek"), (EUC_KR, "Korean"),
    (SHIFT_JIS, "Japanese"), (EUC_JP, "Japanese"), (BIG5, "Traditional"), (GB18030, "Simplified"),
    (ISO_2022_JP, "Japanese"),
]
# What is encoded: each code with its words.
ENCODED_ROWS = [
    (WINDOWS_1252, "Latin"), (WINDOWS_1251, "Cyrillic"), (KOI8_R, "Cyrillic"), (EUC_KR, "Korean"),
    (EUC_JP, "Japanese"), (GBK, "Simplified"), (GB18030, "Simplified"), (UTF_8, "Emoji"),
]
ENCODED_ASCII_ROWS = [
    UTF_8, WINDOWS_1252, USER_DEFINED, WINDOWS_1251, EUC_KR, EUC_JP, GBK, GB18030,
]
ENCODED_MOST = (1.0, 0.7)


def line_ends(words, rng):
    """Lines of 4 to 16 words, `CHARACTERS` characters or a few more."""
    words = words.split(" ")
    lines = []
    total = 0
    while total < CHARACTERS:
        line = " ".join(rng.choice(words) for _ in range(rng.randrange(4, 17))) + "\n"
        lines.append(line)
        total += len(line)
    return "".join(lines)


def encoded(code, text):
    return codecs.encode(text, code.codec)


def characters(code, text):
    """The bytes of each character, with the escapes before it where the code has modes."""
    if code is not ISO_2022_JP:
        return [encoded(code, character) for character in text]
    parts = []
    content = encoded(code, text)
    at = 0
    start = 0
    wide = False
    while at < len(content):
        if content[at : at + 1] == b"\x1b":
            wide = content[at + 1 : at + 2] == b"$"
            at += 3
            continue
        at += 2 if wide else 1
        parts.append(content[start:at])
        start = at
    return parts


def half_malformed(code, text):
    """A malformed unit behind each character, and the text of all that."""
    short = text[: CHARACTERS // 4] + "\n"
    content = b"".join(part + code.malformed for part in characters(code, short))
    return content, "".join(character + "\ufffd" for character in short)


def chunks_of_words():
    """The text of each family of words, some characters long."""
    rng = random.Random(20450607)
    return {name: line_ends(words, rng) for name, words in WORDS.items()}


def texts():
    chunks = chunks_of_words()
    plain = chunks["Emoji"].encode()
    yield Text("unchanged, no encoding named", None, (), plain, plain, (1.0, 1.0))
    for code in ASCII_ROWS:
        text = chunks["ASCII"]
        content = encoded(code, text)
        name = "%s ASCII" % code.label
        yield Text(name, code.label, code.kinds, content, text.encode(), ASCII_MOST, code.iconv)
    for code, words, goal in ROWS:
        text = chunks[words]
        content = encoded(code, text)
        name = "%s %s" % (code.label, words)
        yield Text(name, code.label, code.kinds, content, text.encode(), goal, code.iconv)
    for code, words in MALFORMED_ROWS:
        content, text = half_malformed(code, chunks[words])
        name = "%s %s, half of it malformed" % (code.label, words)
        yield Text(name, code.label, code.kinds, content, text.encode(), BAD_MOST)


def texts_to_encode():
    """Texts whose bytes are to be made: their content is UTF-8, and their text those bytes."""
    chunks = chunks_of_words()
    rows = [(code, "ASCII") for code in ENCODED_ASCII_ROWS] + ENCODED_ROWS
    for code, words in rows:
        text = chunks[words]
        name = "%s %s" % (code.label, words)
        yield Text(name, code.label, code.kinds, text.encode(), encoded(code, text), ENCODED_MOST)


# Inputs of nothing but one thing: a name, a label, the kinds of indexes, and the bytes.
HOSTILE = [
    ("malformed bytes", "utf-8", (), b"\xff"),
    ("lead bytes", "utf-8", (), b"\xe3"),
    ("lead bytes", "utf-8", (), b"\xf0\x9f"),
    ("marks", "utf-8", (), b"\xef\xbb\xbf"),
    ("marks", None, (), b"\xef\xbb\xbf"),
    ("marks", None, (), b"\xff\xfe"),
    ("lead surrogates", "utf-16le", (), b"\x00\xd8"),
    ("trail surrogates", "utf-16be", (), b"\xdc\x00"),
    ("malformed bytes", "windows-1253", ("windows-1253",), b"\xff"),
    ("malformed bytes", "euc-kr", ("euc-kr",), b"\xff"),
    ("lead bytes", "euc-kr", ("euc-kr",), b"\x81"),
    ("lead bytes", "shift_jis", ("jis0208",), b"\x81"),
    ("malformed bytes", "euc-jp", ("jis0208", "jis0212"), b"\xff"),
    ("lead bytes", "euc-jp", ("jis0208", "jis0212"), b"\x8f"),
    ("lead bytes", "big5", ("big5",), b"\x81"),
    ("malformed bytes", "gb18030", ("gb18030", "gb18030-ranges"), b"\xff"),
    ("lead bytes", "gb18030", ("gb18030", "gb18030-ranges"), b"\x81\x30"),
    ("malformed bytes", "iso-2022-jp", ("jis0208",), b"\xff"),
    ("escapes", "iso-2022-jp", ("jis0208",), b"\x1b$B"),
    ("lone escapes", "iso-2022-jp", ("jis0208",), b"\x1b"),
]
