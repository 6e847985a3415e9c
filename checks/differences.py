"""Where iconv and Python's codecs decode and encode otherwise than the Encoding Standard says: data
of `checks/codes` and `checks/encoders`."""

# Where another decoder has something else than the standard: code, whose, the sequences, why. An
# encoder differs for the same sequences, its own or the standard's.
C1 = "the standard has the C1 control of the same number where Microsoft's table has nothing"
MICROSOFT = "the standard has Microsoft's scalars for some signs, theirs has those of JIS or of Unicode's own table"
DIFFERENCES = [
    ("koi8-u", "both", "AE BE", "the standard has the Belarusian letters of KOI8-RU, theirs has lines of boxes"),
    ("macintosh", "iconv", "C6 F0", "iconv has a Greek letter for the increment sign, and another private scalar for Apple's sign"),
    ("windows-874", "both", "81-84 86-90 98-9F", C1),
    ("windows-1250", "both", "81 83 88 90 98", C1),
    ("windows-1251", "both", "98", C1),
    ("windows-1252", "both", "81 8D 8F-90 9D", C1),
    ("windows-1253", "both", "81 88 8A 8C-90 98 9A 9C-9F", C1),
    ("windows-1254", "both", "81 8D-90 9D-9E", C1),
    ("windows-1255", "both", "81 8A 8C-90 9A 9C-9F", C1),
    ("windows-1255", "both", "CA", "the standard has U+05BA, which theirs leaves out"),
    ("windows-1257", "both", "81 83 88 8A 8C 90 98 9A 9C 9F", C1),
    ("windows-1258", "both", "81 8A 8D-90 9A 9D-9E", C1),
    ("big5", "both", "A145 A14E A1C2 A1E3 A1F2-A1F3 A241-A242 A244 A246-A247", MICROSOFT),
    ("big5", "both", "A3C0-A3E1", "signs for controls and the euro sign, which Microsoft and ETEN added"),
    (
        "big5",
        "both",
        """8E69 8E6F 8E7E 8EAB 8EB4 8ECD 8ED0 8F57 8F69 8F6E 8FCB-8FCC 8FFE 906D 907A 90DC 90F1 91BF
        9244 92AF-92B2 92C8 92D1 9447 94CA 95D9 9644 96ED 96FC 9B76 9B78 9B7B 9BC6 9BDE 9BEC 9BF6
        9C42 9C53 9C62 9C68 9C6B 9C77 9CBC-9CBD 9CD0 9D57 9D5A 9DC4 9EA9 9EEF 9EFD 9F60 9F66 9FCB
        9FD8 A063 A077 A0D5 A0DF A0E4 C6CF C6D3 C6D5 C6D7 C6DE-C6DF FA5F FA66 FABD FAC5 FAD5 FB48
        FBB8 FBF3 FBF9 FC4F FC6C FCB9 FCE2 FCF1 FDB7-FDB8 FDBB FDF1 FE52 FE6F FEAA FEDD""",
        "second spellings of characters: HKSCS keeps them for old text, theirs leaves them out",
    ),
    ("big5", "Python", "877A-87DF", "characters of HKSCS-2008; Python has the edition of 2004"),
    ("big5", "iconv", "80", "a lone 80 is malformed in the standard, iconv has the control U+0080"),
    ("big5", "iconv", "A15A A1C3 A1C5 A1FE A240 A2CC A2CE", "second spellings of signs, which iconv leaves out"),
    ("shift_jis", "Python", "A0 FD-FF", "malformed in the standard, Python has private scalars of Apple's"),
    ("shift_jis", "iconv", "80", "the control U+0080 in the standard, iconv has nothing"),
    ("euc-jp", "Python", "A1C1-A1C2 A1DD A1F1-A1F2 A2CC 8FA2B7", MICROSOFT),
    ("euc-jp", "Python", "ADA1-ADFC", "NEC's row 13, which Python leaves out"),
    ("euc-jp", "Python", "F9A1-FCFE", "IBM's characters, which Python leaves out"),
    ("euc-jp", "iconv", "80-8D 90-9F", "malformed in the standard, iconv has C1 controls"),
    ("euc-jp", "iconv", "F5A1-FEFE 8FF5A1-8FFEFE", "rows for users: iconv has private scalars, the standard has IBM's characters or nothing"),
    ("euc-jp", "iconv", "8FA2C3", "U+00A6 in the standard, its full-width form by iconv"),
    ("euc-jp", "iconv", "8FF3F3-8FF4FE", "IBM's characters behind JIS X 0212, which the standard leaves out there"),
    ("gbk gb18030", "both", "80", "the euro sign of Microsoft's GBK, which isn't in theirs"),
    ("gbk gb18030", "both", "A3A0", "an ideographic space in the standard, theirs has a private scalar"),
    ("gbk gb18030", "Python", "A8BC 8135F437", "U+1E3F and U+E7C7 change places in the edition of 2000, which Python has"),
    (
        "gbk gb18030",
        "Python",
        "A6D9-A6DF A6EC-A6ED A6F3 FE59 FE61 FE66-FE67 FE6D FE7E FE90 FEA0",
        "the 18 places that GB 18030-2022 moved out of the private use area; Python has the edition of 2000",
    ),
    (
        "gbk gb18030",
        "iconv",
        "FE51-FE53 FE6C FE76 FE91",
        "six ideographs with private scalars in the standard; iconv has their own scalars past U+FFFF",
    ),
    (
        "gb18030",
        "iconv",
        "82359037-82359039 82359130-82359134 84318236-84318239 84318330-84318335",
        "second spellings, by four bytes, of the 18 places: iconv has those by two bytes alone",
    ),
    ("iso-2022-jp", "both", "2141-2142 215D 2171-2172 224C", MICROSOFT),
    ("iso-2022-jp", "both", "2D21-2D7C", "NEC's row 13, which theirs leaves out"),
    ("iso-2022-jp", "both", "7921-7C7E", "IBM's characters, which theirs leaves out"),
]

# ISO-2022-JP that others refuse, and its text in the standard.
REFUSED = [
    ("1B 28 42 1B 28 42 61", "\ufffda"),
    ("1B 24 61", "\ufffd$a"),
    ("1B 24 42 24 0A 61", "\ufffd\ufffd"),
    ("1B 24 42 1B 24", "\ufffd\ufffd"),
    ("1B 24 42 24 1B 28 42 61", "\ufffda"),
    ("1B 24 42 24 22 24", "あ\ufffd"),
    ("1B 28 49 61", "\ufffd"),
    ("0E 61 0F", "\ufffda\ufffd"),
]

# Scalars that Python's codecs of JIS have for signs for which the standard has Microsoft's.
MOVED = {0x5C, 0x7E, 0xA5, 0x203E, 0x301C, 0x2016, 0x2212, 0xA2, 0xA3, 0xAC}

# Where, besides, another encoder has a sequence that the standard's encoder doesn't write, or has
# another one in its place: code, whose, the sequences, why.
ENCODED = [
    ("windows-1255", "iconv", "D6C4-FAD2 F9CCD1-F9CCD2", "iconv writes presentation forms as a letter and its points"),
    ("windows-1258", "iconv", "41CC-FEF2 CC EC", "iconv writes letters and marks as those that they are made of"),
    ("euc-jp", "both", "8FA1A1-8FFEFE", "JIS X 0212, which the standard decodes and doesn't encode"),
    ("euc-jp", "iconv", "A1BD A1C1-A1C2 A1F1-A1F2 A2CC", "iconv writes JIS's scalars of some signs as it does Microsoft's"),
    ("gbk", "both", "81308130-FE39FE39", "sequences of four bytes, which the standard's GBK doesn't write"),
]

# Scalars whose bytes are decoded as another one, by code (Encoding Standard, section 12.1.2).
NOT_READ_BACK = {
    "euc-jp": {0xA5: 0x5C, 0x203E: 0x7E, 0x2212: 0xFF0D},
}
