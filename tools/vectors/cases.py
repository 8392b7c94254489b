"""The questions, made from a fixed seed: small inputs that lie in SPEC 10.2's domain of comparison.

EXAMPLES are worked out as theorems, by crate `model_vectors`. Each function gives the questions of one kind. What a reader would ask first is written out; a random generator fills up the rest.
"""

import random
import re

SEED = "gifnksm/lcov 53f0d3bfcf"

U32_MAX = 2**32 - 1
U64_MAX = 2**64 - 1

NUMBERS = [
    "", "0", "1", "00", "007", "+", "+0", "+7", "++7", "+-7", "-", "-0", "-7", "7-", "7+", " 7", "7 ", "x", "7x", "x7", "0x7", "7_0",
    "7.0", "4294967294", "4294967295", "4294967296", "+4294967295", "+4294967296", "04294967295", "4294967295x", "4294967296x",
    "42949672950", "4294967296-", "9999999999", "18446744073709551614", "18446744073709551615", "18446744073709551616",
    "+18446744073709551615", "018446744073709551615", "18446744073709551615x", "18446744073709551616x", "184467440737095516150",
    "99999999999999999999", "00000000000000000000000007", "٣", "７",
]

# a line of each kind that is read, cut into tag and fields
SOUND = [
    ("TN", ["t"]),
    ("SF", ["m.c"]),
    ("FN", ["3", "f"]),
    ("FNDA", ["2", "f"]),
    ("FNF", ["1"]),
    ("FNH", ["1"]),
    ("BRDA", ["3", "0", "1", "2"]),
    ("BRF", ["1"]),
    ("BRH", ["1"]),
    ("DA", ["3", "2", "c"]),
    ("LF", ["1"]),
    ("LH", ["1"]),
    ("end_of_record", []),
]

# how many of a line's fields are numbers; they come first
NUMBER_FIELDS = {"FN": 1, "FNDA": 1, "FNF": 1, "FNH": 1, "BRDA": 4, "BRF": 1, "BRH": 1, "DA": 2, "LF": 1, "LH": 1}

# the number fields, by tag and place from 0; all numbers are tried in the first of each form
TRIED = [("FN", 0), ("BRDA", 3)]
SAMPLED = [("FNDA", 0, 16), ("DA", 1, 16), ("DA", 0, 6), ("BRDA", 0, 4), ("BRDA", 1, 4), ("BRDA", 2, 4)] + [
    (tag, 0, 4) for tag in ("FNF", "FNH", "BRF", "BRH", "LF", "LH")
]

ENDS = ["\n", "\r", "\r\n", "\n\r", "\r\r\n\n"]

TEXTS = ["", ",", ",,", "a,b", "a:b", ":", "-", " ", "a b", "TN:a", "\"q\"", "\\", "größe", "名,前", "a\rb", "a\nb", "\ra"]

CHECKSUMS = ["", "-", "--", "-,", ",", ",-", " -", "- ", "+", "a,b", "Xc0Y/+==", "é"]

OTHER_TAGS = [
    "", ":", " ", "tn:a", "T:a", "TNX:a", " TN:a", "TN :a", "TN;a", "FND:1,f", "FNDAX:1,f", "FNL:1,2", "FNA:1,2,f", "VER:1", "#", "DA;1,2",
    "DA 1,2", "end_of_recor", "end_of_record ", "END_OF_RECORD", "end-of-record", "\ufeffTN:a", "é:1", "\r", "\n", "TN\n:a",
]

# what stands between FN's first two commas is no end line, so that all after the first comma is the name
NO_ENDS = ["FN:1,,x", "FN:1,+2,f", "FN:1, 2,f", "FN:1,2x,f", "FN:1,4294967296x,f", "FN:1,2", "FN:1,２,f", "FN:1,-,f"]

ALONE = ["TN", "SF", "FN", "FNDA", "FNF", "BRDA", "DA", "LH", "end_of_record:z", "end_of_record:", "end_of_record:1,2"]


def generator(kind):
    """A kind's own generator, so that a change to one kind leaves the others' questions."""
    return random.Random(f"{SEED} {kind}")


def line(tag, fields):
    return tag + ":" + ",".join(fields) if fields else tag


def distinct(items):
    return list(dict.fromkeys(items))


# ---- lines


def lines():
    rng = generator("lines")
    sound = dict(SOUND)

    def with_field(tag, place, value):
        fields = list(sound[tag])
        fields[place] = value
        return line(tag, fields)

    asked = [line(tag, fields) for tag, fields in SOUND]
    asked += [with_field(tag, place, number) for tag, place in TRIED for number in NUMBERS]
    asked += [with_field(tag, place, number) for tag, place, many in SAMPLED for number in rng.sample(NUMBERS, many)]
    for tag, fields in SOUND:
        asked += [line(tag, fields[:kept]) for kept in range(1, len(fields))]
        asked += [line(tag, fields + ["9"]), line(tag, fields + [""])]
        asked.append(line(tag, fields) + rng.choice(ENDS))
    asked += ALONE + [tag + ":" for tag, fields in SOUND]
    asked += ["DA:1,2" + end for end in ENDS] + ["DA:1,2,-" + end for end in ENDS] + ["FN:1\r,f", "DA:1,2\n,c", "DA:1,\n2"]
    asked += [line(tag, before + [text]) for tag, before in (("TN", []), ("SF", []), ("FN", ["3"])) for text in TEXTS]
    asked += ["FNDA:2," + text for text in rng.sample(TEXTS, 6)]
    asked += ["DA:1,2," + checksum for checksum in CHECKSUMS]
    asked += OTHER_TAGS + NO_ENDS
    return [text for text in distinct(asked) if not has_sign(text) and not has_end(text)]


def has_sign(text):
    """Whether a number field of a line begins with '+'. The Rust takes the sign, and the port refuses it; so it is not asked."""
    tag, _, body = text.partition(":")
    return any(field.startswith("+") for field in body.split(",")[: NUMBER_FIELDS.get(tag, 0)])


def has_end(text):
    """Whether a line is FN with an end line. The Rust takes it for a part of the name, and the port reads it; so it is not asked."""
    return re.match("FN:[^,]*,[0-9]+,", text) is not None


# ---- paths

PATHS = [
    "", "/", "//", ".", "./", "./.", "..", "../", "./..", "/.", "/./a", "/..", "/../a", "a", "a/", "a//", "a/.", "a/./", "./a", ".//a", "a/b",
    "a//b", "a/./b", "a/../b", "a-b", "a.b", "ab", "A", ".a", "a.", "...", "a/b/c", "a/b-c", "/a", "//a", "é", "é/a", "~", "a,b", "/a/b/",
]

CHOSEN_PATHS = [
    ("a//b", "a/./b"), ("./a", "a"), ("a/b", "a-b"), ("", "."), ("", "/"), ("/", "."), (".", ".."), ("..", "..."), ("/./a", "/a"), ("./.", "."),
    ("a", "a/b"), ("a/", "a"), ("//a", "/a"), ("a/..", "a"), ("../a", "./a"), (".a", "."), (".a", ".."), ("é", "z"), ("/..", "/"),
]


def respelled(rng, path):
    """The same components, spelled otherwise."""
    spelled = "".join(part if part != "/" else rng.choice(["/", "//", "/./"]) for part in path)
    return spelled + rng.choice(["", "/", "/."]) if spelled else spelled


def paths():
    rng = generator("paths")
    asked = list(CHOSEN_PATHS)
    while len(distinct(asked)) < 80:
        a = rng.choice(PATHS)
        asked.append((a, respelled(rng, a) if rng.random() < 0.3 else rng.choice(PATHS)))
    return distinct(asked)


# ---- texts

MOST_LINES = 11

CHOSEN_TEXTS = [
    "", "\n", "\r\n", "TN:a\n", "TN:a", "TN:a\nTN:b\n", "TN:a\nSF:b\n", "end_of_record\n", "end_of_record", "SF:a\nend_of_record\n",
    "TN:x\nend_of_record\nDA:1,1\nend_of_record\n", "FNDA:2,f\nFN:3,f\nend_of_record\n", "FN:3,f\nFNDA:2,f\nFNDA:5,f\nend_of_record\n",
    "FN:3,f\nFN:4,f\nend_of_record\n", "FNDA:2,f\nend_of_record\n", "DA:1,2\nDA:1,5\nend_of_record\n", "DA:1,2,c\nDA:1,5\nend_of_record\n",
    "BRDA:1,0,0,2\nBRDA:1,0,0,-\nend_of_record\n", "SF:a\nend_of_record\nSF:b\nDA:1,1\nend_of_record\n", "DA:1,1\nSF:a\nend_of_record\n",
    "SF:a//b\nDA:1,1\nend_of_record\nSF:a/b\nDA:2,2\nend_of_record\n", "SF:a/b\nFN:1,f\nend_of_record\nSF:a/./b/\nDA:2,0\nend_of_record\n",
    "SF:a-b\nDA:1,1\nend_of_record\nSF:a/b\nDA:1,1\nend_of_record\n", "TN:b\nDA:1,1\nend_of_record\nTN:a\nDA:1,1\nend_of_record\n",
    "TN:a\nDA:1,1\nend_of_record\nDA:2,1\nend_of_record\n", "TN:a\nTN:b\nSF:m.c\nDA:1,1\nend_of_record\nTN:c\n",
    "DA:1,1\n", "DA:1,1\nend_of_record\nLF:0", "TN:a\nFN:1,f\nFNDA:1,f", "LF:1\nTN:a\n", "SF:a\nTN:b\nend_of_record\n", "TN:a\nSF:b\nTN:c\n", "SF:a\n\nend_of_record\n", "SF:a\r\nDA:1,1,-\r\nend_of_record\r\n",
    "LF:1\nLH:1\nFNF:9\nend_of_record\n", "LF:1\n", "SF:a\nDA:1,1\nend_of_record:z", "SF:a\nXX:1\nend_of_record\n", "SF:a\nFN:5\nend_of_record\n",
    "SF:a\nLF:1,2\nend_of_record\n", "FNF:1,\n", "SF:a\nBRDA:1,0,0,1,\n", "SF:a\nFN:,f\n", "SF:a\nBRDA:1,0,0,\n", "LH\n", "FNDA:7\n", "DA:4294967296x,0\n", "DA:4294967295x,0\n", "SF:a\nDA:,1\nend_of_record\n", "SF:a\nDA:1,-\nend_of_record\n", "SF:a\nBRDA:1,2,4294967296,-\n",
    "TN:é\nSF:größe.c\nFN:1,名\nFNDA:1,名\nend_of_record\n", "DA:3,0\nDA:1,0\nDA:2,1\nend_of_record\n",
    "FN:7,a\nFN:2,b\nFNDA:1,c\nFNDA:0,a\nend_of_record\n", "BRDA:2,0,1,1\nBRDA:2,0,0,-\nBRDA:1,9,9,0\nend_of_record\n",
    "DA:4294967295,18446744073709551615\nend_of_record\n", "FN:0,\nFNDA:0,\nend_of_record\n",
    "FN:1,2\nFN:1,,2\nFN:1,2x,f\nFNDA:3,2,f\nFNDA:1,2x,f\nend_of_record\n",
]

TESTS = ["", "a", "b", "a-b", "t,1", "é"]
FILES = ["m.c", "a/b", "a//b", "a/./b", "a-b", "./a", "a", "a/", "/x", "/x/", "..", ""]
FUNCTIONS = ["f", "g", "ff", "f,1", "größe", ""]
COUNTS = [0, 0, 1, 2, 3, 9, 2**62]


# files that are one in several spellings, or nearly
NEAR_FILES = [["m.c"], ["a/b", "a//b", "a/./b"], ["a/b", "a-b"], ["/x", "/x/"], ["a", "a/", "./a"]]


class Sections:
    """Random sections. `steady` ones agree on starts and checksums."""

    def __init__(self, rng, steady):
        self.rng = rng
        self.steady = steady
        self.tests = rng.sample(TESTS, 2)
        self.files = rng.sample(FILES, 3)
        self.functions = FUNCTIONS
        self.numbers = 5
        self.sizes = [0, 1, 2, 3, 5]

    @classmethod
    def meeting(cls, rng, steady):
        """Few names, so that those of different texts meet."""
        made = cls(rng, steady)
        made.tests = rng.sample(TESTS, rng.choice([1, 1, 2]))
        made.files = rng.choice(NEAR_FILES)
        made.functions = rng.sample(FUNCTIONS, rng.choice([1, 2, 3]))
        made.numbers = 3
        made.sizes = [2, 3, 4]
        return made

    def start(self, name):
        return len(name.encode()) if self.steady else self.rng.choice([0, 1, 2, 3, 3, U32_MAX])

    def checksum(self, number):
        given = f",c{number}" if self.steady else self.rng.choice([",x", ",y", ",", ",-", ",a,b"])
        return self.rng.choice(["", given])

    def item(self):
        rng = self.rng
        kind = rng.choice(["FN", "FN", "FNDA", "FNDA", "BRDA", "BRDA", "DA", "DA", "DA", "found"])
        if kind == "FN":
            name = rng.choice(self.functions)
            return f"FN:{self.start(name)},{name}"
        if kind == "FNDA":
            return f"FNDA:{rng.choice(COUNTS)},{rng.choice(self.functions)}"
        if kind == "BRDA":
            return f"BRDA:{rng.randrange(self.numbers)},{rng.randrange(2)},{rng.randrange(2)},{rng.choice(COUNTS + ['-', '-'])}"
        if kind == "DA":
            number = rng.randrange(self.numbers)
            return f"DA:{number},{rng.choice(COUNTS)}{self.checksum(number)}"
        return rng.choice(["FNF:7", "FNH:0", "BRF:1", "BRH:1", "LF:3", "LH:4294967295"])

    def section(self):
        rng = self.rng
        items = [self.item() for _ in range(rng.choice(self.sizes))]
        items.insert(rng.randrange(len(items) + 1), "SF:" + rng.choice(self.files))
        tests = ["TN:" + test for test in rng.choices(self.tests, k=rng.choice([0, 1, 1, 1, 2]))]
        return tests + items + ["end_of_record"]

    def text(self):
        made = []
        for _ in range(self.rng.choice([1, 2, 2, 3])):
            section = self.section()
            if len(made) + len(section) <= MOST_LINES:
                made += section
        return made


def damaged(rng, text, bad_lines):
    """One fault put into a text."""
    text = list(text)
    place = rng.randrange(len(text))
    fault = rng.choice(["line", "line", "line", "test", "cut"])
    if fault == "line":
        text[place] = rng.choice(bad_lines)
    elif fault == "test":
        text.insert(place, "TN:z")
    else:
        del text[place:]
    return text


def joined(rng, text):
    end = rng.choice(["\n", "\n", "\n", "\r\n"])
    whole = end.join(text)
    return whole + rng.choice([end, end, ""]) if text else whole


def has_second_path(text):
    """Whether a section has two SF lines. The Rust takes the last one, and the port refuses it; so it is not asked."""
    paths = 0
    for line in text.split("\n"):
        tag = line.rstrip("\r").partition(":")[0]
        paths = 0 if tag == "end_of_record" else paths + (tag == "SF")
        if paths > 1:
            return True
    return False


def compared(asked, texts_of):
    """The questions that the Rust answers as the port must."""
    return distinct(question for question in asked if all(map(is_compared, texts_of(question))))


def is_compared(text):
    lines = text.split("\n")
    return not (has_second_path(text) or any(map(has_sign, lines)) or any(map(has_end, lines)))


def bad_lines():
    """Lines of which a text has no more than one, and that hold no line end."""
    return [text for text in lines() if "\n" not in text and len(text.encode()) < 30]


def texts():
    rng = generator("texts")
    bad = bad_lines()
    asked = list(CHOSEN_TEXTS)
    while len(compared(asked, lambda text: [text])) < 96:
        text = Sections(rng, steady=False).text()
        asked.append(joined(rng, damaged(rng, text, bad) if text and rng.random() < 0.4 else text))
    return compared(asked, lambda text: [text])


# ---- gathers

DATA = "SF:m.c\nFN:3,f\nFNDA:2,f\nDA:3,2\nDA:4,0\nend_of_record\n"

CHOSEN_BUNDLES = [
    [], [""], ["", ""], [DATA], [DATA, DATA], [DATA, "", DATA, "TN:a\n"],
    ["FN:1,f\nend_of_record\n", "FN:2,f\nend_of_record\n"], ["FN:1,f\nend_of_record\n", "FNDA:2,f\nend_of_record\n", "FN:2,f\nend_of_record\n"],
    ["DA:1,1,a\nend_of_record\n", "DA:1,1,b\nend_of_record\n"], ["DA:1,1,a\nend_of_record\n", "DA:1,1,\nend_of_record\n"],
    ["DA:1,1\nend_of_record\n", "DA:1,1,b\nend_of_record\n", "DA:1,1\nend_of_record\n"],
    ["FN:1,f\nDA:1,1,a\nend_of_record\n", "FN:2,f\nDA:1,1,b\nend_of_record\n"],
    ["SF:a//b\nDA:1,1\nend_of_record\n", "SF:a/b\nDA:1,2\nend_of_record\n"], ["SF:a/b/\nDA:1,1\nend_of_record\n", "SF:a/./b\nDA:2,2\nend_of_record\n"],
    ["FNDA:18446744073709551615,f\nend_of_record\n", "FNDA:3,f\nend_of_record\n"],
    ["FNDA:18446744073709551614,f\nend_of_record\n", "FNDA:1,f\nend_of_record\n", "FNDA:1,f\nend_of_record\n"],
    ["DA:1,18446744073709551615\nend_of_record\n", "DA:1,0\nDA:2,18446744073709551615\nend_of_record\n"],
    ["BRDA:1,0,0,-\nend_of_record\n", "BRDA:1,0,0,-\nend_of_record\n"], ["BRDA:1,0,0,-\nend_of_record\n", "BRDA:1,0,0,0\nend_of_record\n"],
    ["BRDA:1,0,0,2\nBRDA:1,0,2,1\nend_of_record\n", "BRDA:1,0,1,-\nBRDA:1,0,0,3\nend_of_record\n"],
    ["DA:1,1\nDA:3,1\nDA:5,1\nend_of_record\n", "DA:2,2\nDA:4,2\nend_of_record\n", "DA:5,0\nDA:0,0\nend_of_record\n"],
    [DATA, "SF:a\n"], [DATA, "SF:a\nTN:b\n", DATA], ["TN:a\n", "DA:x,1\n"],
    ["TN:b\nDA:1,1\nend_of_record\n", "TN:a\nDA:1,1\nend_of_record\n", "SF:z\nDA:1,1\nend_of_record\n"],
    ["SF:a\nDA:1,1,x\nend_of_record\nSF:b\nFN:1,f\nend_of_record\n", "SF:a\nDA:1,1,y\nend_of_record\nSF:b\nFN:2,f\nend_of_record\n"],
]


def gathers():
    rng = generator("gathers")
    bad = bad_lines()
    asked = [(mode, tuple(texts)) for texts in CHOSEN_BUNDLES for mode in ("checked", "lossy")]
    while len(compared(asked, lambda gather: gather[1])) < 120:
        sections = Sections.meeting(rng, steady=rng.random() < 0.5)
        texts = [sections.text() for _ in range(rng.choice([1, 2, 3, 3, 4, 4]))]
        if rng.random() < 0.15:
            at = rng.randrange(len(texts))
            texts[at] = damaged(rng, texts[at], bad) if texts[at] else texts[at]
        asked.append((rng.choice(["checked", "lossy"]), tuple(joined(rng, text) for text in texts)))
    return compared(asked, lambda gather: gather[1])


# ---- ranges

CHOSEN_INSERTS = [
    "", "1-2,3-4", "1-2,4-5", "3-4,1-2", "0..0", "5..5", "5..6", "2-1", "0-0,0-0", "4294967295-4294967295,4294967294-4294967294",
    "0-4294967295,3-4", "3-4,0-4294967295", "1-1,3-3,5-5,2-2", "1-1,3-3,5-5,2-4", "1-9,3-4", "3-4,1-9", "1-2,1-5", "1-5,1-2", "4294967295..0",
    "0..4294967295", "4294967290-4294967292,4294967294-4294967295,0-1",
]


def bounds(rng):
    return rng.choice([rng.randrange(13), rng.randrange(13), rng.randrange(30), U32_MAX - rng.randrange(4)])


def insert(rng):
    start = bounds(rng)
    end = start + rng.choice([0, 0, 1, 2, 5]) if rng.random() < 0.8 else bounds(rng)
    return f"{start}{rng.choice(['-', '-', '-', '..'])}{min(end, U32_MAX)}"


def inserts():
    rng = generator("inserts")
    asked = list(CHOSEN_INSERTS)
    while len(distinct(asked)) < 60:
        asked.append(",".join(insert(rng) for _ in range(rng.randrange(2, 8))))
    return distinct(asked)


def pairs(rng):
    """A list that is well formed: ascending, with gaps."""
    made, at = [], rng.choice([0, 0, 1, 2])
    for _ in range(rng.randrange(5)):
        end = at + rng.choice([0, 0, 1, 3])
        made.append((at, end))
        at = end + rng.randrange(2, 5)
    if rng.random() < 0.2:
        made.append((U32_MAX - rng.randrange(3), U32_MAX))
    return tuple(made)


CHOSEN_QUERIES = [
    ((), 0, 0), (((1, 2),), 3, 2), (((1, 3),), 3, 2), (((1, 3),), 2, 1), (((1, 1),), 5, 0), (((1, 9),), 5, 2), (((0, 0),), 0, 0), (((3, 3),), 0, 2),
    (((3, 3),), 4, U32_MAX), (((U32_MAX, U32_MAX),), 7, U32_MAX), (((0, U32_MAX),), U32_MAX, 0), (((1, 2), (5, 6)), 3, 4),
]


def queries():
    rng = generator("queries")
    asked = list(CHOSEN_QUERIES)
    while len(distinct(asked)) < 60:
        start = bounds(rng)
        end = rng.choice([start, start, start + 1, start + 4, max(start - 1, 0), bounds(rng)])
        asked.append((pairs(rng), start, min(end, U32_MAX)))
    return distinct(asked)


# ---- filters

CHOSEN_FILTERS = [
    ("SF:a\nFN:3,f\nFN:3,g\nend_of_record\n", ((3, 3),)), ("SF:a\nFN:3,f\nFN:3,g\nend_of_record\n", ((4, 9),)), ("", ()), (DATA, ()),
    (DATA, ((0, U32_MAX),)), ("FNDA:2,f\nDA:1,1\nend_of_record\n", ((0, U32_MAX),)), ("FN:0,f\nFN:0,g\nend_of_record\n", ((0, 0),)),
    ("FN:0,f\nFN:1,g\nend_of_record\n", ((0, 0),)), ("FN:9,f\nFN:2,g\nFNDA:1,h\nend_of_record\n", ((5, 8),)),
    ("SF:a\nDA:1,1\nend_of_record\nSF:b\nDA:2,1\nend_of_record\n", ((2, 2),)), ("FN:9,f\nend_of_record\n", ((U32_MAX, U32_MAX),)),
    ("SF:a\n", ((1, 1),)), ("DA:x,1\n", ()), ("TN:a\nLF:1\nTN:b\n", ((1, 1),)), ("\n", ((1, 1),)), ("DA:1,1\nFN:1\n", ()),
]


def filters():
    rng = generator("filters")
    bad = bad_lines()
    asked = list(CHOSEN_FILTERS)
    while len(compared(asked, lambda question: question[:1])) < 50:
        text = Sections(rng, steady=rng.random() < 0.5).text()
        text = damaged(rng, text, bad) if text and rng.random() < 0.08 else text
        asked.append((joined(rng, text), pairs(rng)))
    return compared(asked, lambda question: question[:1])


# ---- examples

ROOM_A = "TN:a\nSF:m.c\nFN:3,f\nFNDA:2,f\nDA:3,2\nend_of_record\n"
ROOM_B = "TN:a\nSF:m.c\nFN:3,f\nFNDA:5,f\nDA:3,5\nDA:4,0\nend_of_record\n"
OTHER_START = "TN:a\nSF:m.c\nFN:4,f\nend_of_record\n"

EXAMPLES = {
    "lines": ["DA:3,2,c", "BRDA:3,0,1,-", "FN:4294967296,f"],
    "paths": [("a//b", "a/./b"), ("a/b", "a-b")],
    "texts": ["SF:a\nDA:1,1\nDA:1,2\nend_of_record\n", "TN:a\nSF:b\n"],
    "gathers": [("checked", [ROOM_A, ROOM_B]), ("checked", [ROOM_A, OTHER_START]), ("lossy", [ROOM_A, OTHER_START])],
    "inserts": ["1-2,4-5,3-3", "5..7,9..9"],
    "queries": [(((1, 3),), 3, 2), (((1, 2), (5, 6)), 3, 4)],
    "filters": [("SF:a\nFN:3,f\nFN:5,g\nDA:4,1\nDA:6,1\nend_of_record\n", ((4, 4),))],
}
