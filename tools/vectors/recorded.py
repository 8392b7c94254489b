#!/usr/bin/env python3
"""Records texts with the Rust's answers, which the program `test_texts` replays where there is no Rust.

    recorded.py             writes crates/test_texts/stdin and stdout
    recorded.py --check     writes nothing, and fails if a file is not what would be written

The texts are those of cases.py and chosen ones that the Rust answers otherwise: at the entry limit, where line k brings the k-th entry, so
that a limit of E is passed at line E + 1; with a second SF in a section; with a plus sign before a number; and with an end line in FN.
"""

import argparse
import struct
import sys

import make
import cases

ROOT = make.ROOT


def told(answer):
    """What a program prints for an answer of the oracle."""
    word, _, rest = answer.partition(" ")
    if word == "ok":
        return b"" if rest in ("", "-") else bytes.fromhex(rest)
    assert word == "refused", answer
    return f"refused {rest}\n".encode()


# ---- texts


def limited():
    """Texts at the limits that the port adds, with what they give: 10 at the line that passes the entry limit, or the report; and 9."""
    lines = ["SF:a\n"] + [f"DA:{k},1\n" for k in range(1, 4)]
    for entries in range(len(lines)):
        yield "".join(lines) + "end_of_record\n", entries, f"refused 10 0 {entries + 1} 0\n".encode()
    whole = "".join(lines) + "end_of_record\n"
    yield whole, len(lines), make_report(whole)
    yield "", 0, b""
    yield "TN:a\n", 0, b""
    yield "end_of_record\n", 0, b""
    # the Rust's sum overflows here
    yield "SF:a\nFNDA:18446744073709551615,f\nFNDA:1,f\n", 256, b"refused 9 0 3 0\n"
    # a section that will replace a kept one counts beside it while it is open
    yield whole * 2, len(lines), b"refused 10 0 6 0\n"


def second_paths():
    """Texts with a second SF in a section, and the line of it."""
    for text, line in [
        ("SF:a\nSF:b\nend_of_record\n", 2),
        ("SF:a\nDA:1,1\nSF:a\nend_of_record\n", 3),
        ("SF:\nSF:a\nDA:1,1\nend_of_record\n", 2),
        ("SF\nSF\n", 2),
        ("SF:a\nDA:1,1\nend_of_record\nTN:b\nDA:1,1\nSF:b\nSF:\n", 7),
    ]:
        assert cases.has_second_path(text)
        yield text, 256, f"refused 25 0 {line} 0\n".encode()


def signed_numbers():
    """Texts with a plus sign before a number, and the line and the field of it."""
    for text, line, field in [
        ("DA:1,+\n", 1, 2),
        ("SF:a\nLF:+7\nend_of_record\n", 2, 1),
        ("SF:a\nBRDA:1,0,0,+5\nend_of_record\n", 2, 4),
        ("SF:a\nBRDA:1,++0,x,\n", 2, 2),
        ("FN:+1\n", 1, 1),
        ("FNH:+1,2\n", 1, 1),
        ("SF:a\nDA:+4294967296,1\n", 2, 1),
        ("TN:+5\nSF:+a\nFN:1,+2,f\nDA:1,2,+5\nend_of_record:+1\nFNDA:+0,f\n", 6, 1),
    ]:
        assert any(map(cases.has_sign, text.split("\n")))
        yield text, 256, f"refused 19 0 {line} {field}\n".encode()


# The lines of a section, and the FN and FNDA lines of its report; blanks stand for line ends.
END_LINES = [
    ("FN:1,2,f", "FN:1,2,f FNDA:0,f"),
    ("FN:1,2,", "FN:1,2, FNDA:0,"),
    ("FN:1,2,3,f", "FN:1,2,3,f FNDA:0,3,f"),
    ("FN:5,5,f", "FN:5,5,f FNDA:0,f"),
    ("FN:0,4294967295,f", "FN:0,4294967295,f FNDA:0,f"),
    ("FN:01," + "0" * 30 + "2,f", "FN:1,2,f FNDA:0,f"),
    # the later FN gives the end line or none, and FNDA leaves it
    ("FN:1,9,f FN:1,f", "FN:1,f FNDA:0,f"),
    ("FN:1,f FN:1,9,f", "FN:1,9,f FNDA:0,f"),
    ("FN:1,9,f FN:2,5,f", "FN:2,5,f FNDA:0,f"),
    ("FN:1,9,f FNDA:3,f", "FN:1,9,f FNDA:3,f"),
    ("FNDA:3,f FN:1,9,f", "FN:1,9,f FNDA:0,f"),
    # by start line, then by name, whatever the end lines are
    ("FN:2,2,a FN:1,9,b FN:1,8,c FNDA:1,d", "FN:1,9,b FN:1,8,c FN:2,2,a FNDA:1,d FNDA:0,b FNDA:0,c FNDA:0,a"),
    # a name that begins as an end line does
    ("FNDA:1,2,f FN:1,3,2,f FN:1,4,f", "FN:1,3,2,f FN:1,4,f FNDA:0,2,f FNDA:0,f"),
    # what was replaced leaves no end line
    ("FN:1,9,f end_of_record SF:a FN:1,f", "FN:1,f FNDA:0,f"),
]

# A text, and number, line and field of its refusal.
REFUSED_ENDS = [
    ("SF:a FN:5,4,f end_of_record", 23, 2, 0),
    ("FN:5,4,", 23, 1, 0),
    ("FN:5,4,f TN:a", 23, 1, 0),
    ("FN:4294967295,4294967294,f", 23, 1, 0),
    ("SF:a FN:1,4294967296,f", 6, 2, 2),
    ("FN:+9,1,f", 19, 1, 1),
    ("FN:x,1,f", 5, 1, 1),
    ("FN:9999999999,1,f", 6, 1, 1),
    ("SF:a DA:1,1 FN:,1,f", 4, 3, 1),
    ("FN:5,9,f TN:a", 7, 2, 0),
]


def end_lines():
    """Texts with an end line in FN, and what they give."""
    for section, functions in END_LINES:
        found, hit = functions.count("FNDA:"), functions.count("FNDA:") - functions.count("FNDA:0,")
        report = f"TN: SF:a {functions} FNF:{found} FNH:{hit} end_of_record "
        yield lines_of(f"SF:a {section} end_of_record "), 256, lines_of(report).encode()
    for text, number, line, field in REFUSED_ENDS:
        yield lines_of(text + " "), 256, f"refused {number} 0 {line} {field}\n".encode()
    # an end line is no entry
    yield "SF:a\nFN:1,9,f\nend_of_record\n", 2, b"TN:\nSF:a\nFN:1,9,f\nFNDA:0,f\nFNF:1\nFNH:0\nend_of_record\n"


def lines_of(blanks):
    return blanks.replace(" ", "\n")


def make_report(text):
    return told(make.ask([f"text {make.hexed(text)}"])[0])


CHOSEN_TEXTS = [
    # replaced, with another spelling; and dropped, since it is empty
    "SF:a//b\nDA:1,1\nend_of_record\nSF:a/b\nDA:2,5\nend_of_record\n",
    "SF:a\nend_of_record\nSF:b\nFN:1,f\nend_of_record\n",
    # TN at the end, and twice before a section
    "TN:x\nTN:y\nSF:a\nDA:1,1\nend_of_record\nTN:z\n",
    # a repeated DA and BRDA replace; FNDA adds; FN after FNDA sets the count to 0
    "SF:a\nDA:1,1\nDA:1,2\nBRDA:1,0,0,3\nBRDA:1,0,0,-\nend_of_record\n",
    "SF:a\nFNDA:2,f\nFN:3,f\nFNDA:1,g\nFNDA:4,g\nend_of_record\n",
    # names, checksums and ignored bodies may begin with a plus sign; an earlier field is refused before a number with one
    "TN:+5\nSF:+a\nFN:1,+2,f\nFNDA:2,+2,f\nDA:1,2,+5\nend_of_record:+1\n",
    "SF:a\nDA:x,+1\nend_of_record\n",
]


def recorded_texts():
    asked = list(dict.fromkeys(CHOSEN_TEXTS + [text for text in cases.texts()]))
    answers = make.ask([f"text {make.hexed(text)}" for text in asked])
    recorded = [(text, 256, told(answer)) for text, answer in zip(asked, answers) if answer != "outside"]
    recorded += [*limited(), *second_paths(), *signed_numbers(), *end_lines()]
    stdin = b"".join(struct.pack("<HH", entries, len(text.encode())) + text.encode() for text, entries, _ in recorded)
    return stdin, b"".join(out for _, _, out in recorded)


def files():
    stdin, stdout = recorded_texts()
    yield ROOT / "crates/test_texts/stdin", stdin
    yield ROOT / "crates/test_texts/stdout", stdout


def main():
    parser = argparse.ArgumentParser(description=__doc__, formatter_class=argparse.RawDescriptionHelpFormatter)
    parser.add_argument("--check", action="store_true")
    check = parser.parse_args().check
    wrong = []
    for file, made in files():
        if not check:
            file.write_bytes(made)
        elif not file.exists() or file.read_bytes() != made:
            wrong.append(str(file.relative_to(ROOT)))
    if wrong:
        sys.exit("not what the Rust answers: " + ", ".join(wrong))


if __name__ == "__main__":
    main()
