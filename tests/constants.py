#!/usr/bin/env python3
"""Compares the constants that stand in several files with their source: the version with VERSION, the limits with
crates/model/specs/Limits.antt, the words of a mark with crate lab_quotas, the number of an answer's words with the code that writes them."""

import pathlib
import re
import sys

ROOT = pathlib.Path(__file__).resolve().parent.parent

HEADER = "include/lcov.h"
RUST = "rust/lcov-sys/src/lib.rs"
LIMITS = "crates/model/specs/Limits.antt"
WORDS = "crates/lcov_c_words/src/lib.rt"


def found(path, pattern):
    """What the pattern's group matches in the file, with no underscores."""
    match = re.search(pattern, (ROOT / path).read_text(encoding="utf-8"), re.M)
    return match[1].replace("_", "") if match else None


def macro(name):
    return HEADER, rf'^#define LCOV_{name} "?([^"\n]+)"?$'


def constant(name):
    return RUST, rf"^pub const {name}: u\w+ = ([\d_]+);$"


def definition(name):
    return LIMITS, rf"^{name} = ([\d_]+)$"


def version_of(package):
    return f"rust/{package}/Cargo.toml", r'^version = "(.*)"$'


# a source, and the places that must say the same
SAME = [
    (("VERSION", r"^(.*)$"), [macro("VERSION"), *map(version_of, ["lcov-sys", "lcov-gather", "oracle", "harness"])]),
    (definition("max_entries"), [macro("MAX_ENTRIES"), constant("MAX_ENTRIES")]),
    (definition("max_texts"), [macro("MAX_TEXTS"), constant("MAX_TEXTS")]),
    (definition("max_width"), [macro("MAX_WIDTH"), constant("MAX_WIDTH")]),
    (definition("max_labs"), [macro("LABS"), constant("LABS")]),
    (("crates/lab_quotas/specs/Labs.antt", r"^mark_size = (\d+)$"), [macro("MARK_WORDS"), constant("MARK_WORDS")]),
    (definition("words_per_entry"), [macro("WORDS_PER_ENTRY"), constant("WORDS_PER_ENTRY")]),
    (macro("KINDS"), [constant("KINDS")]),
    (macro("TAG_SLOT"), [constant("TAG_SLOT")]),
    (macro("TAGS_LEN"), [constant("TAGS_LEN")]),
    ((WORDS, r"^pub fn put_words\(words: \[u64; (\d+)\]"), [macro("ANSWER_WORDS"), constant("WORDS")]),
]


def main():
    wrong = 0
    for source, places in SAME:
        value = found(*source)
        for place in places:
            if value is None or found(*place) != value:
                print(f"{place[0]}: {found(*place)}, {source[0]}: {value} ({place[1]})")
                wrong += 1
    sys.exit(1 if wrong else 0)


if __name__ == "__main__":
    main()
