#!/usr/bin/env python3
"""Compares each table of refusals with the definitions, `number_of` in crates/model/specs/Answer.antt.

A table must have every number, under the definition's name where it has names, and as many meanings as numbers. Wording may differ, but a
meaning that shares more words with another number's definition than with its own is taken for that other's. Tables that say which values
a refusal tells must say equally many.
"""

import collections
import pathlib
import re
import sys

ROOT = pathlib.Path(__file__).resolve().parent.parent

# told is the number of values, or None where the table does not say
Row = collections.namedtuple("Row", "name meaning told")

# The command lends long outputs and makes its bundles and range lists itself, so it meets none of 14 to 18.
COMMAND_MEETS = [*range(1, 14), *range(19, 26), 29]


def text_of(path):
    return (ROOT / path).read_text(encoding="utf-8")


def add(table, number, row):
    if number in table:
        raise ValueError(f"number {number} comes twice")
    table[number] = row


def add_group(table, numbers, meanings, told=None):
    """Some tables put neighbours into one row: '4, 5' and 'number empty; bad digit'."""
    numbers = [int(number) for number in re.findall(r"\d+", numbers)]
    meanings = [meaning.strip() for meaning in meanings.split(";")]
    if len(numbers) != len(meanings):
        raise ValueError(f"{len(numbers)} numbers {numbers}, {len(meanings)} meanings {meanings}")
    for number, meaning in zip(numbers, meanings):
        add(table, number, Row(None, meaning, told))


def values_told(values):
    """'text, line; line 0 in a merge' is two."""
    before = (values or "").split(";")[0]
    return len([value for value in before.split(",") if value.strip()])


# ---- the tables


def definitions():
    table, meanings = {}, []
    for line in text_of("crates/model/specs/Answer.antt").splitlines():
        if line.startswith("-- "):
            meanings = [meaning.strip() for meaning in line[3:].split(";")]
        elif found := re.fullmatch(r"number_of (\w+) = (\d+)", line):
            meaning = meanings.pop(0) if meanings else ""
            add(table, int(found[2]), Row(found[1], meaning, None))
    return table


def readme():
    table = {}
    listed = text_of("README.md").split("\n| refusal |")[1].split("\n\n")[0]
    for row in re.findall(r"^\| (\d[\d, ]*) \|(.*)\|(.*)\|$", listed, re.M):
        add_group(table, row[0], row[1], values_told(row[2]))
    return table


def header():
    table = {}
    listed = text_of("include/lcov.h").split("enum lcov_refusal {")[1].split("};")[0]
    for name, number, meaning, _, values in re.findall(r"(LCOV_\w+) = (\d+),? */\* ([^:]*?)(: (.*?))? \*/", listed):
        add(table, int(number), Row(name, meaning, values_told(values)))
    if len(table) != listed.count(" = "):
        raise ValueError(f"{listed.count(' = ')} names, {len(table)} of them with a meaning")
    return table


def page():
    table = {}
    listed = text_of("rust/lcov-gather/lcov-gather.1").split(".Sh DIAGNOSTICS")[1].split("\n.Sh ")[0]
    for item in listed.split("\n.It ")[1:]:
        numbers, meaning = item.split("\n", 1)
        meaning = re.sub(r"^\..*$", "", meaning, flags=re.M)
        add_group(table, numbers, " ".join(meaning.split()))
    return table


def lcov_sys():
    table = {}
    for number, name, meaning, values in re.findall(r'^ +(\d+) (\w+) "(.*?)" "(.*?)",$', text_of("rust/lcov-sys/src/fault.rs"), re.M):
        add(table, int(number), Row(name, meaning, values_told(values)))
    return table


# ---- the comparison


def c_name(name):
    """UnknownRecord is LCOV_UNKNOWN_RECORD."""
    return "LCOV" + re.sub(r"([A-Z])", r"_\1", name).upper()


def words(text):
    """The words of a meaning or a name, in the singular."""
    apart = re.sub(r"([a-z])([A-Z])", r"\1 \2", text)
    return {word.rstrip("s") for word in re.findall(r"[a-z]{2,}", apart.lower())} - {"the", "of", "or"}


def likeness(meaning, definition):
    return len(words(meaning) & (words(definition.meaning) | words(definition.name)))


def meant(meaning, number, defined):
    """The number whose definition is most like the meaning, its own if that is as like as any."""
    return max(defined, key=lambda other: (likeness(meaning, defined[other]), other == number))


def differences(table, defined, needed, named):
    for number in sorted(set(needed) - set(table)):
        yield f"lacks {number}, {defined[number].name}"
    for number in sorted(set(table) - set(defined)):
        yield f"has {number}, which the definitions lack"
    for number in sorted(set(table) & set(defined)):
        row, definition = table[number], defined[number]
        if row.name is not None and row.name != named(definition.name):
            yield f"calls {number} {row.name}, not {named(definition.name)}"
        other = meant(row.meaning, number, defined)
        if other != number:
            yield f"gives {number} the meaning of {other}: '{row.meaning}'"


def values_differ(table, reference):
    for number, row in sorted(table.items()):
        if row.told is not None and number in reference and row.told != reference[number].told:
            yield f"tells {row.told} values of {number}, {TABLES[0][0]} {reference[number].told}"


# path, its reader, the numbers that it needs, how it writes a name
TABLES = [
    ("include/lcov.h", header, None, c_name),
    ("README.md", readme, None, str),
    ("rust/lcov-gather/lcov-gather.1", page, COMMAND_MEETS, str),
    ("rust/lcov-sys/src/fault.rs", lcov_sys, None, str),
]


def all_differences(defined):
    reference = {}
    for path, read, needed, named in TABLES:
        try:
            table = read()
        except (ValueError, IndexError) as error:
            yield f"{path} can't be read: {error}"
            continue
        reference = reference or table
        for difference in differences(table, defined, needed or defined, named):
            yield f"{path} {difference}"
        for difference in values_differ(table, reference):
            yield f"{path} {difference}"


def main():
    defined = definitions()
    unsaid = [number for number, row in defined.items() if not row.meaning]
    if not defined or unsaid:
        sys.exit(f"the definitions have no meaning for these numbers: {unsaid}")
    wrong = list(all_differences(defined))
    print(*wrong, f"{len(defined)} refusals, {len(TABLES)} tables, {len(wrong)} differences", sep="\n")
    sys.exit(1 if wrong else 0)


if __name__ == "__main__":
    main()
