#!/usr/bin/env python3
"""Asks the Rust and the port the questions of cases.py, and writes a few of them, with the Rust's answers, for the crate `model_vectors`.

    make.py             writes crates/model_vectors/specs/Examples.antt
    make.py --check     writes nothing, and fails if that file is not what would be written

Both ways it fails if the port answers a question otherwise than the Rust. The written file holds the examples of cases.py and a law for
each kind of them: the definitions of crate `model` give the same answers, by computation. Asked.antt, written by hand, says what is asked.
It needs cargo, the Rust (see rust/oracle) and the static library (`rt lib` in crates/lcov_c).
"""

import argparse
import collections
import pathlib
import subprocess
import sys

import antt
import cases

ROOT = pathlib.Path(__file__).resolve().parent.parent.parent
EXAMPLES = ROOT / "crates/model_vectors/specs/Examples.antt"
ORACLE = ROOT / "rust/target/release/oracle"
PORT = ROOT / "rust/target/release/port"
WIDTH = 140


# ---- requests: see the head of rust/oracle/src/requests.rs


def hexed(text):
    return text.encode().hex() or "-"


def shown_pairs(pairs):
    return ",".join(f"{start}-{end}" for start, end in pairs) or "-"


def ask(requests, program=ORACLE):
    whole = "".join(request + "\n" for request in requests)
    answered = subprocess.run([program], input=whole, capture_output=True, text=True, check=True).stdout.splitlines()
    assert len(answered) == len(requests)
    return answered


# ---- kinds


class Kind:
    """A kind of question: the names of Asked.antt that its examples use, how it is asked, and how it is written."""

    def questions(self):
        return cases.EXAMPLES[self.name] + getattr(cases, self.name)()


class Lines(Kind):
    name, type, ask = "lines", "Line", "ask_line"

    def requests(self, line):
        return [f"line {hexed(line)}", f"print {hexed(line)}"]

    def vector(self, line, answers):
        shown, printed = answers
        answer = antt.told(shown, lambda record: f"{antt.record(record)}, {antt.printed(printed.removeprefix('ok '))}")
        return antt.byte_string(line.encode()), answer


class Paths(Kind):
    name, type, ask = "paths", "Paths", "ask_paths"

    def requests(self, pair):
        return [f"paths {hexed(pair[0])} {hexed(pair[1])}"]

    def vector(self, pair, answers):
        a, b = (antt.argument(antt.byte_string(path.encode())) for path in pair)
        return (f"{answers[0].removeprefix('ok ')} {a} {b}",)


class Texts(Kind):
    name, type, ask = "texts", "Text", "ask_text"

    def requests(self, text):
        return [f"text {hexed(text)}"]

    def vector(self, text, answers):
        return antt.byte_string(text.encode()), antt.told(answers[0], antt.printed)


class Gathers(Kind):
    name, type, ask = "gathers", "Gather", "ask_gather"

    def requests(self, gather):
        mode, texts = gather
        return [" ".join(["gather", mode] + [",".join(map(hexed, texts))] * bool(texts))]

    def vector(self, gather, answers):
        mode, texts = gather
        listed = antt.listed(antt.element(text.encode()) for text in texts)
        return f"({mode.title()}, {listed})", antt.told(answers[0], antt.printed)


class Inserts(Kind):
    name, type, ask = "inserts", "Inserts", "ask_inserts"

    def requests(self, inserts):
        return [f"insert {inserts or '-'}"]

    def vector(self, inserts, answers):
        ranges = antt.listed(self.range(written) for written in inserts.split(",") if written)
        return ranges, antt.told(answers[0], lambda held: antt.pair_list(pairs_of(held)))

    def range(self, written):
        made, between = ("half_open", "..") if ".." in written else ("range", "-")
        return " ".join([made, *written.split(between)])


class Queries(Kind):
    name, type, ask = "queries", "Query", "ask_query"

    def requests(self, query):
        pairs, start, end = query
        return [f"query {shown_pairs(pairs)} {start} {end}"]

    def vector(self, query, answers):
        pairs, start, end = query
        truth = antt.told(answers[0], lambda word: {"yes": "true", "no": "false"}[word])
        return f"({antt.pair_list(pairs)}, {start}, {end})", truth


class Filters(Kind):
    name, type, ask = "filters", "Filtered", "ask_filter"

    def requests(self, question):
        text, pairs = question
        return [f"filter {hexed(text)} {shown_pairs(pairs)}"]

    def vector(self, question, answers):
        text, pairs = question
        return f"({antt.byte_string(text.encode())}, {antt.pair_list(pairs)})", antt.told(answers[0], antt.printed)


KINDS = [Lines(), Paths(), Texts(), Gathers(), Inserts(), Queries(), Filters()]


def pairs_of(shown):
    return [pair.split("-") for pair in shown.split(",")] if shown != "-" else []


# ---- answers


def answered(kind):
    """Questions with the Rust's answers. A question outside the domain of comparison would be a mistake of cases.py."""
    asked = kind.questions()
    requests = [kind.requests(question) for question in asked]
    each = [request for of_one in requests for request in of_one]
    answers = ask(each)
    differ = [f"{request}: {rust}; the port: {port}" for request, rust, port in zip(each, answers, ask(each, PORT)) if rust != port]
    assert not differ, "\n".join(["the port answers otherwise:", *differ])
    rest = iter(answers)
    pairs = [(question, [next(rest) for _ in of_one]) for question, of_one in zip(asked, requests)]
    outside = [question for question, told in pairs if told[0] == "outside"]
    assert not outside, f"outside the domain of comparison: {outside}"
    return pairs


def summary(name, pairs):
    numbers = collections.Counter(int(told[0].split(" ")[1]) for _, told in pairs if told[0].startswith("refused"))
    refused = ", ".join(f"{number}: {many}" for number, many in sorted(numbers.items()))
    return f"{name}: {len(pairs)} questions" + (f", refused by number: {refused}" if refused else "")


# ---- the file

# what the examples may use, by module
USED = {
    "Rattle.std.specs.Prelude": ["refl", "true", "false", "List", "[]", "◌∷◌", "◌++◌"],
    "Rattle.std.proofs.Math.Option": ["none", "some"],
    "Rattle.model.specs.declared.Mode.TheVariants": ["Checked", "Lossy"],
    "Rattle.model.specs.Bytes": ["ascii"],
    "Rattle.model.specs.Record": list(antt.RECORDS.values()),
    "Rattle.model.specs.Ranges": ["half_open"],
    "Rattle.model_vectors.specs.Asked": [
        "Agrees", *(name for kind in KINDS for name in (kind.type, kind.ask)), "gives", "refuses", "refuses_in", "range", "less", "equal",
        "greater", "open_asked",
    ],
}


def uses(body):
    """The imports that the laws need."""
    words = set(body.replace("(", " ").replace(")", " ").replace(",", " ").split())
    for module, names in USED.items():
        needed = [name for name in names if name.strip("◌") in words]
        if needed:
            yield f"use {module}.{{{', '.join(needed)}}}"


def laid_out(name, vectors):
    """A list, one element to a row, or to four rows where it is long; as `rt fmt` would have it."""
    made = f"{name} ="
    for at, parts in enumerate(vectors):
        row = f"({', '.join(parts)})" if len(parts) > 1 else parts[0]
        indent, cons = ("    ", "∷ ") if at else ("", "")
        if len(row) <= WIDTH or len(parts) == 1:
            made += f"\n    {cons}{row}"
        else:
            inner = "".join(f"{indent}  {part},\n" for part in parts)
            made += (f"\n{indent}{cons}" if at else " ") + f"(\n{inner}{indent})"
    return made + "\n    ∷ []\n"


def law(kind, pairs):
    vectors = [kind.vector(*pair) for pair in pairs[: len(cases.EXAMPLES[kind.name])]]
    return (
        f"\nabbrev pub {kind.name} : List {kind.type}\n{laid_out(kind.name, vectors)}"
        f"\npub {kind.name}_agree : Agrees {kind.ask} {kind.name}\nunfolding open_asked\n{kind.name}_agree = refl\n"
    )


def written(body):
    head = "-- Worked examples, with the answers of the Rust. Made by tools/vectors/make.py. Assumes nothing.\n"
    return head + "".join(line + "\n" for line in uses(body)) + body


def main():
    arguments = argparse.ArgumentParser()
    arguments.add_argument("--check", action="store_true")
    arguments = arguments.parse_args()

    subprocess.run(["cargo", "build", "--release", "--offline", "--quiet", "-p", "oracle", "-p", "harness"], cwd=ROOT / "rust", check=True)
    body = ""
    for kind in KINDS:
        pairs = answered(kind)
        print(summary(kind.name, pairs))
        body += law(kind, pairs)
    made = written(body)
    if not arguments.check:
        EXAMPLES.write_text(made)
    elif EXAMPLES.read_text() != made:
        sys.exit(f"not what the Rust answers: {EXAMPLES.relative_to(ROOT)}")


if __name__ == "__main__":
    main()
