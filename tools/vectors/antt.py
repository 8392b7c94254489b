"""How questions and answers are written in antt, so that a person can read them."""

RECORDS = {
    "TN": "test_name",
    "SF": "source_file",
    "FN": "function_name",
    "FNDA": "function_data",
    "FNF": "functions_found",
    "FNH": "functions_hit",
    "BRDA": "branch_data",
    "BRF": "branches_found",
    "BRH": "branches_hit",
    "DA": "line_data",
    "LF": "lines_found",
    "LH": "lines_hit",
    "end_of_record": "end_of_record",
}

# the places of byte strings among a record's values
TEXT_PLACES = {"TN": 0, "SF": 0, "FN": 2, "FNDA": 1, "DA": 2}

ESCAPES = {"\n": "\\n", "\r": "\\r", '"': '\\"', "\\": "\\\\"}


def is_plain(byte):
    return 32 <= byte < 127 or byte in (10, 13)


def literal(plain):
    return 'ascii "' + "".join(ESCAPES.get(char, char) for char in plain.decode("ascii")) + '"'


def byte_string(value):
    """`ascii ".."`, with the bytes that are no plain characters as numbers."""
    written, rest = "", value
    while rest:
        size = next((at for at, byte in enumerate(rest) if not is_plain(byte)), len(rest))
        if size:
            written += literal(rest[:size]) + (" ++ " if size < len(rest) else "")
            rest = rest[size:]
        else:
            written += f"{rest[0]} ∷ " + ("[]" if len(rest) == 1 else "")
            rest = rest[1:]
    return written or "[]"


def argument(term):
    """A term as an argument: brackets unless it is one word."""
    return f"({term})" if " " in term else term


def element(value):
    """A byte string as an element of a list."""
    return literal(value) if value and all(map(is_plain, value)) else argument(byte_string(value))


def listed(terms):
    return " ∷ ".join([*terms, "[]"])


def pair_list(pairs):
    return listed(f"range {start} {end}" for start, end in pairs)


def of_hex(written):
    return b"" if written == "-" else bytes.fromhex(written)


def printed(written):
    """What the oracle printed, in hex, as a byte string of antt."""
    return byte_string(of_hex(written))


def record(shown):
    """A record as the oracle shows it."""
    tag, *values = shown.split(" ")
    if tag == "FN":
        # the Rust knows no end line
        values.insert(1, "none")
    terms = []
    for place, value in enumerate(values):
        optional = (tag, place) in (("BRDA", 3), ("DA", 2))
        term = printed(value) if TEXT_PLACES.get(tag) == place and value != "none" else value
        if optional and value != "none":
            term = "some " + argument(term)
        terms.append(argument(term))
    return " ".join([RECORDS[tag], *terms])


def told(answer, value):
    """An answer that may be a refusal; `value` writes what stands behind `ok`."""
    word, _, rest = answer.partition(" ")
    if word == "ok":
        return "gives " + argument(value(rest))
    number, text, line, field = rest.split(" ")
    return f"refuses {number} {line} {field}" if text == "0" else f"refuses_in {number} {text} {line} {field}"
