#!/usr/bin/env python3
"""Packs tracefiles into a bundle, on standard output: n and T, n starts, n lengths, all little-endian u32, then T bytes of text.

    bundle.py FILE..
"""

import pathlib
import struct
import sys


def bundle(texts):
    starts = [sum(map(len, texts[:k])) for k in range(len(texts))]
    numbers = [len(texts), sum(map(len, texts)), *starts, *map(len, texts)]
    return struct.pack(f"<{len(numbers)}I", *numbers) + b"".join(texts)


if __name__ == "__main__":
    if len(sys.argv) < 2:
        sys.exit(__doc__)
    sys.stdout.buffer.write(bundle([pathlib.Path(name).read_bytes() for name in sys.argv[1:]]))
