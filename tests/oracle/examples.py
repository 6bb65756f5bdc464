#!/usr/bin/env python3
"""Makes the standard input and output of `dump` and `trace`: rule 113's example, and rule 118's tone of 100 and 4 played to its end.

    tests/oracle/examples.py ORACLE CRATES

ORACLE is the folder with the oracle's `build`; CRATES is this repository's crates/.
"""
import struct
import sys
import tempfile
from pathlib import Path

from measured import Block, play
from replay import Oracle
from tapes import SIGNATURE, u16

PRINTED = SIGNATURE + b"\x12\x64\x00\x04\x00" + b"\x20\x01\x00" + b"\x2a\x00\x00\x00\x00"
TONE = SIGNATURE + b"\x12" + u16(100) + u16(4)
COUNTS = [99, 0, 1, 1, 298, 1, 1]


def main(home, crates):
    with tempfile.TemporaryDirectory() as folder:
        oracle = Oracle(home, Path(folder))
        answer = oracle.dump(PRINTED, 0, 512, 2048)
        blocks = [Block(line) for line in oracle.dump(TONE, 0).decode().split("\n")[1:-1]]
    dump, trace = Path(crates) / "dump", Path(crates) / "trace"
    (dump / "stdin").write_bytes(b"4" + PRINTED)
    (dump / "stdout").write_bytes(answer)
    (trace / "stdin").write_bytes(b"4m" + struct.pack("<IH", 0, len(COUNTS)) + b"".join(struct.pack("<I", n) for n in COUNTS) + TONE)
    (trace / "stdout").write_text("".join(f"{line}\n" for line in play(blocks, 0, COUNTS)))


if __name__ == "__main__":
    if len(sys.argv) != 3:
        sys.exit(__doc__)
    main(sys.argv[1], sys.argv[2])
