#!/usr/bin/env python3
"""Makes the tapes that `gate_listings` lists in the gate, and the Rust's listings of them, the last line by rule 112.

    tests/oracle/listings.py ORACLE OUT

ORACLE is the folder with the oracle's `build` and `corpus.py`; OUT gets `stdin` and `stdout` (crates/gate_listings). The same files come out each time.
zmakebas and fuse-emulator-utils of Debian are to be installed.
"""
import struct
import subprocess
import sys
import tempfile
from itertools import product
from pathlib import Path

from measured import Block, entries_of
from replay import Oracle, tools
from tapes import MODELS, SIGNATURE, counted, each_kind_cut, long_fallbacks, too_many_bits, u16

GENERATED = 1300


def loading_time(total, blocks):
    """Rule 112 from the end: the sum of all entries up to the first stop or the end, less each pause behind the last entry that sounds."""
    stop = next((i for i, block in enumerate(blocks) if block.pause is None), len(blocks) - 1)
    for i in range(stop, -1, -1):
        total -= blocks[i].pause or 0
        if any(length for _, phase, _, length in entries_of(i, blocks[i]) if phase not in ("start", "pause")):
            break
    return total


class Lister(Oracle):
    def list(self, tape, model):
        """The driver's listing, whose last line is the sum of all entries up to the first stop or the end; put anew from the blocks that it dumps."""
        path = self.room / "one.tape"
        path.write_bytes(tape)
        run = [self.room / "oracle" / "oracle", "list", MODELS[model], path]
        said = subprocess.run(run, check=True, stdout=subprocess.PIPE, stderr=subprocess.DEVNULL).stdout
        if said.startswith(b"refused"):
            return said
        rows, total = said.rsplit(b"time ", 1)
        blocks = [Block(line) for line in self.dump(tape, model, 512, 2048).decode().split("\n")[1:-1]]
        return rows + b"time %d\n" % loading_time(int(total), blocks)


def names():
    """A given name of each code point alone and among others, a group of long names, headers of each type and of each code."""
    pause = b"\x20" + u16(1)
    yield SIGNATURE + b"".join(b"\x30\x01" + bytes([k]) + pause for k in range(256))
    for k in range(0, 256, 16):
        yield SIGNATURE + b"\x30" + counted(b"a" + bytes(range(k, k + 16)) + b"\xc2") + pause
    yield SIGNATURE + b"\x21" + counted(b"\xff" * 255) + pause * 512  # nearly the longest text
    for k in range(256):
        header = bytes([0, k]) + bytes((k + i) % 256 for i in range(10)) + bytes(7)
        yield u16(19) + header + u16(2) + b"\xff\x00"


def times():
    """Stops in each place, blocks without length, the longest; and what sounds before, between and behind pauses, stops and blocks of no length."""
    for pauses in ((1, 0, 2), (0, 1), (1, 2), (0,), (65535,) * 3, (1,) * 512, (1,) * 513):
        yield SIGNATURE + b"".join(b"\x20" + u16(n) for n in pauses)
    yield SIGNATURE + b"\x24" + u16(511) + b"\x12" + u16(65535) * 2 + b"\x25"
    yield SIGNATURE + b"\x24" + u16(3) + b"\x14" + u16(65535) * 2 + b"\x08" + u16(65535) + counted(b"\xff" * 1000, 3) + b"\x25"
    sorts = [
        b"\x12" + u16(100) + u16(4),
        b"\x12" + u16(0) + u16(4),
        b"\x20" + u16(1),
        b"\x20" + u16(0),
        b"\x2a" + bytes(4),
        b"\x14" + u16(10) + u16(20) + b"\x08" + u16(5) + counted(b"\x80", 3),
        b"\x14" + u16(10) + u16(20) + b"\x08" + u16(5) + counted(b"", 3),
        b"\x14" + u16(0) + u16(20) + b"\x01" + u16(5) + counted(b"\x7f", 3),
    ]
    for pieces in product(sorts, repeat=3):
        yield SIGNATURE + b"".join(pieces)


def limits():
    """Tone rows on both sides of 2,048, the longest tape, and one byte less."""
    for n in (2046, 2047, 2048, 2049):
        symbols = b"\x00" + u16(5) + u16(6) + b"\x01" + u16(7) + u16(0)
        halves = b"\x00" + u16(8) * 2 + b"\x00" + u16(9) * 2
        sized = struct.pack("<IHI", 0, 2, n) + b"\x02\x02" + struct.pack("<I", 8) + b"\x02\x02"
        yield SIGNATURE + b"\x19" + sized + symbols + (b"\x01" + u16(3)) * n + halves + b"\xa5" + b"\x12" + u16(100) + u16(1)
    for size in (65534, 65535):
        yield bytes([size - 2 & 255, size - 2 >> 8]) + bytes(size - 2)


def main(home, out):
    records, answers, tally = [], [], {}
    with tempfile.TemporaryDirectory() as folder:
        room = Path(folder)
        oracle = Lister(home, room)

        def add(tape, model, answer=None):
            answer = answer or oracle.list(tape, model)
            records.append(bytes([model]) + struct.pack("<I", len(tape)) + tape)
            answers.append(answer)
            key = answer.split(b"\n", 1)[0].split(b" ")
            key = (b" ".join(key) if key[0] == b"refused" else b" ".join(key[1:4])).decode()
            tally[key] = tally.get(key, 0) + 1

        sorts = [oracle.corpus(2025, GENERATED), each_kind_cut(), too_many_bits(), long_fallbacks(), names(), times(), limits()]
        for sort in sorts:
            for i, tape in enumerate(sort):
                add(tape, i % 3)
        for tape in [b"", b"\x00", SIGNATURE[:8], SIGNATURE[:9], SIGNATURE, SIGNATURE + b"\x2a" + bytes(4), *tools(room)]:
            for model in MODELS:
                add(tape, model)
        add(b"", 3, b"refused 1\n")
        add(bytes(65536), 3, b"refused 1\n")
        add(bytes(65536), 0, b"refused 2\n")
    out = Path(out)
    (out / "stdin").write_bytes(struct.pack("<I", len(records)) + b"".join(records))
    (out / "stdout").write_bytes(b"".join(answers))
    print(len(records), "tapes:", ", ".join(f"{n} {k}" for k, n in sorted(tally.items())))


if __name__ == "__main__":
    if len(sys.argv) != 3:
        sys.exit(__doc__)
    main(sys.argv[1], sys.argv[2])
