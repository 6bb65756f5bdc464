#!/usr/bin/env python3
"""Makes the runs that `gate_retrace` prints in the gate, and their lines: the source's play from the Rust, the measured player's from measured.py.

    tests/oracle/retrace.py ORACLE OUT

ORACLE is the folder with the oracle's `build` and `corpus.py`; OUT gets `stdin` and `stdout` (crates/gate_retrace). The same files come out each time.
"""
import random
import struct
import subprocess
import sys
import tempfile
from pathlib import Path

from measured import Block, entries_of, play
from replay import Oracle
from tapes import MODELS, SIGNATURE, u16

TAPES, MOST = 700, 4000  # accepted tapes, and the entries that a listed tape may have


def counts_for(r, blocks):
    """Calls at, below and above the edges of entries, none, one, whole sums, and far too many."""
    lengths = [e[3] for i, b in enumerate(blocks) for e in entries_of(i, b)]
    finite = [n for n in lengths if n]
    total = sum(finite)
    shape = r.randrange(6)
    if shape == 0 and finite:
        return [max(0, r.choice(finite) + r.choice([-1, 0, 1])) for _ in range(r.randrange(1, 12))]
    if shape == 1:
        return [r.randrange(1, 4) for _ in range(r.randrange(1, 20))]
    if shape == 2:  # each edge in turn, with calls of 0 between
        return [n for m in finite[: r.randrange(1, 15)] for n in (m, 0)][:40]
    if shape == 3:
        return [total, 0, 1, 1]
    if shape == 4:
        return [max(0, total + r.choice([-2, -1, 0, 1, 2])), r.randrange(3), 4294967295, 4294967295]
    return [r.choice([0, 1, 11, 69888, 4294967295, r.randrange(1, 100000)]) for _ in range(r.randrange(1, 10))]


def edges():
    """Tapes about players (rules 93 to 105): one tone, pauses one after the other, a stop, entries of no length, nothing at all."""
    yield SIGNATURE + b"\x12" + u16(100) + u16(4)
    yield SIGNATURE + b"\x20" + u16(1) + b"\x20" + u16(2)
    yield SIGNATURE + b"\x20" + u16(1) + b"\x20\x00\x00\x20" + u16(1)
    yield SIGNATURE + b"\x12" + u16(0) + u16(9) + b"\x12" + u16(5) + u16(3)
    yield SIGNATURE + b"\x14" + u16(10) + u16(20) + b"\x00" + u16(0) + b"\x01\x00\x00\x80"
    yield SIGNATURE
    yield b""
    yield b"\x01\x00\xff"


def main(home, out):
    r = random.Random(1982)
    runs, lines, tally = [], [], {"m": 0, "s": 0}
    with tempfile.TemporaryDirectory() as folder:
        room = Path(folder)
        oracle = Oracle(home, room)

        def source(tape, model, start, counts):
            path = room / "one.tape"
            path.write_bytes(tape)
            words = [room / "oracle" / "oracle", "play", MODELS[model], path, str(start), *map(str, counts)]
            return subprocess.run(words, check=True, stdout=subprocess.PIPE, stderr=subprocess.DEVNULL).stdout

        def add(player, tape, model, start, counts, text):
            body = MODELS[model].encode() + player.encode() + struct.pack("<IH", start, len(counts))
            body += b"".join(struct.pack("<I", n) for n in counts) + tape
            runs.append(struct.pack("<I", len(body)) + body)
            lines.append(text)
            tally[player] += 1

        tapes, seen = list(edges()), 0
        for tape in oracle.corpus(77, 6000):
            if len(tapes) >= TAPES:
                break
            tapes.append(tape)
        for i, tape in enumerate(tapes):
            model = i % 3
            answer = oracle.dump(tape, model, 512, 2048).decode()
            if answer.startswith("refused"):
                if seen < 60:
                    seen += 1
                    add("m", tape, model, 0, [1], answer.encode())
                continue
            blocks = [Block(line) for line in answer.split("\n")[1:-1]]
            if sum(1 for n, b in enumerate(blocks) for _ in entries_of(n, b)) > MOST and i > 7:
                continue
            for _ in range(5 if i > 7 else 40):
                start = r.choice([0, r.randrange(len(blocks) + 2), len(blocks), len(blocks) + 7, 4294967295]) if r.random() < 0.5 else 0
                counts = counts_for(r, blocks)
                add("m", tape, model, start, counts, "".join(f"{line}\n" for line in play(blocks, start, counts)).encode())
                add("s", tape, model, start, counts, source(tape, model, start, counts))
        for body in (b"", b"5", b"4", b"4m", b"4x\x00\x00\x00\x00\x00\x00", b"4m\x00\x00\x00\x00\x01\x00", b"4m\x00\x00\x00\x00\xe9\x03"):
            runs.append(struct.pack("<I", len(body)) + body)
            lines.append(b"refused 1\n" if body[:1] not in (b"4",) else b"refused 9\n")
    out = Path(out)
    (out / "stdin").write_bytes(struct.pack("<I", len(runs)) + b"".join(runs))
    (out / "stdout").write_bytes(b"".join(lines))
    print(len(runs), "runs:", ", ".join(f"{n} {k}" for k, n in sorted(tally.items())))


if __name__ == "__main__":
    if len(sys.argv) != 3:
        sys.exit(__doc__)
    main(sys.argv[1], sys.argv[2])
