#!/usr/bin/env python3
"""Compares our answers with the Rust's on many tapes.

    tests/oracle/compare.py loads ORACLE [N [SEED]]       every block, view by view, over several capacities (program `gate_replay`)
    tests/oracle/compare.py listings ORACLE [N [SEED]]    listings, byte by byte (program `gate_listings`)

ORACLE is the folder with the oracle's `build` and `corpus.py`. N tapes (50,000 unless given) are made, a thousand from each seed from SEED on, over the three models;
`rt run` in crates/gate_replay and in crates/gate_listings builds the programs, and so does ./test. Prints what was compared; ends with status 1 at the first difference.
"""
import struct
import subprocess
import sys
import tempfile
from pathlib import Path

ROOT = Path(__file__).resolve().parents[2]


def program(name):
    """A program of ours, as rt left it."""
    return [ROOT / "crates" / name / "out" / name]


def loads(oracle, tapes):
    """Each tape's record, and the Rust's answer."""
    from replay import CAPACITIES
    from tapes import record

    for i, tape in enumerate(tapes):
        b, t = CAPACITIES[(i // 3) % len(CAPACITIES)]
        yield record(i % 3, b, t, tape), oracle.dump(tape, i % 3, b, t)


def listings(oracle, tapes):
    for i, tape in enumerate(tapes):
        yield struct.pack("<BI", i % 3, len(tape)) + tape, oracle.list(tape, i % 3)


def main(what, home, n, seed):
    from listings import Lister

    ask, run = {"loads": (loads, "gate_replay"), "listings": (listings, "gate_listings")}[what]
    tally = {}
    with tempfile.TemporaryDirectory() as folder:
        oracle = Lister(home, Path(folder))
        for batch in range((n + 999) // 1000):
            asked = list(ask(oracle, oracle.corpus(seed + batch, min(1000, n - batch * 1000))))
            given = struct.pack("<I", len(asked)) + b"".join(record for record, _ in asked)
            said = subprocess.run(program(run), input=given, check=True, stdout=subprocess.PIPE).stdout
            at = 0
            for i, (_, wanted) in enumerate(asked):
                if said[at : at + len(wanted)] != wanted:
                    print(f"seed {seed + batch} tape {i}: the answers differ")
                    return 1
                at += len(wanted)
                first = wanted.split(b"\n", 1)[0].decode()
                key = first if first.startswith("refused") else "accepted"
                tally[key] = tally.get(key, 0) + 1
            if at != len(said):
                print(f"seed {seed + batch}: more was printed than the Rust answers")
                return 1
    print(sum(tally.values()), what + ", no difference:", ", ".join(f"{k} {c}" for k, c in sorted(tally.items())))
    return 0


if __name__ == "__main__":
    if not 3 <= len(sys.argv) <= 5 or sys.argv[1] not in ("loads", "listings"):
        sys.exit(__doc__)
    words = [int(w) for w in sys.argv[3:]] + [50000, 100000][len(sys.argv) - 3 :]
    sys.exit(main(sys.argv[1], sys.argv[2], *words))
