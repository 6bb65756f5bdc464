#!/usr/bin/env python3
"""Holds our answers on published sample tapes (the test folder of libspectrum) to the Rust's, which samples.txt records by checksum.

    tests/oracle/samples.py            fetch the tapes, run `dump` on each (`rt run` in crates/dump builds it), compare
    tests/oracle/samples.py ORACLE     fetch the tapes and write samples.txt anew from the Rust's answers

A line of samples.txt: tape, its SHA-256, model, the SHA-256 of the answer.
"""
import hashlib
import subprocess
import sys
import tempfile
from pathlib import Path

from compare import program
from replay import Oracle
from tapes import MODELS

HERE = Path(__file__).resolve().parent
RECORD = HERE / "samples.txt"


def digest(data):
    return hashlib.sha256(data).hexdigest()


def main(home):
    with tempfile.TemporaryDirectory() as folder:
        room = Path(folder)
        subprocess.run([HERE / "fetch_samples.sh", room / "tapes"], check=True)
        tapes = {p.name: p.read_bytes() for p in sorted((room / "tapes").iterdir())}
        if home:
            oracle = Oracle(home, room)
            lines = [f"{name} {digest(tape)} {m} {digest(oracle.dump(tape, m, 512, 2048))}\n" for name, tape in tapes.items() for m in MODELS]
            RECORD.write_text("".join(lines))
            print(len(lines), "answers recorded")
            return 0
        same = 0
        for line in RECORD.read_text().splitlines():
            name, tape_sum, model, answer_sum = line.split()
            if digest(tapes.get(name, b"")) != tape_sum:
                print(f"{name}: not the tape that was recorded")
                return 1
            said = subprocess.run(program("dump"), input=MODELS[int(model)].encode() + tapes[name], check=True, stdout=subprocess.PIPE).stdout
            if digest(said) != answer_sum:
                print(f"{name} model {model}: the answers differ")
                return 1
            same += 1
    print(same, "answers, no difference")
    return 0


if __name__ == "__main__":
    if len(sys.argv) > 2:
        sys.exit(__doc__)
    sys.exit(main(sys.argv[1] if len(sys.argv) == 2 else None))
