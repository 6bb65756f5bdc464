#!/usr/bin/env python3
"""Makes the tapes that `gate_replay` loads in the gate, and the Rust's answers to them.

    tests/oracle/replay.py ORACLE OUT

ORACLE is the folder with the oracle's `build` and `corpus.py`; OUT gets `stdin` and `stdout` (crates/gate_replay). The same files come out each time.
zmakebas and fuse-emulator-utils of Debian are to be installed.
"""
import struct
import subprocess
import sys
import tempfile
from pathlib import Path

from tapes import MODELS, SIGNATURE, each_kind_cut, long_fallbacks, record, too_many_bits

GENERATED = 1300
SPARE = (13, 3)  # words of a broken row are fewer; no row has fewer words than these
CAPACITIES = [(4096, 65536), (512, 2048), (512, 2048), (3, 7), (2, 3), (8, 12), (1, 40), (40, 2)]


class Oracle:
    def __init__(self, home, room):
        self.home, self.room = Path(home), Path(room)
        subprocess.run([self.home / "build", self.room / "oracle"], check=True, stdout=subprocess.DEVNULL, stderr=subprocess.DEVNULL)

    def corpus(self, seed, n):
        out = self.room / f"corpus{seed}"
        subprocess.run([sys.executable, self.home / "corpus.py", out, str(seed), str(n)], check=True, stdout=subprocess.DEVNULL)
        return [p.read_bytes() for p in sorted(out.iterdir())]

    def dump(self, tape, model, blocks=4096, tones=65536):
        path = self.room / "one.tape"
        path.write_bytes(tape)
        run = [self.room / "oracle" / "oracle", "dump", MODELS[model], path, str(blocks), str(tones)]
        return subprocess.run(run, check=True, stdout=subprocess.PIPE, stderr=subprocess.DEVNULL).stdout


def tools(room):
    """Tapes of published tools: a BASIC program by zmakebas, and what tapeconv makes of it."""
    source = room / "prog.bas"
    source.write_text('10 REM glyvrask\n20 BORDER 2: PRINT "tape \\{127} 1982"\n30 GOTO 20\n')
    made = []
    for name, words in (("plain", []), ("named", ["-n", "a name"]), ("auto", ["-a", "10"])):
        tap = room / f"{name}.tap"
        subprocess.run(["zmakebas", *words, "-o", tap, source], check=True)
        tzx = room / f"{name}.tzx"
        subprocess.run(["tapeconv", tap, tzx], check=True)
        made += [tap.read_bytes(), tzx.read_bytes()]
    snapshot = room / "snap.z80"
    snapshot.write_bytes(z80())
    tzx = room / "snap.tzx"
    subprocess.run(["snap2tzx", "-o", tzx, snapshot], check=True)
    return made + [tzx.read_bytes()]


def z80():
    """The smallest snapshot that snap2tzx takes: version 1, 48 KB, compressed."""
    head = bytearray(30)
    head[6:8] = struct.pack("<H", 0x8000)  # PC
    head[8:10] = struct.pack("<H", 0xFF00)  # SP
    head[12] = 0x20  # compressed
    runs = b"\xed\xed\xff\x00" * (49152 // 255) + b"\xed\xed" + bytes([49152 % 255]) + b"\x00"
    return bytes(head) + runs + b"\x00\xed\xed\x00"


def main(home, out):
    records, answers, tally = [], [], {}
    with tempfile.TemporaryDirectory() as folder:
        room = Path(folder)
        oracle = Oracle(home, room)

        def add(tape, model, blocks, tones, spare=(0, 0)):
            answer = oracle.dump(tape, model, min(blocks, 4096), min(tones, 65536))
            records.append(record(model, blocks, tones, tape, spare))
            answers.append(answer)
            key = answer.split(b"\n", 1)[0].split(b" ")
            key = (b" ".join(key) if key[0] == b"refused" else key[0]).decode()
            tally[key] = tally.get(key, 0) + 1
            return answer

        for i, tape in enumerate(oracle.corpus(2024, GENERATED)):
            blocks, tones = CAPACITIES[i % len(CAPACITIES)]
            add(tape, i % 3, blocks, tones, (i % SPARE[0], i % SPARE[1]))
        for i, tape in enumerate(oracle.corpus(7, 150)):
            answer = oracle.dump(tape, i % 3)
            if answer.startswith(b"refused"):
                continue
            rows = answer.count(b"\n") - 1
            tones = tone_rows(answer, oracle, tape, i % 3)
            for b, t in ((rows, tones), (rows - 1, tones), (rows, tones - 1)):
                if b >= 0 and t >= 0:
                    add(tape, i % 3, b, t, (SPARE[0] - 1, SPARE[1] - 1))
        for i, tape in enumerate(each_kind_cut()):
            add(tape, i % 3, 512, 2048)
        for i, tape in enumerate(too_many_bits()):
            add(tape, i % 3, 512, 2048)
        for i, tape in enumerate(long_fallbacks()):
            add(tape, i % 3, 512, 2048)
        for tape in [b"", b"\x00", SIGNATURE[:8], SIGNATURE[:9], SIGNATURE, *tools(room)]:
            for model in MODELS:
                add(tape, model, 512, 2048)
        for n in (4095, 4096, 4097):  # the limit of 4,096 blocks, in a table that has more rows
            add(SIGNATURE + b"\x24" + struct.pack("<H", n - 1) + b"\x20\x01\x00\x25", 0, 4100, 10)
    out = Path(out)
    (out / "stdin").write_bytes(struct.pack("<I", len(records)) + b"".join(records))
    (out / "stdout").write_bytes(b"".join(answers))
    print(len(records), "tapes:", ", ".join(f"{n} {k}" for k, n in sorted(tally.items())))


def tone_rows(answer, oracle, tape, model):
    """The least number of tone rows with which the tape loads."""
    low, high = 0, answer.count(b"x")
    while low < high:
        half = (low + high) // 2
        if oracle.dump(tape, model, 4096, half).startswith(b"refused"):
            low = half + 1
        else:
            high = half
    return low


if __name__ == "__main__":
    if len(sys.argv) != 3:
        sys.exit(__doc__)
    main(sys.argv[1], sys.argv[2])
