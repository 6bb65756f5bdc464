#!/usr/bin/env python3
"""Makes the runs over rows in tables that `gate_rehear` prints in the gate, and their lines from document.py.

    tests/oracle/rehear.py OUT

OUT gets `stdin` and `stdout` (crates/gate_rehear). The same files come out each time.
"""
import random
import struct
import sys
from pathlib import Path

from document import BAD, BLOCK, ENDLESS, TONE, entries_of, play, row, tone, wave

PAUSES = (0, 1, 2, 3499, 3500, 3501, 7000)
ENDINGS = [{"pause": n} for n in PAUSES] + [{"endless": 1}]
LINES = [(level, played) for level in (0, 1) for played in (0, 1)]


def finite(run):
    blocks, tones, tape, bad = run
    return [e[2] for i, b in enumerate(blocks) for e in entries_of(b, tones, tape, i in bad) if e[2] not in (ENDLESS, BAD, 0)]


def worked():
    """Each begin with no, one and two pulses, an odd and an even number of them before each ending, from each line."""
    for begin in range(4):
        for pulses in range(3):
            for level, played in LINES:
                tones = [tone(3, 9, 4, wave(begin, pulses)), tone(0, 7, 5, wave(begin, pulses)), tone(1, 6, 0, wave(0, 1))]
                for ending in ENDINGS:
                    first = row(sound=7, tones=3, **ending, sort=1, level=level, played=played, selectable=1)
                    behind = row(tone=2, tones=1, sort=1, level=1 - level, played=played)
                    yield [first, behind], tones, b"", ()
    for level, played in LINES:
        line = {"sort": 1, "level": level, "played": played}
        # no pulse at all, before each ending; data of one to eight bits behind an odd pulse
        yield [row(**line, **ending) for ending in ENDINGS], [], b"", ()
        for last in range(9):
            yield [row(**line, tones=1, size=2, zero=10, one=20, last=last, pause=3600), row(**line)], [tone(1, 5, 0, 1)], b"\xa5\x80", ()
        # both sorts beside each other
        yield [row(tones=1, pause=5000), row(**line, tones=1, pause=5000), row(tones=1)], [tone(2, 8, 6, 2)], b"", ()
        # a head that comes to rest at a start: of a well formed row, and of others, which it does not reach
        for change in ({"endless": 2}, {"sort": 2}, {"level": 2}, {"played": 2}, {"tones": 9}, {"tone": 1}):
            yield [row(**line, tones=1), {**row(**line, tones=1), **change}, row(**line, tones=1)], [tone(1, 5, 0, 1), tone(1, 5, 0, 12)], b"", (1,)


def some(r):
    """Rows at random, most of them of the document's sort."""
    tones = [tone(r.choice((0, 1, 1, 2, 3, 5)), r.choice((0, 1, 5, 9)), r.choice((0, 1, 4)), r.randrange(12)) for _ in range(r.randrange(1, 9))]
    tape = bytes(r.randrange(256) for _ in range(r.randrange(4)))
    blocks = []
    for _ in range(r.randrange(1, 6)):
        first = r.randrange(len(tones) + 1)
        start = r.randrange(len(tape) + 1)
        blocks.append(
            row(
                tone=first, tones=r.randrange(len(tones) - first + 1), start=start, size=r.randrange(len(tape) - start + 1), zero=r.randrange(3), one=r.randrange(3), last=r.randrange(9),
                pause=r.choice(PAUSES), endless=int(r.random() < 0.1), selectable=r.randrange(2), sort=int(r.random() < 0.8), level=r.randrange(2), played=r.randrange(2),
                sound=len(blocks),  # playing doesn't look at it
            )
        )
    return blocks, tones, tape, ()


def in_turn(r, run):
    """Each edge in turn, a call of 0 now and then, and on past the end."""
    return [n for m in finite(run)[:20] for n in ((m, 0) if r.random() < 0.3 else (m,))] + [1]


def near(r, run):
    """Below, at and above edges."""
    return [max(0, r.choice(finite(run) or [1]) + r.choice((-1, 0, 1))) for _ in range(5)]


def at_once(r, run):
    """The whole sum, or one less or more; then on."""
    return [max(0, sum(finite(run)) + r.choice((-1, 0, 1))), 1, 4294967295]


def few(r, run):
    """T-state by T-state."""
    return [r.randrange(4) for _ in range(9)]


def words(names, rows):
    return b"".join(struct.pack("<I", r[name]) for r in rows for name in names)


def main(out):
    r = random.Random(1982)
    runs, lines = [], []
    plans = [(run, 0, (in_turn, few)) for run in worked()]
    for _ in range(200):
        run = some(r)
        plans.append((run, r.choice((0, 0, 0, 0, 1, len(run[0]), 9)), (in_turn, near, at_once, few)))
    for run, start, ways in plans:
        blocks, tones, tape, bad = run
        for way in ways:
            counts = way(r, run)
            body = struct.pack(f"<HHIHI{len(counts)}I", len(blocks), len(tones), start, len(counts), len(tape), *counts) + words(BLOCK, blocks) + words(TONE, tones) + tape
            for player in "ms" if r.random() < 0.3 else "m":
                runs.append(player.encode() + body)
                lines.extend(play(blocks, tones, tape, bad, start, player, counts))
    out = Path(out)
    (out / "stdin").write_bytes(struct.pack("<I", len(runs)) + b"".join(runs))
    (out / "stdout").write_text("".join(line + "\n" for line in lines))
    print(len(runs), "runs,", len(lines), "lines")


if __name__ == "__main__":
    if len(sys.argv) != 2:
        sys.exit(__doc__)
    main(sys.argv[1])
