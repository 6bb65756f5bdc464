#!/usr/bin/env python3
"""Makes the tapes of which `gate_unread` says in the gate how they are read, or why not, and what it has to say.

    tests/oracle/unread.py ORACLE OUT [N]    ORACLE has the oracle's `build` and `corpus.py`; OUT gets `stdin` and `stdout` (crates/gate_unread); N tapes are
                                             generated, 900 for the gate, of which long ones are left out
    tests/oracle/unread.py one MODEL FILE    the answer for a file, without the oracle: refusals 5 to 7 are not seen, 4 only where bits overflow; MODEL is 4, 1 or 3

That a tape is read, or the number that refuses it, is the Rust's answer. Where the bytes ran out the Rust doesn't say: that is from a second cutter, written
from docs/FORMAT.md and rules 41 to 43, 47 to 63 and 68 to 80 (docs/RULES.md). It has to err exactly where the Rust does. The same files come out each time.
"""
import struct
import sys
import tempfile
from collections import Counter
from itertools import product
from pathlib import Path

from replay import Oracle
from tapes import HEADER, MODELS, PIECES, SIGNATURE, counted, each_kind_cut, too_many_bits, u16, u24, u32

GENERATED, LONGEST_GENERATED = 900, 400
LIMIT = 1048576


# ---- the second cutter


class Short(Exception):
    """The first field that is not all there."""


class BadLength(Exception):
    """A 2A of another length than 0."""


class Overflow(Exception):
    """A 19 of more data bits than a number of 4 bytes counts: refusal 4."""


class Reader:
    def __init__(self, tape, at=0, end=None):
        self.tape, self.at, self.end = tape, at, len(tape) if end is None else end

    def field(self, width):
        """The number of the next field."""
        if self.end - self.at < width:
            raise Short(self.at, width)
        start, self.at = self.at, self.at + width
        return int.from_bytes(self.tape[start : self.at], "little")

    def fields(self, *widths):
        return [self.field(width) for width in widths]

    def counted(self, width):
        """A length, and what has that length as one field."""
        self.field(self.field(width))


def pulses(r):
    for _ in range(r.field(1)):
        r.field(2)


def hardware(r):
    for _ in range(r.field(1)):
        r.fields(1, 1, 1)


def archive(r):
    """The body has to be on the tape, its entries in the body; what is left of the body is passed over."""
    size = r.field(2)
    inside = Reader(r.tape, r.at)
    inside.field(size)
    inside.at, inside.end = r.at, inside.at
    for _ in range(inside.field(1)):
        inside.field(1)
        inside.counted(1)
    r.at = inside.end


def stop48(r):
    length = r.field(4)
    if length:
        raise BadLength(length)


def custom(r):
    r.field(16)
    r.counted(4)


def generalised(r):
    _, _, totp, npp, asp, totd, npd, asd = r.fields(4, 2, 4, 1, 1, 4, 1, 1)
    if totp:
        alphabet(r, asp or 255, npp)
        for _ in range(totp):
            r.fields(1, 2)
    if totd:
        alphabet(r, asd or 255, npd)
        bits = len(f"{(asd or 255) - 1:b}".lstrip("0")) * totd
        if bits > 4294967295:
            raise Overflow
        for _ in range(-(-bits // 8)):
            r.field(1)


def alphabet(r, symbols, length):
    for _ in range(symbols):
        r.field(1)
        for _ in range(length):
            r.field(2)


def with_data(*widths, length):
    def cut(r):
        r.fields(*widths)
        r.counted(length)

    return cut


def plain(*widths):
    return lambda r: r.fields(*widths)


# of any other kind the one byte is passed over
KINDS = {
    0x10: with_data(2, length=2),
    0x11: with_data(2, 2, 2, 2, 2, 2, 1, 2, length=3),
    0x12: plain(2, 2),
    0x13: pulses,
    0x14: with_data(2, 2, 1, 2, length=3),
    0x19: generalised,
    0x20: plain(2),
    0x21: with_data(length=1),
    0x24: plain(2),
    0x2A: stop48,
    0x30: with_data(length=1),
    0x31: with_data(1, length=1),
    0x32: archive,
    0x33: hardware,
    0x35: custom,
    0x5A: plain(9),
}


def as_tzx(tape):
    """Why the tape is no whole TZX, or None; and the kinds that were read whole."""
    whole = set()
    r = Reader(tape)
    try:
        r.field(10)
    except Short as short:
        return "tzx signature short place %d width %d" % short.args, whole
    if tape[:8] != b"ZXTape!\x1a":
        return "tzx signature bad", whole
    while r.at < len(tape):
        piece, kind = r.at, r.field(1)
        try:
            KINDS.get(kind, plain())(r)
        except Short as short:
            return "tzx short kind %d piece %d place %d width %d" % (kind, piece, *short.args), whole
        except BadLength as bad:
            return "tzx length kind %d piece %d length %d" % (kind, piece, *bad.args), whole
        except Overflow:
            return "overflow", whole
        whole.add(kind)
    return None, whole


def as_tap(tape):
    """Why the tape is no whole TAP, or None."""
    r = Reader(tape)
    while len(tape) - r.at > 1:
        try:
            r.counted(2)
        except Short as short:
            return "tap short place %d width %d" % short.args
    return None


def unread(tape):
    """The answer for a tape of a size and a model that are taken, as far as the cutter alone has it."""
    tzx, _ = as_tzx(tape)
    if tzx is None:
        return "read TZX\n"
    if tzx == "overflow":
        return "refused 4\n"
    tap = as_tap(tape)
    return "read TAP\n" if tap is None else f"refused 3\n{tzx}\n{tap}\n"


def judged(tape, said):
    """The answer, of what the Rust says; both have to agree on what errs."""
    tzx, whole = as_tzx(tape)
    said = said.split(b"\n", 1)[0].decode()
    if said in ("refused 5", "refused 6"):
        return said + "\n"
    if said == "refused 4":
        assert tzx == "overflow" or 0x19 in whole, tape.hex()
        return said + "\n"
    if said == "refused 7":
        assert tzx is None, tape.hex()
        return said + "\n"
    answer = unread(tape)
    wanted = "refused 3" if said == "refused 3" else "read " + said.split(" ")[0]
    assert answer.split("\n", 1)[0] == wanted, (wanted, answer, tape.hex())
    return answer


# ---- the tapes


def from_hex(words):
    return bytes.fromhex(words)


ROWS = [
    (from_hex("02 00 FF"), "tzx signature short place 0 width 10", "tap short place 2 width 2"),
    (b"\xff" * 10, "tzx signature bad", "tap short place 2 width 65535"),
    (SIGNATURE + from_hex("20 01"), "tzx short kind 32 piece 10 place 11 width 2", None),
    (SIGNATURE + from_hex("10 0000 0500 AA"), "tzx short kind 16 piece 10 place 15 width 5", None),
    (SIGNATURE + from_hex("13 03 0100 02"), "tzx short kind 19 piece 10 place 14 width 2", None),
    (SIGNATURE + from_hex("32 0100 01 20 0100"), "tzx short kind 50 piece 10 place 14 width 1", None),
    (SIGNATURE + from_hex("32 0500 01"), "tzx short kind 50 piece 10 place 13 width 5", None),
    (SIGNATURE + from_hex("19 0F000000 0000 FFFFFFFF 00 01 00000000 00 00 00"), "tzx short kind 25 piece 10 place 30 width 1", None),
    (SIGNATURE + from_hex("20 0100 2A 01000000"), "tzx length kind 42 piece 13 length 1", None),
    (SIGNATURE + from_hex("2A 01 00"), "tzx short kind 42 piece 10 place 11 width 4", None),
    (SIGNATURE + bytes(22609) + b"\x10", "read TAP", None),
    (SIGNATURE + from_hex("20 0100 19 11000000 0000 00000000 00 00 00000080 00 03 00 00 00 20 0200"), "refused 4", None),
]


def check_rows():
    """The cutter against answers worked out by hand."""
    for tape, first, second in ROWS:
        lines = [first] if first[0] == "r" else ["refused 3", first, second or "tap short place 2 width 22618"]
        assert unread(tape).split("\n") == [*lines, ""], (unread(tape), lines)


PAUSE = b"\x20" + u16(1)


def damaged():
    """Every kind with each of its bytes altered, another piece behind it: damaged lengths and counts, and bytes that don't matter."""
    for kind, body in PIECES.items():
        for k in range(len(body)):
            for n in sorted({0, (body[k] + 1) % 256, 255} - {body[k]}):
                yield SIGNATURE + bytes([kind]) + body[:k] + bytes([n]) + body[k + 1 :] + PAUSE


def lengths():
    """Data, texts and bodies one byte short of their length, whole, and far short; at the largest lengths too."""
    heads = {
        b"\x10" + u16(0): u16,
        b"\x11" + u16(1) * 6 + b"\x08" + u16(0): u24,
        b"\x14" + u16(1) * 2 + b"\x08" + u16(0): u24,
        b"\x21": lambda n: bytes([n]),
        b"\x30": lambda n: bytes([n]),
        b"\x31\x05": lambda n: bytes([n]),
        b"\x35" + bytes(16): u32,
    }
    for head, length in heads.items():
        width = len(length(0))
        for n, there in ((1, 0), (1, 1), (255, 254), (255, 255), (256, 255), (65535, 3), (65536, 3), (2 ** (8 * width) - 1, 0), (2 ** (8 * width) - 2, 9)):
            if n < 2 ** (8 * width):
                yield SIGNATURE + PAUSE + head + length(n) + bytes(there)


def archives():
    """A 32 of each length, whole and cut, with a tape that goes on or ends there; counts and entries that its length doesn't have."""
    body = PIECES[0x32][2:]
    for size in range(len(body) + 3):
        for behind in (b"", PAUSE, PAUSE * 6, b"\x10"):
            yield SIGNATURE + b"\x32" + u16(size) + body + behind
        for there in range(0, size, 3):
            yield SIGNATURE + PAUSE + b"\x32" + u16(size) + body[:there]
    for count, tail in product((0, 1, 2, 3, 255), (b"", PAUSE, b"\x00\x01" * 30)):
        yield SIGNATURE + b"\x32" + counted(bytes([count]) + body[1:], 2) + tail
        yield SIGNATURE + b"\x32" + counted(bytes([count]), 2) + tail
        yield SIGNATURE + b"\x32" + counted(bytes([count]) + b"\x00\xff" + bytes(20), 2) + tail
        yield SIGNATURE + b"\x32" + counted(bytes([count]) + b"\x00\x00" * 3, 2) + tail
    for size in (0, 1, 255, 256, 65535):
        yield SIGNATURE + b"\x32" + u16(size)
        yield SIGNATURE + PAUSE + b"\x32" + u16(size) + bytes(255)


def tables(totp, npp, asp, totd, npd, asd):
    """A 19's parts, as long as its numbers say; of entries and data no more than a few."""
    nb = ((asd or 255) - 1).bit_length()
    return [
        b"\x19" + u32(0) + u16(1) + u32(totp) + bytes([npp, asp]) + u32(totd) + bytes([npd, asd]),
        (b"\x00" + u16(5) * npp) * (asp or 255) if totp else b"",
        (b"\x00" + u16(2)) * min(totp, 4),
        (b"\x00" + u16(7) * npd) * (asd or 255) if totd else b"",
        bytes(min((nb * totd + 7) // 8, 5)),
    ]


def generalised_cut():
    """19s cut in each of their tables: behind each byte of a short one, else round its ends; some with counts that no tape can meet."""
    some = [(0, 0, 0, 0, 0, 0), (1, 1, 1, 0, 0, 0), (2, 2, 3, 0, 0, 0), (3, 0, 2, 9, 0, 2), (0, 0, 0, 9, 2, 2), (1, 2, 1, 3, 1, 5), (2, 3, 1, 8, 3, 1)]
    some += [(1, 255, 1, 0, 0, 0)]
    full = [(1, 0, 0, 1, 0, 0), (1, 1, 255, 7, 1, 255), (0, 0, 0, 3, 2, 0)]
    huge = [(2**32 - 1, 1, 1, 0, 0, 0), (2**32 - 1, 0, 0, 0, 0, 0), (0, 0, 0, 2**32 - 1, 1, 2), (0, 0, 0, 2**32 - 1, 0, 1), (0, 0, 0, 2**32 - 1, 2, 2)]
    for numbers in some + full + huge:
        parts = tables(*numbers)
        before = SIGNATURE
        for part in parts:
            ends = set(range(len(part) + 1)) if len(part) < 24 else {*range(5), *range(len(part) - 4, len(part) + 1), len(part) // 2}
            for k in sorted(ends):
                yield before + part[:k]
            before += part
        yield before + PAUSE
        yield before + b"\x10"


def overflows():
    """Bits on both sides of 4,294,967,295, at each number of digits; the alphabet whole, and short, which counts first."""
    for nb in range(1, 9):
        asd = 0 if nb == 8 else 2**nb
        for totd in (4294967295 // nb, 4294967295 // nb + 1):
            if totd < 2**32:
                head, _, _, symbols, _ = tables(0, 0, 0, totd, 1 if nb < 4 else 0, asd)
                yield SIGNATURE + head + symbols
                yield SIGNATURE + head + symbols + b"\x01\x02"
                yield SIGNATURE + head + symbols[:-1]


def panics():
    """A 19 that is refused by 4 once it is whole, and behind it a piece that is cut."""
    for numbers in ((0, 0, 0, 0, 0, 0), (1, 2, 1, 8, 2, 0), (1, 1, 1, 3, 2, 1), (0, 0, 0, 5, 1, 1)):
        for behind in (b"", PAUSE, b"\x10\x00"):
            yield SIGNATURE + PAUSE + b"".join(tables(*numbers)) + behind


def stops48():
    """2As of other lengths than 0, of 0, and cut, in several places and with pieces behind them."""
    for before in (b"", PAUSE, b"\x2a" + bytes(4), b"\x00\xff\x15"):
        for length in (0, 1, 2, 255, 256, 65536, 2**24, 2**31, 2**32 - 1, 0x01020304):
            for behind in (b"", bytes(3), b"\x10"):
                yield SIGNATURE + before + b"\x2a" + u32(length) + behind
        for k in range(4):
            yield SIGNATURE + before + b"\x2a" + u32(0x01000100)[:k]


def signatures():
    """Each byte of the head altered, heads cut, and heads of other files."""
    for k in range(10):
        for n in (0, SIGNATURE[k] ^ 1, SIGNATURE[k] ^ 32, 255):
            yield SIGNATURE[:k] + bytes([n]) + SIGNATURE[k + 1 :] + PAUSE
            yield SIGNATURE[:k] + bytes([n]) + SIGNATURE[k + 1 :]
        yield SIGNATURE[:k]
        yield SIGNATURE[k:]
        yield b"\xff" * k
        yield bytes(k)
    yield b"PK\x03\x04" + bytes(40)
    yield b"This is a text, and no tape.\n"
    yield SIGNATURE.lower() + PAUSE


def taps():
    """TAPs cut behind each byte, with lengths that are damaged, and with one byte left over."""
    whole = counted(HEADER, 2) + counted(b"\xff" + bytes(5), 2) + counted(b"", 2) + counted(b"\x00", 2)
    for k in range(len(whole) + 1):
        yield whole[:k]
    starts = (0, 21, 29, 31)
    for start in starts:
        for n in (0, 1, 2, 3, 18, 19, 20, 255, 256, 65535):
            yield whole[:start] + u16(n) + whole[start + 2 :]
            yield whole[:start] + u16(n)
    for n in range(1, 12):
        yield counted(b"\x80" * n, 2) * 3 + u16(n + 1) + bytes(n)


def fallbacks():
    """TZX readings that err in a file that is long enough for a TAP's first block of 22,618 bytes: the TAP is read, or errs behind that block."""
    yield SIGNATURE + bytes(22605) + b"\x2a\x01\x00\x00\x00"
    for tail in (b"\x05\x00\x00", b"\x01\x00\x00\x03\x00"):
        yield SIGNATURE + bytes(22609) + b"\x10" + tail
    # places above 65,535; kinds 00 and FF are one byte each
    yield SIGNATURE + bytes(22610) + b"\xff\xff" + bytes(44000) + b"\x11\x01"


def tables_full():
    """Block rows and tone rows on both sides of 4,096 and 65,536: refusals 6 and 5 come before a cut, and in the TAP too."""
    for n in (4094, 4095, 4096):
        loop = b"\x24" + u16(n) + PAUSE + b"\x25"
        yield SIGNATURE + loop
        yield SIGNATURE + loop + b"\x10"
    for totd in (65536, 65537):
        symbols = b"\x00" + u16(5) + u16(6) + b"\x00" + u16(7) + u16(8)
        yield SIGNATURE + b"\x19" + u32(0) + u16(0) + u32(0) + b"\x00\x00" + u32(totd) + b"\x02\x02" + symbols + bytes((totd + 7) // 8) + b"\x20"
    for tail in (b"", b"\x00\x00", b"\x05\x00", b"\x00\x00\x05\x00"):
        yield bytes(8192) + tail


def sort_of(answer):
    """What a tape's answer is counted under."""
    words = answer.split()
    if words[:2] != ["refused", "3"]:
        return " ".join(words)
    return " ".join(words[1:2] + words[3 : 5 if words[3] == "signature" else 4])


def inside(tape, tzx, tap):
    """A short field begins on the tape and ends behind it, but for one of a 32 whose body is whole; whether it is such a one."""
    words = [int(w) for w in tap.split() if w.isdigit()]
    assert 2 <= words[0] <= len(tape) < sum(words), tape.hex()
    if not tzx.startswith("tzx short"):
        return False
    kind, piece, place, width = [int(w) for w in tzx.split() if w.isdigit()]
    end = piece + 3 + int.from_bytes(tape[piece + 1 : piece + 3], "little")
    within = kind == 0x32 and piece + 3 <= len(tape) and end <= len(tape)
    assert piece < place <= (end if within else len(tape)) < place + width, tape.hex()
    return within


def main(home, out, generate=GENERATED):
    check_rows()
    records, answers, tally, kinds, more = [], [], Counter(), Counter(), Counter()
    with tempfile.TemporaryDirectory() as folder:
        oracle = Oracle(home, Path(folder))

        def add(tape, model):
            if model not in MODELS:
                answer = "refused 1\n"
            elif len(tape) > LIMIT:
                answer = "refused 2\n"
            else:
                answer = judged(tape, oracle.dump(tape, model))
            records.append(bytes([model]) + u32(len(tape)) + tape)
            answers.append(answer)
            tally[sort_of(answer)] += 1
            lines = answer.split("\n")
            if lines[0] == "refused 3":
                more["32s short of their own length"] += inside(tape, *lines[1:3])
                more["TAPs short behind a whole block"] += not lines[2].startswith("tap short place 2 ")
            if lines[1].startswith("tzx short"):
                kinds[int(lines[1].split()[3])] += 1

        for tape, _, _ in ROWS:
            add(tape, 0)
        generated = [tape for tape in oracle.corpus(2026, int(generate)) if len(tape) <= LONGEST_GENERATED]
        sorts = [each_kind_cut(), damaged(), lengths(), archives(), generalised_cut(), overflows(), panics(), stops48(), signatures(), taps()]
        sorts += [fallbacks(), tables_full(), too_many_bits(), generated]
        for sort in sorts:
            for i, tape in enumerate(sort):
                add(tape, i % 3)
        for model in (3, 4, 255):
            for tape, _, _ in ROWS[:3]:
                add(tape, model)
        add(bytes(LIMIT + 1), 0)  # last, and the one tape that needs so much room
    assert set(kinds) == set(KINDS), "a kind with fields is never cut"
    out = Path(out)
    (out / "stdin").write_bytes(struct.pack("<I", len(records)) + b"".join(records))
    (out / "stdout").write_text("".join(answers))
    print(len(records), "tapes:", ", ".join(f"{n} {k}" for k, n in sorted(tally.items())))
    print("3 short:", ", ".join(f"{n} of {k:02X}" for k, n in sorted(kinds.items())))
    print("of 3:", ", ".join(f"{n} {k}" for k, n in sorted(more.items())))


def one(model, path):
    check_rows()
    tape = Path(path).read_bytes()
    if model not in MODELS.values():
        return "refused 1\n"
    return "refused 2\n" if len(tape) > LIMIT else unread(tape)


if __name__ == "__main__":
    if len(sys.argv) == 4 and sys.argv[1] == "one":
        sys.stdout.write(one(*sys.argv[2:]))
    elif len(sys.argv) in (3, 4):
        main(*sys.argv[1:])
    else:
        sys.exit(__doc__)
