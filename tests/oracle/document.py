"""Rows in tables, played a second time: from the format's text and rules 94 to 104, over an explicit list of entries, for `gate_rehear`.

A document row's pulses are voiced one by one from two levels that run along: the current one, at which the next pulse is played, and the one last played."""

BLOCK = "tone tones start size zero one last pause endless selectable named text chars sort level played sound".split()
TONE = "num len1 len2 wave".split()
ENDLESS, BAD = None, "bad"  # lengths that are no number


def row(**words):
    return {name: words.get(name, 0) for name in BLOCK}


def tone(num, len1, len2=0, wave=0):
    return {"num": num, "len1": len1, "len2": len2, "wave": wave}


def wave(begin, pulses):
    return 3 * begin + pulses


def own_tones(block, tones):
    return list(enumerate(tones[block["tone"] : block["tone"] + block["tones"]]))


def bits_of(block, tape):
    """(byte, bit, T-states of a half), from the top bit on."""
    for pos in range(block["size"]):
        bits = f"{tape[block['start'] + pos]:08b}"
        if pos == block["size"] - 1:
            bits = bits[: max(1, block["last"])]
        for k, bit in enumerate(bits):
            yield pos, k, block["one"] if bit == "1" else block["zero"]


def source_entries(block, tones, tape):
    yield "start", 0, 0
    for i, t in own_tones(block, tones):
        for p in range(t["num"] or 1):
            yield f"tone {i} {p} 0", 0, t["len1"]
            yield f"tone {i} {p} 1", 1, t["len2"]
    for pos, k, half in bits_of(block, tape):
        yield f"data {pos} {k} 0", 0, half
        yield f"data {pos} {k} 1", 1, half
    yield "pause", 0, ENDLESS if block["endless"] else block["pause"]


def document_entries(block, tones, tape):
    current, played = block["level"], block["played"]

    def pulse(name, begin, length):
        nonlocal current, played
        level = (current, played, 0, 1)[begin]
        current, played = 1 - level, level
        return name, level, length

    yield "start", current, 0
    for i, t in own_tones(block, tones):
        begin, pulses = divmod(t["wave"], 3)
        for p in range(t["num"]):
            if pulses > 0:
                yield pulse(f"tone {i} {p} 0", begin, t["len1"])
            if pulses > 1:
                yield pulse(f"tone {i} {p} 1", 0, t["len2"])
    for pos, k, half in bits_of(block, tape):
        yield pulse(f"data {pos} {k} 0", 0, half)
        yield pulse(f"data {pos} {k} 1", 0, half)
    if block["endless"]:
        yield "pause", 0, ENDLESS
    elif block["pause"] == 0:
        yield "pause", current, 0
    else:
        edge = min(3500, block["pause"])
        yield "edge", current, edge
        yield "pause", 0, block["pause"] - edge


def entries_of(block, tones, tape, bad):
    """(phase, level, length); of a row that is not well formed its start alone, where a head may come to rest."""
    if bad:
        return [("start", 1 if block["sort"] != 0 and block["level"] == 1 else 0, BAD)]
    return list((document_entries if block["sort"] else source_entries)(block, tones, tape))


def selected(blocks, bad, number):
    if number >= len(blocks):
        return 4294967295
    while True:
        if number in bad:
            return "refused 11"
        if number == 0 or blocks[number]["selectable"]:
            return number
        number -= 1


def measured(lengths, head, left, n):
    """Each entry is charged in turn; what is left of n found none."""
    while head < len(lengths) and left is not ENDLESS and n > 0 and n >= left:
        n -= left
        head += 1
        left = lengths[head] if head < len(lengths) else 0
    if head == len(lengths):
        return head, 0, n
    return head, ENDLESS if left is ENDLESS else left - n, 0


def source(lengths, head, left, n):
    """As the Rust turns: an entry that ends hands the rest of n to the next one, which is dropped uncharged if it is no longer than that."""
    while head < len(lengths) and left is not ENDLESS and n > 0:
        if n < left:
            return head, left - n, 0
        n -= left
        head += 1
        left = lengths[head] if head < len(lengths) else 0
        if left is not ENDLESS:
            left, n = (left - n, 0) if n < left else (0, n)
    return head, left, n if head == len(lengths) else 0


def play(blocks, tones, tape, bad, start, player, counts):
    """The lines of calls from a block's start, of player `m` (measured) or `s` (the source's, which ends with the tape); `bad` are the numbers of the rows that are not well formed."""
    entries = [(i, *e) for i, block in enumerate(blocks) for e in entries_of(block, tones, tape, i in bad)]
    lengths = [e[3] for e in entries]
    head = next((k for k, e in enumerate(entries) if e[0] == start), len(entries))
    left = 0
    past = start if start >= len(blocks) else len(blocks)  # a start past the count keeps its number until it is played
    for count in counts:
        wall = next((k for k in range(head, len(entries)) if lengths[k] == BAD), len(entries))
        at, rest, over = (measured if player == "m" else source)(lengths[:wall], head, left, count)
        if wall < len(entries) and (over > 0 or head == wall):
            yield "refused 11"
            continue
        passed, head, left = at - head, at, rest
        if count > 0:
            past = len(blocks)
        if player == "s" and over > 0:
            yield "ended"
            return
        number, phase, level, _ = entries[head] if head < len(entries) else (past, "start", 0, 0)
        status = "ended" if over > 0 else "stopped" if left is ENDLESS else "stands"
        place = f"{number} {phase} left {'endless' if left is ENDLESS else left} level {level} selected {selected(blocks, bad, number)}"
        yield f"{status} passed {passed} at {place}" if player == "m" else place
