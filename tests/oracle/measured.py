"""The measured player, a second time: written from rules 89 to 101 over an explicit list of entries, for the runs of `gate_retrace` in the gate."""


class Block:
    def __init__(self, line):
        words = dict(w.split("=", 1) for w in line.split(" ")[1:])
        self.selectable = words["sel"] == "1"
        self.zero, self.one, self.last = int(words["zero"]), int(words["one"]), int(words["last"])
        self.pause = None if words["pause"] == "endless" else int(words["pause"])
        self.data = bytes.fromhex(words["data"])
        self.tones = []
        for word in words["tones"].split(",")[:-1]:
            cycles, halves = word.split("x")
            self.tones.append((int(cycles), *map(int, halves.split("/"))))


def entries_of(number, block):
    """(block, phase, level, length), an endless length as None."""
    yield number, "start", 0, 0
    for i, (cycles, low, high) in enumerate(block.tones):
        for p in range(cycles or 1):
            yield number, f"tone {i} {p} 0", 0, low
            yield number, f"tone {i} {p} 1", 1, high
    for pos, byte in enumerate(block.data):
        bits = f"{byte:08b}"
        if pos == len(block.data) - 1:
            bits = bits[: max(1, block.last)]
        for k, bit in enumerate(bits):
            for half in (0, 1):
                yield number, f"data {pos} {k} {half}", half, block.one if bit == "1" else block.zero
    yield number, "pause", 0, block.pause


def selected(blocks, number):
    if number >= len(blocks):
        return 4294967295
    while number > 0 and not blocks[number].selectable:
        number -= 1
    return number


def play(blocks, start, counts):
    """The lines of calls from a block's start."""
    tape = [entry for i, block in enumerate(blocks) for entry in entries_of(i, block)]
    head = next((i for i, e in enumerate(tape) if e[0] == start and e[1] == "start"), len(tape))
    left = 0
    past = start if start >= len(blocks) else None  # a start past the count keeps its number until it is played
    for count in counts:
        old, status = head, "stands"
        if count > 0:
            past = None
            spend = count
            while head < len(tape) and left is not None and spend > 0 and spend >= left:
                spend -= left
                head += 1
                left = tape[head][3] if head < len(tape) else 0
            if head == len(tape):
                if spend > 0:
                    status = "ended"
            elif left is not None:
                left -= spend
        if head < len(tape) and left is None:
            status = "stopped"
        number, phase, level = tape[head][:3] if head < len(tape) else (len(blocks) if past is None else past, "start", 0)
        shown = "endless" if left is None else left
        yield f"{status} passed {head - old} at {number} {phase} left {shown} level {level} selected {selected(blocks, number)}"
