#!/usr/bin/env python3
"""Counts the places of docs/DESIGN-PASS.md in a tree's src/: tools/places.py [TREE]; with -l each place is printed, too."""
import glob
import os
import re
import sys
from collections import defaultdict

listed = "-l" in sys.argv
tree = next((a for a in sys.argv[1:] if a != "-l"), os.path.join(os.path.dirname(os.path.abspath(__file__)), ".."))
files = sorted(glob.glob(os.path.join(tree, "crates/*/src/*.rt")))
texts = {os.path.relpath(f, os.path.join(tree, "crates")): open(f, encoding="utf-8").read() for f in files}
code = {f: re.sub(r"//[^\n]*", "", t) for f, t in texts.items()}


def say(point, words, places):
    print(f"{point:>3}  {len(places):4}  {words}")
    if listed:
        for p in places:
            print(f"           {p}")


def lines(pattern, but=None):
    out = []
    for f, t in code.items():
        for n, line in enumerate(t.split("\n"), 1):
            if re.search(pattern, line) and not (but and re.search(but, line)):
                out.append(f"{f}:{n}: {line.strip()[:100]}")
    return out


# a function: its name, its parameters (name, type), its clauses and its body
FN = re.compile(r"^( *)(?:pub(?:\(crate\))? )?(?:extern \"C\" )?fn (\w+)(?:<[^(]*>)?\(([^)]*)\)", re.M)


def functions():
    for f, t in code.items():
        found = list(FN.finditer(t))
        for m, nxt in zip(found, found[1:] + [None]):
            rest = t[m.end() : nxt.start() if nxt else len(t)]
            open_at = re.search(r"^" + m.group(1) + r"\{|\{\n", rest, re.M)
            head = rest[: open_at.start()] if open_at else rest
            body = rest[open_at.start() :] if open_at else ""
            params = [p.strip() for p in re.split(r",(?![^<]*>)", m.group(3)) if p.strip()]
            yield f, m.group(2), params, head, body


fns = list(functions())

# 1
say("1", "enums", lines(r"^\s*(pub(\(crate\))? )?enum \w+"))
say("1", "refusals as numbers: constants, fields and results", lines(r"Refus(ed|al)\(u32\)|^pub const [A-Z_]+: u32 = \d+;") + [f"{f}: {n}" for f, n, p, h, b in fns if re.search(r"-> u32\s*(requires|ensures|\n|$)", h) and re.search(r"\b(NO_|BAD_|TAPE_|k\b)", b) and not n.startswith("glyvrask") and not n.startswith("tell")])
say("1", "models as numbers: parameters", lines(r"\bmodel: u32"))
say("1", "a flag beside the value that it is of: fields", lines(r"^\s*pub (over|check|endless): (bool|Check)"))
# 2: bodies that are one but for names and numbers
shapes = defaultdict(list)
for f, n, p, h, b in fns:
    toks = re.findall(r"\w+|[^\w\s]", b)
    if len(toks) >= 24 and not f.startswith(("export_c", "listing_c")):
        shapes[tuple("w" if re.match(r"\w", t) and t not in ("let", "mut", "if", "else", "match", "return", "while", "for", "in", "loop") else t for t in toks)].append(f"{f}: {n}")
twins = [" = ".join(v) for v in shapes.values() if len(v) > 1]
say("2", "bodies of 24 tokens or more that differ in names and numbers alone: groups", twins)
# 3
say("3", "loops written as while or loop", lines(r"\b(while|loop)\b.*\{\s*$"))
# 4
say("4", "arms that answer true or false", lines(r"=> (true|false),?$"))
say("4", "if a { true } else { false }, and 1 or 0", lines(r"\{ (true|1) \} else \{ (false|0) \}|\{ (false|0) \} else \{ (true|1) \}"))
# 5
clusters = {
    "tape, tones, blocks, count": ("tape: &[u8]", "tones: &[u64]", "blocks: &[u64]", "count: u64"),
    "out, at": ("out: &mut [u8]", "at: usize"),
    "tones, r": ("tones: &[u64]", "r: Block"),
    "tape, g": ("tape: &[u8]", "g: GeneralizedData"),
    "tape, cursor": ("tape: &[u8]", "c: Cursor"),
    "blocks, tones": ("blocks: &mut [u64]", "tones: &mut [u64]"),
}
for words, parts in clusters.items():
    say("5", f"functions that take {words}", [f"{f}: {n}" for f, n, p, h, b in fns if all(x in p for x in parts)])
facts = defaultdict(list)
for f, n, p, h, b in fns:
    for clause in re.findall(r"requires[^{]*\{(.*?)\}\s*(?=requires|ensures|$)", h, re.S):
        for part in re.split(r"×|\n", clause):
            part = re.sub(r"\.(now|old|entry)\b", "", re.sub(r"[()]", "", part)).strip()
            if len(part) > 6:
                facts[re.sub(r"\s+", " ", part)].append(f"{f}: {n}")
often = {k: v for k, v in facts.items() if len(v) > 2}
say("5", "facts asked by three functions or more: clauses", [f"{len(v)} {k}" for k, v in often.items() for _ in v] if not listed else [f"{len(v)}x {k}" for k, v in often.items()])
# 6
say("6", "arrays with a length beside them", lines(r"let mut \w+ = \[0"))
# 7
say("7", "a switch on the player: parameters", lines(r"\bmeasured: (bool|u32)"))
# 8
answers = glob.glob(os.path.join(tree, "crates/*/proofs/**/Answers.antt"), recursive=True)
proofs = glob.glob(os.path.join(tree, "crates/*/proofs/**/*.antt"), recursive=True)
count = lambda fs: sum(open(f, encoding="utf-8").read().count("\n") for f in fs)
print(f"  8  {len(answers):4}  files of answers, {count(answers)} lines; all of proofs/: {count(proofs)} lines")
print(f"     {len(fns):4}  functions, {sum(t.count(chr(10)) for t in texts.values())} lines of src/")
