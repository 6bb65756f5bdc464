#!/usr/bin/env python3
"""Brings this repository's own names of definitions and lemmas to snake case, by the table respell.tsv beside this script.

usage: python3 tools/respell.py [--check] [--show]

Each row of the table: old, a tab, new. Whole words turn, in place; a second run turns nothing. --check writes nothing; --show prints each word
that turns in a document, with its file.
  crates/*/specs and crates/*/proofs, *.antt: the code but for quoted text; in a comment, its code spans, and a bare word with an inner capital
  crates/*/src/*.rt: the clauses, the ghost blocks and the 'ghost use' items; comments as above
  crates/*/must-fail/*.edit: the lines 'old:' and 'new:'; the others as comments
  README.md, docs/**/*.md: code spans and fenced blocks, but for shell commands
A name stays in a file that imports it from another repository's module, and behind such a module's short name. In a function's proof
(proofs/F/Proof.antt) the file's own answers stay, and so does a name with a dash behind a dot, unless a module of ours stands in front of it.
"""

import collections
import os
import re
import sys

HERE = os.path.dirname(os.path.realpath(__file__))
TOP = os.path.dirname(HERE)
NAME = r'[^\s(){}.;,@"«»]+'
WORD = re.compile(NAME)
PART = re.compile(r"[^\x60\[\]|/:\\*…⟨⟩⟦⟧'’#]+'*")
QUIET = re.compile(r'"(?:[^"\\\n]|\\.)*"|(?<![^\s(){}.;,@"«»])--[^\n]*|\{-.*?-\}', re.S)
SPAN = re.compile(r"(\x60+)(?:[^\n]|\n(?!\s*\n))*?\1")
FENCE = re.compile(r"^( *)(\x60{3,})([^\n\x60]*)\n(.*?)^\1\2 *$", re.S | re.M)
SHELL = re.compile(r"\x60*\s*(?:\$ |\./|(?:antt|rt|just|cargo|python3|bash|sh|cd|cc|gcc|tar|cp|ls|for|env|export|git) )")
BLOCK = re.compile(r"(?<![^\s(){};,])(?:where|do|let|mutual) +(?=\S)")
RUST = re.compile(
    r"""//[^\n]*|/\*.*?\*/|[bc]?r(#*)".*?"\1|[bc]?"(?:\\.|[^"\\])*"|b?'(?:\\u\{[0-9a-fA-F_]+\}|\\x..|\\.|[^'\\])'|'?\w+|\s+|.""", re.S
)
CLAUSE = re.compile(r"(?:requires|ensures)\s*\*?\s*(?:\w+\s*)?\{|ghost\s*(?:\w+\s*(?::\s*(?:(?:owns|lends)\s*)?|=\s*))?\{")
DEFAULT = re.compile(r"=\s*\{")
GHOST_USE = re.compile(r"ghost\s+use\b[^;]*;")
IMPORT = re.compile(r"(?<!\S)(?:use|open) ([^\s{};]+)\.\{([^}]*)\}")
SHORT = re.compile(r"(?<!\S)(?:use|open) ([^\s{};]+) as «?(%s)»?" % NAME)
DECLARED = re.compile(r"(?m)^ *(?:(?:pub|abbrev|unfoldable|mutual) )*(%s) :(?= |$)" % NAME)
RENAMED = re.compile(r"(?<![^\s{,])(%s) as «?(%s)»?(?=[,}])" % (NAME, NAME))

table = {}
ours = set()  # the crates
count = collections.Counter()
by_word = collections.Counter()
said = []


def ours_is(module):
    """Whether a module is one of this repository's own spec or lemma modules."""
    parts = module.split(".")
    if len(parts) < 3 or parts[0] != "Rattle" or parts[1] not in ours:
        return False
    return parts[2] in ("specs", "proofs") and (len(parts) < 4 or parts[3][:1].isupper())


def between(pattern, text, inside, outside):
    out, at = [], 0
    for m in pattern.finditer(text):
        out += [outside(text[at : m.start()]), inside(m)]
        at = m.end()
    return "".join(out + [outside(text[at:])])


def new_of(word):
    by_word[word] += 1
    count["words"] += 1
    return table[word]


class File:
    """What stays in one file."""

    def __init__(self, text, answers=False):
        code = QUIET.sub(" ", text)
        self.answers = answers
        self.kept, self.foreign, self.near = set(), set(), set()
        for module, names in IMPORT.findall(code):
            if not ours_is(module):
                for item in names.split(","):
                    parts = item.strip().split(" as ")
                    self.kept.add(parts[0])
                    self.foreign.update(parts)
        for module, name in SHORT.findall(code):
            (self.near if ours_is(module) else self.foreign).add(name.strip("«»"))
        if answers:
            self.kept |= set(DECLARED.findall(code))

    def code(self, text):
        def one(m):
            word = m[0]
            if word not in table or word in self.kept:
                return word
            if m.start() and text[m.start() - 1] == ".":
                head = re.search(r"([^\s(){};,@\"«»]*)\.$", text[: m.start()][-200:])
                first = head[1].split(".")[0] if head else ""
                if first in self.foreign and first not in self.near and "-" in word:
                    return word
                if self.answers and "-" in word and first not in self.near:
                    return word
            return new_of(word)

        def renamed(m):
            a, b = (w if w in self.kept else table.get(w, w) for w in m.groups())
            return a if a == b and m[1] != m[2] else m[0]

        return WORD.sub(one, RENAMED.sub(renamed, text))

    def loose(self, text, may=lambda w: True):
        """Prose or a code span: a word also ends at the signs of prose."""

        def part(m):
            bare = m[0].rstrip("'")
            if m[0] in table and m[0] not in self.kept and may(m[0]):
                return new_of(m[0])
            if bare in table and bare not in self.kept and may(bare):
                return new_of(bare) + m[0][len(bare) :]
            return m[0]

        whole = lambda m: new_of(m[0]) if m[0] in table and m[0] not in self.kept and may(m[0]) else PART.sub(part, m[0])
        return WORD.sub(whole, text)

    def comment(self, text):
        return between(SPAN, text, lambda m: self.loose(m[0]), lambda t: self.loose(t, lambda w: "-" not in w))

    def antt(self, text):
        quiet = lambda m: m[0] if m[0][0] == '"' else self.comment(m[0])
        return between(QUIET, text, quiet, self.code)


def closing(text, at):
    depth = 0
    for m in re.compile(QUIET.pattern + r"|[{}]", re.S).finditer(text, at):
        depth += (m[0] == "{") - (m[0] == "}")
        if depth < 0:
            return m.start()
    return None


def antt(text, where):
    return realigned(text, File(text, where.endswith("/Proof.antt")).antt(text))


def rt(text, where):
    """The clauses, ghost blocks and 'ghost use' items, and the comments."""
    file = File("\n".join(m[0][6:] for m in GHOST_USE.finditer(text)))
    out, at, typed = [], 0, False
    while at < len(text):
        m = RUST.match(text, at)
        word, end = m[0], m.end()
        clause = (
            CLAUSE.match(text, at)
            if word in ("requires", "ensures", "ghost")
            else DEFAULT.match(text, at)
            if typed and word == "="
            else None
        )
        use = GHOST_USE.match(text, at) if word == "ghost" else None
        if clause and closing(text, clause.end()):
            end, typed = closing(text, clause.end()), ":" in clause[0]
            out += [clause[0], file.antt(text[clause.end() : end])]
        elif use:
            end = use.end()
            out.append(file.antt(use[0]))
        else:
            typed = typed and (word.isspace() or word == "}")
            if word in table:
                said.append(f"look: {where}: {word} stands outside a clause")
            out.append(file.comment(word) if word[:2] in ("//", "/*") else word)
        at = end
    return realigned(text, "".join(out))


def edit(text, where):
    file = File("")
    lines = text.split("\n")
    for k, line in enumerate(lines):
        if line.startswith(("old:", "new:")):
            lines[k] = file.code(line)
        elif not line.startswith("file:"):
            lines[k] = file.comment(line)
    return "\n".join(lines)


def md(text, where):
    file = File("")

    def block(m):
        shell = m[3].strip() in ("sh", "bash", "shell", "console", "json", "toml", "c") or SHELL.match(m[4])
        return m[0] if shell else file.loose(m[0])

    before = +by_word
    span = lambda m: m[0] if SHELL.match(m[0]) else file.loose(m[0])
    new = between(FENCE, text, block, lambda t: SPAN.sub(span, t))
    for word in by_word - before if "--show" in sys.argv else ():
        said.append(f"{where}: {word} -> {table[word]}")
    return new


def realigned(old, new):
    """The new text, in which the later lines of a block stand under its first item again."""
    if len(old) == len(new):
        return new
    blank = lambda t: QUIET.sub(lambda m: re.sub(r"[^\n]", " ", m[0]), t).split("\n")
    was, now, lines = blank(old), blank(new), new.split("\n")
    by = [0] * len(lines)
    for row, (a, b) in enumerate(zip(was, now)):
        for x, y in zip(BLOCK.finditer(a), BLOCK.finditer(b)) if a != b else ():
            below = row + 1
            while x.end() != y.end() and below < len(was):
                if was[below].strip() and was[below][: x.end()].strip():
                    break
                by[below] += (y.end() - x.end()) * bool(was[below].strip())
                below += 1
    return "\n".join(" " * n + line if n >= 0 else line[-n:] for n, line in zip(by, lines))


def files_below(top):
    if os.path.isfile(top):
        yield top
    for folder, folders, files in os.walk(top):
        folders[:] = sorted(f for f in folders if f != "out" and f[0] != ".")
        yield from (os.path.join(folder, f) for f in sorted(files) if not os.path.islink(os.path.join(folder, f)))


def work():
    for crate in sorted(ours):
        base = os.path.join(TOP, "crates", crate)
        for part in ("specs", "proofs"):
            yield from ((f, antt) for f in files_below(os.path.join(base, part)) if f.endswith(".antt"))
        yield from ((f, rt) for f in files_below(os.path.join(base, "src")) if f.endswith(".rt"))
        yield from ((f, edit) for f in files_below(os.path.join(base, "must-fail")) if f.endswith(".edit"))
    for top in ("README.md", "docs"):
        yield from ((f, md) for f in files_below(os.path.join(TOP, top)) if f.endswith(".md"))


def main():
    check = "--check" in sys.argv
    with open(os.path.join(HERE, "respell.tsv"), encoding="utf-8") as f:
        for line in f:
            old, new = line.rstrip("\n").split("\t")
            table[old] = new
    ours.update(d for d in os.listdir(os.path.join(TOP, "crates")) if os.path.isdir(os.path.join(TOP, "crates", d)))
    for path, how in work():
        with open(path, encoding="utf-8", newline="") as f:
            old = f.read()
        new = how(old, os.path.relpath(path, TOP))
        count["files read"] += 1
        if new != old:
            count["files that change" if check else "files changed"] += 1
            count[how.__name__ + " files"] += 1
            if not check:
                with open(path, "w", encoding="utf-8", newline="") as f:
                    f.write(new)
    for line in said:
        print(line)
    print("names that turned %d of %d" % (len(by_word), len(table)))
    print("; ".join(f"{what} {n}" for what, n in sorted(count.items())))
    return 1 if check and count["files that change"] else 0


if __name__ == "__main__":
    sys.exit(main())
