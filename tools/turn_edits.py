#!/usr/bin/env python3
"""Brings the old and new texts of crates/*/must-fail/*.edit for antt files to today's spelling: a projection is tight, and getD is get_or.

usage: python3 tools/turn_edits.py
It follows respell.py, which turns our own names. A second run turns nothing; tools/check_edits.py says which edits stand.
"""

import glob
import os
import re

TOP = os.path.dirname(os.path.dirname(os.path.realpath(__file__)))


def turned(text):
    text = re.sub(r"\((\w+'*) \.(\w+)\)", r"\1.\2", text)
    text = re.sub(r"(?<=\w) \.(?=[a-z])", ".", text)
    return re.sub(r"\bgetD\b", "get_or", text)


def main():
    changed = 0
    for path in sorted(glob.glob(os.path.join(TOP, "crates/*/must-fail/*.edit"))):
        with open(path, encoding="utf-8", newline="") as f:
            old = f.read()
        lines, antt = old.split("\n"), False
        for k, line in enumerate(lines):
            if line.startswith("file: "):
                antt = line.rstrip().endswith(".antt")
            elif antt and line.startswith(("old: ", "new:")):
                lines[k] = line[:4] + turned(line[4:])
        new = "\n".join(lines)
        if new != old:
            changed += 1
            print(os.path.relpath(path, TOP))
            with open(path, "w", encoding="utf-8", newline="") as f:
                f.write(new)
    print("edits changed: %d" % changed)


if __name__ == "__main__":
    main()
