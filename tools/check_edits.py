#!/usr/bin/env python3
"""Says which edits of crates/*/must-fail stand: each text behind 'old: ' must be in the edit's file exactly once, after the pairs before it.

usage: python3 tools/check_edits.py
"""

import glob
import os
import sys

TOP = os.path.dirname(os.path.dirname(os.path.realpath(__file__)))


def trouble(path, folder=None):
    """What keeps an edit from being applied, or None."""
    where, text, old = None, None, None
    for line in open(path, encoding="utf-8").read().split("\n"):
        if line.startswith("file: "):
            where = os.path.join(folder or os.path.dirname(os.path.dirname(path)), line[6:].strip())
            if not os.path.exists(where):
                return "no file " + line[6:]
            text = open(where, encoding="utf-8").read()
        elif line.startswith("old: "):
            old = line[5:]
        elif line.startswith("new:"):
            if text.count(old) != 1:
                return "%d times: %s" % (text.count(old), old)
            text = text.replace(old, line[5:])
    return None if old is not None else "no pair"


def main():
    edits = sorted(glob.glob(os.path.join(TOP, "crates/*/must-fail/*.edit")))
    bad = [(e, t) for e in edits for t in [trouble(e)] if t]
    for edit, why in bad:
        print(os.path.relpath(edit, TOP) + ": " + why)
    print("%d of %d edits can be applied" % (len(edits) - len(bad), len(edits)))
    return 1 if bad else 0


if __name__ == "__main__":
    sys.exit(main())
