#!/bin/sh
# ./glyvrask over the real programs: tests/tool.sh once more, of which nothing may be left out now; and why a tape is refused by 3, in words.
set -eu
here=$(cd "$(dirname "$0")/../.." && pwd)
said=$(sh "$here/tests/tool.sh")
[ -z "$said" ] || { echo "$said"; exit 1; }

room=$(mktemp -d)
trap 'rm -rf "$room"' EXIT
GLYVRASK_BUILD=no
export GLYVRASK_BUILD
unset GLYVRASK_BIN

# A tape is refused by 3, with these words among others.
explains() { # WORDS FILE
    status=0
    said=$("$here/glyvrask" list 48K "$2" 2>&1) || status=$?
    case $status:$said in
        '1:glyvrask: refused 3: '*"$1"*) ;;
        *) echo "tool.sh: of ${2##*/} it says, with status $status, without '$1': $said"; exit 1 ;;
    esac
}

head -c 100 "$here/tapes/levels.tzx" >"$room/cut.tzx"
echo 'This is a letter, and no tape at all.' >"$room/letter"
printf 'ZXTape!\032\001\024\062\001\000\001\040\001\000' >"$room/damaged.tzx"
explains "$(awk '/^\$ \.\/glyvrask list 48K tapes\/cut\.tzx$/ { on = 1; next } /^```/ { on = 0 } on' "$here/README.md" | tail -n +2)" "$room/cut.tzx"
explains 'as TZX: so a cut copy' "$room/cut.tzx"
explains 'so not a TZX' "$room/letter"
explains 'as TAP: that is the first block: so not a TAP, or a cut copy' "$room/letter"
explains 'as TZX: so damaged' "$room/damaged.tzx"
