#!/bin/sh
# docs/GUIDE.md shows the crates as docs/map draws them from crates.txt; README.md's map has each crate of crates.txt once, in the order of `ls crates` and below its room, and says what each room is.
set -eu
cd "$(dirname "$0")/.."
room=$(mktemp -d)
trap 'rm -rf "$room"' EXIT

bad() { # WORDS
    printf 'map.sh: %s\n' "$*" >&2
    exit 1
}

# The picture in a guide: the first block of code under 'The layers'.
shown() { # GUIDE
    awk '/^## / { on = $0 == "## The layers" } on && /^```/ { if (drawn) exit; drawn = 1; next } drawn' "$1"
}

# `ROOM CRATE` for each crate, by name: a line of the picture that is not set in is a room, and a crate where crates.txt has its name.
rooms() { # CRATES.TXT
    sh docs/map "$1" | awk '
        NR == FNR { sub(/[: ].*/, ""); listed[$0] = 1; next }
        NF == 0 { next }
        /^[^ ]/ { room = $1 }
        $1 in listed { print room, $1 }' "$1" - | LC_ALL=C sort -k 2
}

# `ROOM CRATE` for each row of a README's map: a room's name is bold, with words on what it is; it is a crate's too where crates.txt has it.
mapped() { # README CRATES.TXT
    awk '
        NR == FNR { sub(/[: ].*/, ""); listed[$0] = 1; next }
        /^## / { on = $0 == "## The crates" }
        !on || !/^\| / || /^\| crate \|/ { next }
        /^\| \*\*`[a-z0-9_]*`\*\* \| [^ |]/ { split($0, part, "`"); room = part[2]; if (room in listed) print room, room; next }
        /^\| `[a-z0-9_]*` \| [^ |]/ { split($0, part, "`"); print room, part[2]; next }
        { print "unread:", $0 }' "$2" "$1"
}

# Says what is wrong of these files, or nothing.
wrong() { # GUIDE README CRATES.TXT
    sh docs/map "$3" > "$room/drawn"
    shown "$1" > "$room/shown"
    cmp -s "$room/drawn" "$room/shown" || { echo "docs/GUIDE.md shows another picture than docs/map draws:"; diff "$room/shown" "$room/drawn" || :; }
    rooms "$3" > "$room/rooms"
    mapped "$2" "$3" > "$room/mapped"
    cmp -s "$room/rooms" "$room/mapped" || { echo "README.md's map ('<', room and crate) is not that of crates.txt ('>'):"; diff "$room/mapped" "$room/rooms" || :; }
}

said=$(wrong docs/GUIDE.md README.md crates.txt)
[ -z "$said" ] || bad "$said"

# the test itself: each of these is found, of a crate in a room of several and of one more behind the last
found() { # WHAT GUIDE README CRATES.TXT
    what=$1
    shift
    [ -n "$(wrong "$@")" ] || bad "$what is not found"
}
behind() { # CRATE ROWS: README.md with rows more behind a crate's
    awk -v row="\`$1\`" -v rows="$2" '{ print } /^\| / && ($2 == row || $2 == "**" row "**") { print rows }' README.md
}
mapped README.md crates.txt > "$room/all"
read -r prefix one << END
$(awk '$1 != $2' "$room/all" | head -n 1)
END
last=$(tail -n 1 "$room/all" | cut -d ' ' -f 2)
{ cat crates.txt; echo "${one}_more: $one"; } > "$room/crates"
found 'a picture of other crates' docs/GUIDE.md README.md "$room/crates"
grep -v "^| \`$one\` |" README.md > "$room/readme"
found 'a crate that README.md lacks' docs/GUIDE.md "$room/readme" crates.txt
behind "$one" "$(grep "^| \`$one\` |" README.md)" > "$room/readme"
found 'a crate that README.md has twice' docs/GUIDE.md "$room/readme" crates.txt
behind "$one" "| \`${one}_more\` | no such crate |" > "$room/readme"
found 'a crate that crates.txt lacks' docs/GUIDE.md "$room/readme" crates.txt
grep -v "^| \*\*\`$prefix\`\*\* |" README.md > "$room/readme"
found 'a room that README.md does not explain' docs/GUIDE.md "$room/readme" crates.txt
sed "s/^\(| \*\*\`$prefix\`\*\* |\).*/\1 |/" README.md > "$room/readme"
found 'a room without a word on what it is' docs/GUIDE.md "$room/readme" crates.txt
{ cat crates.txt; echo "zz_more: $one"; } > "$room/crates"
{ echo '## The layers'; echo '```'; sh docs/map "$room/crates"; echo '```'; } > "$room/guide"
behind "$last" '| `zz_more` | a crate in no room |' > "$room/readme"
found 'a prefix that README.md does not explain' "$room/guide" "$room/readme" "$room/crates"
behind "$last" '| **`zz_`** | a room |\n| `zz_more` | a crate in it |' > "$room/readme"
said=$(wrong "$room/guide" "$room/readme" "$room/crates")
[ -z "$said" ] || bad "a new room that README.md explains is found wrong: $said"
