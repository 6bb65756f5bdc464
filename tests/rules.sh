#!/bin/sh
# The rules of docs/RULES.md are numbered from 1 on without a gap, each has its row in docs/PROMISES.md, and each `rule N` that is cited is one of them.
set -eu
cd "$(dirname "$0")/.."
room=$(mktemp -d)
trap 'rm -rf "$room"' EXIT

bad() { # WORDS
    printf 'rules.sh: %s\n' "$*" >&2
    exit 1
}

# The numbers in lists such as `27`, `27, 29` or `27 to 31 and 40`, one a line; of a range all that lie in it.
numbers() {
    sed 's/ and / /g; s/ or / /g; s/,/ /g' | awk '{
        for (i = 1; i <= NF; i++)
            if ($i == "to") { for (n = $(i - 1) + 1; n < $(i + 1); n++) print n } else print $i
    }' | sort -u
}

# The numbers cited as `rule N`, `rules N, M` or `rules N to M` in files. A citation may go on in the next line, behind the mark of a comment.
cited() { # FILE..
    cat "$@" | sed 's/^ *\(--\|\/\/\|#\|\*\) //; s/^ *//' | tr '\n' ' ' | grep -oE '[Rr]ules? [0-9]+(( to |, | and | or )[0-9]+)*' | sed 's/^[Rr]ules* //' | numbers
}

# The numbers in the first column of a file's tables, and those in front of the items of its lists: `- **27**, **29** to **31**: ..`
rows() { # FILE
    sed -n 's/^| \([0-9][0-9, to]*\) |.*/\1/p' "$1" | numbers
}
keys() { # FILE
    grep -oE '\*\*[0-9]+\*\*' "$1" | tr -d '*' | sort -u
}

# the search itself
finds() { # WANTED FOUND
    [ "$1" = "$(printf '%s\n' "$2" | sort -n | tr '\n' ' ')" ] || bad "the search finds $2 where $1 is"
}
printf 'as rule 3 says\n * and rules 5 to 8 or 10,\n-- so rules 12,\n-- 14 too; rulers 99, rules of 98\n' > "$room/words"
finds '3 5 6 7 8 10 12 14 ' "$(cited "$room/words")"
printf '| 1, 2 | a |\n| 4 to 6, 9 | b |\n| 7K | c |\n- **1**, **4** to **6**: d\n' > "$room/words"
finds '1 2 4 5 6 9 ' "$(rows "$room/words")"
finds '1 4 6 ' "$(keys "$room/words")"

# ---- the rules' numbers
sed -n 's/^\([0-9][0-9]*\)\. .*/\1/p' docs/RULES.md > "$room/rules"
count=$(awk 'END { print NR }' "$room/rules")
[ "$count" -gt 0 ] || bad 'docs/RULES.md has no rules'
awk '$0 != NR { exit 1 }' "$room/rules" || bad "docs/RULES.md: rule $(awk '$0 != NR { print; exit }' "$room/rules") has another number than its place"
sort "$room/rules" > "$room/all"

# ---- their rows
rows docs/PROMISES.md > "$room/rows"
missing=$(comm -23 "$room/all" "$room/rows" | tr '\n' ' ')
[ -z "$missing" ] || bad "docs/PROMISES.md has no row for rule $missing"
strange=$({ cat "$room/rows"; keys docs/PROMISES.md; rows docs/DIFFERENCES.md; } | sort -u | comm -13 "$room/all" - | tr '\n' ' ')
[ -z "$strange" ] || bad "docs/PROMISES.md or docs/DIFFERENCES.md has a row for rule $strange, and docs/RULES.md has none"

# ---- their citations
find crates include host bench docs tests README.md -type f \( -name '*.antt' -o -name '*.rt' -o -name '*.[hc]' -o -name '*.md' -o -name '*.py' -o -name '*.sh' \) ! -name rules.sh > "$room/files"
# shellcheck disable=SC2046
if [ -n "$(cited $(cat "$room/files") | comm -13 "$room/all" -)" ]; then
    while read -r f; do
        strange=$(cited "$f" | comm -13 "$room/all" - | tr '\n' ' ')
        [ -z "$strange" ] || bad "$f cites rule $strange, and docs/RULES.md has none"
    done < "$room/files"
fi
