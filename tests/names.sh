#!/bin/sh
# The name of a definition in specs/ stands once in the tree (docs/DECISIONS.md, 'One name, one thing'). Fields of records and cases of data types may recur.
set -eu
cd "$(dirname "$0")/.."
twice=$(grep -HoE '^ *((abbrev|unfoldable) pub|pub (record|data)) [^ ({:]+' crates/*/specs/*.antt | sed -E 's/^([^:]*):.* ([^ ]+)$/\2 \1/' | sort -u |
    awk '{ n[$1]++; at[$1] = at[$1] " " $2 } END { for (k in n) if (n[k] > 1) print k ":" at[k] }' | sort)
[ -z "$twice" ] || { echo "names.sh: a name stands for two definitions:" >&2; printf '%s\n' "$twice" >&2; exit 1; }
