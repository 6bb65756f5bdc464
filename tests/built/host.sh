#!/bin/sh
# The listing from C: each of its refusals; and the C host lists each tape under tapes/ as the program `list` does, for all three models.
set -eu
cd "$(dirname "$0")/../.."
. host/kit.sh
host/build listing
need_program list
room=$(mktemp -d)
trap 'rm -rf "$room"' EXIT
link_host "$room/refusals" host/refusals.c target/staticlib/liblisting.a
run_host "$room/refusals"
link_host "$room/list" host/list.c target/staticlib/liblisting.a
: > "$room/none"
{ echo "$room/none"; find tapes -type f | sort; } > "$room/files"
seen=0
while IFS= read -r file; do
    for model in 48K 128K Plus3; do
        # the program's model byte is the first letter of the model's name, or 3
        case $model in Plus3) first=3 ;; *) first=${model%"${model#?}"} ;; esac
        { printf %s "$first"; cat "$file"; } > "$room/in"
        run_host crates/list/out/list < "$room/in" > "$room/wanted"
        run_host "$room/list" "$model" "$file" < /dev/null > "$room/got"
        cmp "$room/got" "$room/wanted" || { echo "host.sh: $file on a $model"; exit 1; }
        seen=$((seen + 1))
    done
done < "$room/files"
[ "$seen" -gt 3 ] || { echo "host.sh: no tape under tapes/"; exit 1; }
echo "host.sh: $seen listings alike"
