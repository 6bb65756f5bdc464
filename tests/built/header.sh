#!/bin/sh
# The header is bound to the functions: a C host that hands each parameter what include/glyvrask.h calls it prints what the programs print.
set -eu
cd "$(dirname "$0")/../.."
. host/kit.sh
host/build
for name in list dump trace; do need_program "$name"; done
room=$(mktemp -d)
trap 'rm -rf "$room"' EXIT

# a call of each function, its arguments by its parameters' names; the host has to use each
tr '\n' ' ' < include/glyvrask.h | grep -o 'unsigned glyvrask_[a-z_]*([^)]*)' | awk -F'[(),]' '{
    name = substr($1, 10)
    printf "static unsigned call_%s(void) { return %s(", name, name
    for (i = 2; i < NF; i++) {
        n = split($i, words, /[ *]+/)
        printf "%s%s", (i > 2 ? ", " : ""), words[n]
    }
    print "); }"
}' > "$room/calls.h"
cp host/header.c "$room/"
link_host "$room/header" "$room/header.c" target/staticlib/libexport.a target/staticlib/liblisting.a

# number BYTES N: little-endian
number() {
    left=$1 value=$2
    while [ "$left" -gt 0 ]; do
        # shellcheck disable=SC2059
        printf "\\$(printf %03o $((value % 256)))"
        value=$((value / 256)) left=$((left - 1))
    done
}

seen=0
# alike WAY PROGRAM: both print the same of the input
alike() {
    run_host "$room/header" "$1" < "$room/in" > "$room/got" || { cat "$room/got"; exit 1; }
    run_host "crates/$2/out/$2" < "$room/in" > "$room/wanted"
    cmp "$room/got" "$room/wanted" || { echo "header.sh: $1 of $file"; exit 1; }
    seen=$((seen + 1))
}

for file in tapes/*.t[az][px]; do
    for first in 4 1 3; do
        { printf %s $first; cat "$file"; } > "$room/in"
        alike list list
        alike listing list
        alike dump dump
    done
    for player in m s; do
        for from in 0 1 3; do
            # a run as crates/prog_calls/src/lib.rt has it
            {
                printf %s "4$player"
                number 4 $from
                number 2 6
                for n in 1 99 2500 4000000 15000000 4294967295; do number 4 $n; done
                cat "$file"
            } > "$room/in"
            alike trace trace
            alike run trace
            alike head trace
        done
    done
done
[ "$seen" -gt 50 ] || { echo "header.sh: no tape under tapes/"; exit 1; }
echo "header.sh: $seen outputs alike"
