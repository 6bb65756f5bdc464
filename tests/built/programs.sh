#!/bin/sh
# The programs at the limits of what they read: no byte, one, and tapes of 65,535 bytes (`unread`: of 1,048,576), of one more, of two more and of many more; the
# longest run of calls.
set -eu
cd "$(dirname "$0")/../.."
. host/kit.sh
room=$(mktemp -d)
trap 'rm -rf "$room"' EXIT
seen=0

# A TAP of one block that has so many bytes with its length's two: a length is given as its two bytes, octal.
tap() { # LENGTH-BYTES SIZE
    # shellcheck disable=SC2059
    printf "$1"
    head -c "$2" /dev/zero
}

# The program's answer to an input begins with this line.
says() { # PROGRAM INPUT LINE
    run_host "crates/$1/out/$1" < "$room/$2" > "$room/out"
    [ "$(head -n 1 "$room/out")" = "$3" ] || {
        echo "programs.sh: $1 of $2 says '$(head -n 1 "$room/out")' and not '$3'"
        exit 1
    }
    seen=$((seen + 1))
}

for program in list dump trace unread; do
    need_program "$program"
done
tap '\375\377' 65533 > "$room/full"
tap '\376\377' 65534 > "$room/over"
tap '\377\377' 65535 > "$room/two-over"
{ cat "$room/full"; tap '\375\377' 65533; } > "$room/double"

: > "$room/none"
printf 4 > "$room/model"
printf x > "$room/no-model"
for tape in full over two-over double; do
    { printf 4; cat "$room/$tape"; } > "$room/in-$tape"
    # one call of 1 T-state from block 0 on; and 1,000 of them
    { printf '4m\0\0\0\0\1\0\1\0\0\0'; cat "$room/$tape"; } > "$room/run-$tape"
    { printf '4m\0\0\0\0\350\3'; head -c 4000 /dev/zero; cat "$room/$tape"; } > "$room/long-run-$tape"
done

says list none 'refused 1'
says list no-model 'refused 1'
says list model 'model 48K format TAP blocks 0'
says list in-full 'model 48K format TAP blocks 1'
says dump none 'refused 1'
says dump no-model 'refused 1'
says dump model 'TAP 0'
says dump in-full 'TAP 1'
says trace none 'refused 1'
says trace no-model 'refused 1'
says trace model 'refused 9'
for tape in over two-over double; do
    says list "in-$tape" 'refused 2'
    says dump "in-$tape" 'refused 2'
    says trace "run-$tape" 'refused 2'
    says trace "long-run-$tape" 'refused 2'
done
# 1,048,576 bytes are sixteen such blocks of 65,534 bytes; a tape of a byte less is short in the last, so that the program has to have read all of it
{
    printf 4
    for _ in 1 2 3 4 5 6 7 8 9 10 11 12 13 14 15 16; do tap '\376\377' 65534; done
} > "$room/in-most"
says unread none 'refused 1'
says unread no-model 'refused 1'
says unread model 'read TAP'
says unread in-full 'read TAP'
says unread in-over 'read TAP'
says unread in-double 'read TAP'
says unread in-most 'read TAP'
head -c 1048576 "$room/in-most" > "$room/in-cut"
says unread in-cut 'refused 3'
[ "$(sed -n 3p "$room/out")" = 'tap short place 983042 width 65534' ] || { echo "programs.sh: unread of a cut tape says $(sed -n 3p "$room/out")"; exit 1; }
for more in x xx xxx; do
    { cat "$room/in-most"; printf %s "$more"; } > "$room/in-more"
    says unread in-more 'refused 2'
done
for run in run-full long-run-full; do
    run_host crates/trace/out/trace < "$room/$run" > "$room/out"
    case $(head -n 1 "$room/out") in refused*) echo "programs.sh: trace of $run is refused"; exit 1 ;; esac
    seen=$((seen + 1))
done
[ "$(wc -l < "$room/out")" -eq 1000 ] || { echo "programs.sh: trace prints $(wc -l < "$room/out") lines for 1,000 calls"; exit 1; }
echo "programs.sh: $seen answers right"
