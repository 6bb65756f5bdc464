#!/bin/sh
# ./glyvrask says what it should: its words, errors and statuses over stand-in programs, then, where the real ones are built and up to date, the samples' listings.
set -eu
here=$(cd "$(dirname "$0")/.." && pwd)
room=$(mktemp -d)
trap 'rm -rf "$room"' EXIT
mkdir "$room/bin" "$room/tmp" "$room/some where"
unset GLYVRASK_BIN GLYVRASK_BUILD
TMPDIR=$room/tmp
export TMPDIR
nl='
'

bad() { # WORDS
    printf 'tool.sh: %s\n' "$*" >&2
    exit 1
}

# Runs the script from another folder: `status`, and what it wrote in $room/out and $room/err. Nothing may be left behind.
call() { # WORD..
    status=0
    (cd "$room/some where" && exec "${script:-$here/glyvrask}" "$@") >"$room/out" 2>"$room/err" </dev/null || status=$?
    [ -z "$(ls -A "$room/tmp")" ] || bad "'$*' left behind: $(ls -A "$room/tmp")"
}

# The script's status, and all that it writes.
says() { # STATUS OUT ERR WORD..
    want=$1 out=$2 err=$3
    shift 3
    call "$@"
    [ "$status" = "$want" ] || bad "'$*': status $status, not $want; it says: $(cat "$room/err")"
    [ "$(cat "$room/out")" = "$out" ] || bad "'$*' writes:$nl$(cat "$room/out")$nl and not:$nl$out"
    [ "$(cat "$room/err")" = "$err" ] || bad "'$*' says:$nl$(cat "$room/err")$nl and not:$nl$err"
}

# The script fails with this status, says this among other things in one line, and writes nothing else.
fails() { # STATUS WORDS WORD..
    want=$1 words=$2
    shift 2
    call "$@"
    [ "$status" = "$want" ] || bad "'$*': status $status, not $want; it says: $(cat "$room/err")"
    [ ! -s "$room/out" ] || bad "'$*' fails and writes: $(cat "$room/out")"
    case $(cat "$room/err") in
        *"$nl"*) bad "'$*' says more than a line: $(cat "$room/err")" ;;
        'glyvrask: '*"$words"*) ;;
        *) bad "'$*' says '$(cat "$room/err")', without '$words'" ;;
    esac
}

# The stand-in took exactly these bytes, given as printf has them, then the file.
took() { # NAME HEAD FILE
    # shellcheck disable=SC2059
    { printf "$2" && cat "$3"; } | cmp -s - "$room/bin/$1.took" || bad "$1 took other bytes: $(od -An -c "$room/bin/$1.took" | head -n 4)"
}

# A stand-in keeps what it took and answers what it was told for the model, its input's first byte.
for p in list dump trace unread; do
    cat >"$room/bin/$p" <<'END'
#!/bin/sh
cat >"$0.took"
cat "$0.$(head -c 1 "$0.took")"
END
    chmod +x "$room/bin/$p"
done
tell() { # NAME MODEL-BYTE TEXT
    printf '%s\n' "$3" >"$room/bin/$1.$2"
}
sample() { # TAPE MODEL
    awk -v tape="== $1 $2" '/^== / { on = $0 == tape; next } on' "$here/tapes/listings.txt"
}
tell_sample() { # TAPE
    tell list 4 "$(sample "$1" 48K)"
    tell list 1 "$(sample "$1" 128K)"
    tell list 3 "$(sample "$1" Plus3)"
}

# wrong words
call --help
[ "$status" = 0 ] || bad '--help fails'
for word in list compare dump 'trace m' 'trace s' 48K 128K Plus3 'refusal 3' GLYVRASK_BIN; do
    grep -q -e "$word" "$room/out" || bad "--help says nothing of $word"
done
fails 2 'say what to do'
fails 2 "there is no 'lsit'" lsit 48K tape
fails 2 'list takes a model and a file' list 48K
fails 2 'list takes a model and a file' list 48K my tape.tap
fails 2 'dump takes a model and a file' dump
fails 2 'compare takes a file' compare
fails 2 'compare takes a file' compare 48K tape
fails 2 'trace takes m or s' trace m 48K tape 0

# files and models; nothing is built for them
tape="$room/some where/a tape.tzx"
cp "$here/tapes/levels.tzx" "$tape"
cp "$tape" "$room/some where/-n"
fails 2 "there is no model '16K'; name 48K, 128K or Plus3" list 16K 'a tape.tzx'
fails 2 "there is no file 'no tape'" list 48K 'no tape'
fails 2 'is not a file' compare "$room"
fails 2 "there is no file ''" dump 48K ''
if [ "$(id -u)" != 0 ]; then
    : >"$room/secret"
    chmod 0 "$room/secret"
    fails 2 'cannot be read' list 48K "$room/secret"
fi
head -c 65535 /dev/zero >"$room/long"
head -c 65536 /dev/zero >"$room/longer"
fails 1 'refused 2: the tape is over 65,535 bytes' list 48K "$room/longer"
fails 1 'refused 2: the tape is over 65,535 bytes' compare "$room/longer"
fails 1 'refused 2: the tape is over 65,535 bytes' trace m 48K "$room/longer" 0 1

# the programs' bytes and answers
GLYVRASK_BIN=$room/bin
export GLYVRASK_BIN
tell_sample levels.tzx
says 0 "$(sample levels.tzx 48K)" '' list 48K 'a tape.tzx'
took list 4 "$tape"
says 0 "$(sample levels.tzx 128K)" '' list 128k "$tape"
took list 1 "$tape"
says 0 "$(sample levels.tzx Plus3)" '' list PLUS3 -n
took list 3 "$tape"
call list 48K "$room/long"
took list 4 "$room/long"
tell dump 1 "TZX 1${nl}0 sel=1"
says 0 "TZX 1${nl}0 sel=1" '' dump 128K 'a tape.tzx'
took dump 1 "$tape"
tell trace 4 "one${nl}two"
says 0 "one${nl}two" '' trace m 48K 'a tape.tzx' 7 1
took trace '4m\007\0\0\0\001\0\001\0\0\0' "$tape"
tell trace 3 ended
says 0 ended '' trace s Plus3 'a tape.tzx' 4294967295 0 000 0256 66051 4294967295
took trace '3s\377\377\377\377\005\0\0\0\0\0\0\0\0\0\0\001\0\0\003\002\001\0\377\377\377\377' "$tape"
fails 2 "there is no player 'x'" trace x 48K 'a tape.tzx' 0 1
fails 2 "there is no model '+2'" trace m +2 'a tape.tzx' 0 1
fails 2 "the block number '-1' is not a whole number" trace m 48K 'a tape.tzx' -1 1
fails 2 "the block number '4294967296' is over 4,294,967,295" trace m 48K 'a tape.tzx' 4294967296 1
fails 2 "the count '1e3' is not a whole number" trace m 48K 'a tape.tzx' 0 1 1e3
fails 2 "the count '' is not a whole number" trace m 48K 'a tape.tzx' 0 ''
fails 2 "the count '18446744073709551617' is over" trace m 48K 'a tape.tzx' 0 18446744073709551617
thousand=$(seq 1000)
# shellcheck disable=SC2086
fails 2 '1001 counts are too many' trace m 48K 'a tape.tzx' 0 1 $thousand
# shellcheck disable=SC2086
says 0 "one${nl}two" '' trace m 48K 'a tape.tzx' 0 $thousand

# refusals
for n in 1 2 3 4 5 6 7 9 10 11; do
    tell list 4 "refused $n"
    tell dump 4 "refused $n"
    tell trace 4 "refused $n"
    fails 1 "refused $n: " list 48K 'a tape.tzx'
    fails 1 "refused $n: " dump 48K 'a tape.tzx'
    fails 1 "refused $n: " trace m 48K 'a tape.tzx' 0 1
    [ "$n" = 11 ] || grep -q "^| $n |.*|.*|$" "$here/README.md" || bad "README.md has no row for refusal $n"
done

# refusal 3 in words: the same wherever it is met
refused3='glyvrask: refused 3: this is neither a whole TZX nor a whole TAP: the file may be cut short, or still packed (zip); get a fresh copy, or unpack it'
for p in list dump trace; do
    tell $p 4 'refused 3'
    tell $p 1 'refused 3'
    tell $p 3 'refused 3'
done
# What unread answers of a file, and what is said then, but for the script's name before each line.
explains() { # ANSWER WORDS FILE
    tell unread 4 "refused 3$nl$1"
    words=$(printf '%s\n' "$2" | sed 's/^/glyvrask: /')
    says 1 '' "$refused3$nl$words" list 48K "$3"
    took unread 4 "$3"
    if tail -n +2 "$room/err" | grep '.\{81\}'; then bad "a line of over 80 columns"; fi
}
no_tap='as TAP: it begins as a TZX does: so not a TAP'
tap='tap short place 2 width 22618'
explains "tzx short kind 16 piece 36 place 41 width 228$nl$tap" \
    "as TZX: the piece of kind 10 (hex) at byte 36 is cut:${nl}as TZX: 228 bytes are wanted at byte 41, 168 are there${nl}as TZX: so a cut copy, or damaged before that place$nl$no_tap" "$tape"
says 1 '' "$refused3$nl$words" dump 48K "$tape"
took unread 4 "$tape"
says 1 '' "$refused3$nl$words" trace m 48K "$tape" 0 1
took unread 4 "$tape"
cp "$room/bin/unread.4" "$room/bin/unread.1"
says 1 '' "$refused3$nl$words" dump 128K "$tape"
took unread 1 "$tape"
cp "$room/bin/unread.4" "$room/bin/unread.3"
says 1 '' "$refused3$nl$words" compare "$tape"
took unread 3 "$tape"
cut_words=$words
explains "tzx short kind 25 piece 10 place 208 width 1$nl$tap" \
    "as TZX: the piece of kind 19 (hex) at byte 10 is cut:${nl}as TZX: 1 byte is wanted at byte 208, 1 is there${nl}as TZX: so a cut copy, or damaged before that place$nl$no_tap" "$tape"
explains "tzx short kind 10 piece 10 place 209 width 2$nl$tap" \
    "as TZX: the piece of kind 0A (hex) at byte 10 is cut:${nl}as TZX: 2 bytes are wanted at byte 209, 0 are there${nl}as TZX: so a cut copy, or damaged before that place$nl$no_tap" "$tape"
# a 32: its body past the file; an entry past the body, where the file goes on and where both end; no entry's count, where the file goes on
explains "tzx short kind 50 piece 180 place 183 width 50$nl$tap" \
    "as TZX: the piece of kind 32 (hex) at byte 180 is cut:${nl}as TZX: 50 bytes are wanted at byte 183, 26 are there${nl}as TZX: so a cut copy, or damaged before that place$nl$no_tap" "$tape"
for place in 13 14 100 208 209; do
    width=1
    [ "$place" -lt 100 ] || width=255
    explains "tzx short kind 50 piece 10 place $place width $width$nl$tap" \
        "as TZX: the piece of kind 32 (hex) at byte 10 is too short:${nl}as TZX: its entries run past its own length, at byte $place${nl}as TZX: so damaged$nl$no_tap" "$tape"
done
explains "tzx length kind 42 piece 13 length 1$nl$tap" \
    "as TZX: the piece of kind 2A (hex) at byte 13 has a wrong length:${nl}as TZX: 1, where it should be 0${nl}as TZX: so damaged, there or before$nl$no_tap" "$tape"
printf '\002\0\377' >"$room/short"
explains "tzx signature short place 0 width 10${nl}tap short place 2 width 2" \
    "as TZX: the file has only 3 bytes, too few for a TZX's head of 10${nl}as TAP: 2 bytes are wanted at byte 2, 1 is there${nl}as TAP: that is the first block: so not a TAP, or a cut copy" "$room/short"
explains "tzx signature bad${nl}tap short place 23 width 300" \
    "as TZX: it begins with another signature: so not a TZX${nl}as TAP: 300 bytes are wanted at byte 23, 186 are there${nl}as TAP: the blocks before are whole: so a cut copy, or not a TAP" "$tape"
# the widest numbers
explains "tzx short kind 53 piece 30000 place 30021 width 4294967295$nl$tap" \
    "as TZX: the piece of kind 35 (hex) at byte 30000 is cut:${nl}as TZX: 4294967295 bytes are wanted at byte 30021, 35514 are there${nl}as TZX: so a cut copy, or damaged before that place$nl$no_tap" "$room/long"
explains "tzx length kind 42 piece 65530 length 4294967295$nl$tap" \
    "as TZX: the piece of kind 2A (hex) at byte 65530 has a wrong length:${nl}as TZX: 4294967295, where it should be 0${nl}as TZX: so damaged, there or before$nl$no_tap" "$room/long"
explains "tzx signature bad${nl}tap short place 30000 width 65535" \
    "as TZX: it begins with another signature: so not a TZX${nl}as TAP: 65535 bytes are wanted at byte 30000, 35535 are there${nl}as TAP: the blocks before are whole: so a cut copy, or not a TAP" "$room/long"
# README.md's example
cut=$here/tapes/cut.tzx
tell unread 4 "refused 3${nl}tzx short kind 16 piece 34 place 39 width 68$nl$tap"
says 1 '' "$(awk '/^\$ \.\/glyvrask list 48K tapes\/cut\.tzx$/ { on = 1; next } /^```/ { on = 0 } on' "$here/README.md")" list 48K "$cut"
# an answer that says nothing of this: the refusal stands as it is
for answer in 'read TZX' 'refused 4' 'refused 3' "refused 3${nl}tzx signature bad" "refused 3${nl}tzx odd${nl}$tap" "refused 3${nl}tzx signature bad${nl}tap odd"; do
    tell unread 4 "$answer"
    says 1 '' "$refused3" list 48K "$tape"
done
# a refusal of one model
tell list 4 'refused 6'
call compare "$tape"
[ "$status" = 1 ] || bad "refusals 6 and 3: status $status"
[ "$(cat "$room/err")" = "glyvrask: the tape is refused on a model: see above$nl$cut_words" ] || bad "refusals 6 and 3: $(cat "$room/err")"
grep -q '^- 128K and Plus3: refused 3: ' "$room/out" || bad 'refusals 6 and 3: the 3 is not said'

# programs that fail; where it is unread the refusal stands as it is
for p in 'exit 7' 'cat >/dev/null' 'echo refused; exit 1' 'echo oh >&2; exit 127'; do
    printf '#!/bin/sh\n%s\n' "$p" >"$room/bin/unread"
    tell list 4 'refused 3'
    says 1 '' "$refused3" list 48K "$tape"
    says 1 '' "$refused3" compare "$tape"
done
rm "$room/bin/unread"
says 1 '' "$refused3" list 48K "$tape"
says 1 '' "$refused3" trace m 48K "$tape" 0 1
printf '#!/bin/sh\nexit 7\n' >"$room/bin/dump"
fails 3 'dump ended with status 7' dump 48K 'a tape.tzx'
printf '#!/bin/sh\ncat >/dev/null\n' >"$room/bin/dump"
fails 3 'dump answered nothing' dump 48K 'a tape.tzx'
rm "$room/bin/dump"
fails 3 'GLYVRASK_BIN has no program' dump 48K 'a tape.tzx'

# comparing: README.md's example, all the same, a refusal on one model or on all, and what no tape should do
tell_sample levels.tzx
says 0 "$(awk '/^\$ \.\/glyvrask compare tapes\/levels\.tzx$/ { on = 1; next } /^```/ { on = 0 } on' "$here/README.md")" '' compare 'a tape.tzx'
tell_sample group.tzx
call compare 'a tape.tzx'
[ "$status" = 0 ] || bad 'comparing equal listings fails'
grep -q '^All three models give the same listing' "$room/out" || bad 'equal listings are not said to be equal'
grep -q 'the tape stops at block 5 (stop). Loading time, up to its last pulse before the first stop: 40608394 T-states (0 min 11.602 s)' "$room/out" || bad 'equal listings: no stop or time'
if grep -q WARNING "$room/out"; then bad 'equal listings give a warning'; fi
tell list 4 'refused 6'
call compare 'a tape.tzx'
[ "$status" = 1 ] || bad "a refusal on one model: status $status"
grep -q '^- 48K: refused 6: the tape has more than 512 blocks' "$room/out" || bad 'a refusal on one model is not said'
grep -q '^- 128K and Plus3: the tape stops at block 5 (stop)' "$room/out" || bad 'the other models are not said'
tell list 1 'refused 6'
fails 3 'the answers for the 128K and the Plus3 differ' compare 'a tape.tzx'
tell list 3 'refused 6'
fails 1 'refused 6: ' compare 'a tape.tzx'
tell list 4 "model 48K format TZX blocks 4${nl}0 * 0 stop stop${nl}1 - 0 12600001750 x${nl}2 * 0 stop stop${nl}3 * 0 stop  a\\tb\\c %s ${nl}time 0"
tell list 1 "model 128K format TZX blocks 2${nl}0 - 0 12600001750 x${nl}1 * 0 stop stop${nl}time 12600001750"
tell list 3 "model Plus3 format TZX blocks 2${nl}0 - 0 12600001750 x${nl}1 * 0 stop stop${nl}time 12600001750"
call compare 'a tape.tzx'
grep -q '^On the 48K only, the tape stops at block 0 (stop), block 3 (a\\tb\\c %s):' "$room/out" || bad 'stops of the 48K alone are not told from others'
grep -q '^- 128K and Plus3: the tape stops at block 1 (stop).*: 12600001750 T-states (60 min 0.001 s)' "$room/out" || bad 'minutes and seconds'
grep -q '^- 48K: the tape stops at block 0 (stop), .*\. Loading time 0: it has no pulse before the first stop\.$' "$room/out" || bad 'no pulse before the first stop'
for model in 4:48K 1:128K 3:Plus3; do tell list "${model%:*}" "model ${model#*:} format TZX blocks 1${nl}0 - 0 3500 0 bytes${nl}time 0"; done
call compare 'a tape.tzx'
grep -qx -- '- 48K, 128K and Plus3: the tape never stops. Loading time 0: it has no pulse.' "$room/out" || bad 'no pulse at all'

# a reader that goes away leaves nothing behind either
tell list 4 "$(seq 20000)"
(cd "$room/some where" && "$here/glyvrask" list 48K 'a tape.tzx' | head -n 1) >"$room/out" 2>&1 || :
[ "$(cat "$room/out")" = 1 ] || bad "a closed pipe: $(cat "$room/out")"
[ -z "$(ls -A "$room/tmp")" ] || bad 'a closed pipe leaves files behind'

# an answer that cannot be written
if [ -c /dev/full ]; then
    status=0
    "$here/glyvrask" list 48K "$tape" >/dev/full 2>"$room/err" || status=$?
    [ "$status" = 3 ] || bad "a full disk: status $status"
    grep -q 'the answer could not be written' "$room/err" || bad "a full disk says: $(cat "$room/err")"
fi

unset GLYVRASK_BIN

# building, over a stand-in for rt: what is missing or older than its sources, and nothing else; through a link, from another folder
root="$room/the root"
mkdir -p "$root/crates/list/src" "$root/crates/unread/src" "$room/path"
cp "$here/glyvrask" "$root/glyvrask"
ln -s "the root/glyvrask" "$room/link"
script=$room/link
echo 'list:' >"$root/crates.txt"
: >"$root/crates/list/src/main.rt"
cat >"$room/path/rt" <<'END'
#!/bin/sh
case $* in
    run)
        name=$(basename "$(pwd)")
        echo "rt: in $(pwd)"
        echo 'rt: note: this is not shown'
        echo 'a note' >&2
        mkdir -p out
        cp "../../made $name" "out/$name"
        chmod +x "out/$name"
        [ ! -f "../../no $name" ] || exit 1
        ;;
    *) exit 2 ;;
esac
END
chmod +x "$room/path/rt"
printf '#!/bin/sh\necho the list\n' >"$root/made list"
old=$PATH
PATH=$room/path:$PATH
ran='the list'
at=$(cd "$root" && pwd -P)
building="glyvrask: building list (proved first; this takes some minutes once)${nl}rt: in $at/crates/list"
says 0 "$ran" "$building" list 48K 'a tape.tzx'
says 0 "$ran" '' list 48K 'a tape.tzx'
touch -t 203001010000 "$root/crates/list/src/main.rt"
says 0 "$ran" "$building" list 48K 'a tape.tzx'
touch "$root/crates/list/src/main.rt"
says 0 "$ran" "$building" list 48K 'a tape.tzx'
says 0 "$ran" '' list 48K 'a tape.tzx'
# what rt leaves beside the sources makes no program older
mkdir -p "$root/crates/unread/out"
touch -t 203001010000 "$root/crates/unread/out/other" "$root/crates/unread/out"
says 0 "$ran" '' list 48K 'a tape.tzx'
rm "$root/crates/list/out/list"
GLYVRASK_BUILD=no
export GLYVRASK_BUILD
fails 3 'list is not built' list 48K 'a tape.tzx'
unset GLYVRASK_BUILD
: >"$root/no list"
call list 48K 'a tape.tzx'
[ "$status" = 3 ] || bad "a failed build: status $status"
case $(cat "$room/err") in
    "$building${nl}glyvrask: list could not be built; the lines above say why"*) ;;
    *) bad "a failed build says: $(cat "$room/err")" ;;
esac
[ ! -f "$root/crates/list/out/list" ] || bad 'a program that failed its check is kept'
grep -q 'a note' "$root/target/log/list" || bad 'what rt said of a failed build is not kept'

# unread is built when it is needed, behind the refusal; where it can't be, also right behind another that was built, the refusal stands
rm "$root/no list"
printf '#!/bin/sh\necho refused 3\n' >"$root/made list"
printf '#!/bin/sh\nprintf "refused 3\\ntzx signature bad\\ntap short place 2 width 65535\\n"\n' >"$root/made unread"
building_unread="glyvrask: building unread (proved first; this takes some minutes once)${nl}rt: in $at/crates/unread"
: >"$root/no unread"
says 1 '' "$building$nl$refused3$nl$building_unread" list 48K "$tape"
[ ! -f "$root/crates/unread/out/unread" ] || bad 'an unread that failed its check is kept'
GLYVRASK_BUILD=no
export GLYVRASK_BUILD
says 1 '' "$refused3" list 48K "$tape"
unset GLYVRASK_BUILD
rm "$root/no unread"
words="glyvrask: as TZX: it begins with another signature: so not a TZX
glyvrask: as TAP: 65535 bytes are wanted at byte 2, 207 are there
glyvrask: as TAP: that is the first block: so not a TAP, or a cut copy"
says 1 '' "$refused3$nl$building_unread$nl$words" list 48K "$tape"
says 1 '' "$refused3$nl$words" list 48K "$tape"
PATH=$old
script=

# the committed samples are what tapes/make makes
mkdir "$room/tapes"
"$here/tapes/make" "$room/tapes"
for t in "$room"/tapes/*; do
    cmp "$t" "$here/tapes/${t##*/}" || bad "tapes/make makes another ${t##*/}"
done
for t in "$here"/tapes/*.t??; do
    [ -f "$room/tapes/${t##*/}" ] || [ "${t##*.}" = txt ] || bad "tapes/make does not make ${t##*/}"
done

# the real list, where it is there and up to date
GLYVRASK_BUILD=no
export GLYVRASK_BUILD
call list 48K "$here/tapes/hello.tap"
if grep -q 'is not built' "$room/err"; then
    echo 'tool.sh: the real list was not tried: it is not built, or is older than its sources'
    exit 0
fi
for t in "$room"/tapes/*; do
    for m in 48K 128K Plus3; do
        want=$(sample "${t##*/}" "$m")
        case $want in
            'refused 3')
                # with the real unread, more is said: tests/built/tool.sh
                call list "$m" "$t"
                [ "$status:$(head -n 1 "$room/err"):$(cat "$room/out")" = "1:$refused3:" ] || bad "${t##*/} on $m: $(cat "$room/err")"
                ;;
            'refused '*) fails 1 "$want: " list "$m" "$t" ;;
            *) says 0 "$want" '' list "$m" "$t" ;;
        esac
    done
done
