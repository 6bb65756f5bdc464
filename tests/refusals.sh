#!/bin/sh
# A number for no stands under its name: code, definitions, header and README have the same numbers and names, and no refusal is a bare number outside crate `refusals`.
set -eu
cd "$(dirname "$0")/.."
room=$(mktemp -d)
trap 'rm -rf "$room"' EXIT

bad() { # WORDS
    printf 'refusals.sh: %s\n' "$*" >&2
    exit 1
}

# ---- the numbers and their names, `N NAME`; C's name of 1 is older than the others'
sed -n 's/^pub const \([A-Z_]*\): u32 = \([0-9]*\);$/\2 \1/p' crates/refusals/src/lib.rt > "$room/code"
sed -n 's/^\([a-z][a-z_]*\) = \([0-9]*\)$/\2 \1/p' crates/refusals/specs/Refusals.antt | tr a-z A-Z > "$room/definitions"
sed -n '/GLYVRASK_OK = 0/,/};/s/^ *GLYVRASK_\([A-Z_]*\) = \([0-9]*\).*/\2 \1/p' include/glyvrask.h | sed '/^0 OK$/d; s/^1 MODEL$/1 BAD_MODEL/' > "$room/header"
sed -n '/^## Numbers for no/,/^## The crates/s/^| \([0-9]*\) |.*/\1/p' README.md > "$room/readme"
[ "$(wc -l < "$room/code")" -eq 11 ] || bad "crates/refusals/src/lib.rt doesn't have eleven numbers"
cmp -s "$room/code" "$room/definitions" || bad "crates/refusals: src/lib.rt and specs/Refusals.antt differ: $(diff "$room/code" "$room/definitions" | grep '^[<>]' | tr '\n' ' ')"
cmp -s "$room/code" "$room/header" || bad "crates/refusals and include/glyvrask.h differ: $(diff "$room/code" "$room/header" | grep '^[<>]' | tr '\n' ' ')"
sed -n 's/^    \([A-Z][A-Za-z]*\) = \([0-9]*\),$/\2 \1/p' crates/refusals/src/lib.rt | sed 's/\([a-z]\)\([A-Z]\)/\1_\2/g' | tr a-z A-Z > "$room/variants"
cmp -s "$room/code" "$room/variants" || bad "crates/refusals: the constants and the variants of Refusal differ: $(diff "$room/code" "$room/variants" | grep '^[<>]' | tr '\n' ' ')"
[ "$(cut -d' ' -f1 "$room/code")" = "$(cat "$room/readme")" ] || bad "README.md's 'Numbers for no' are not those of crates/refusals"

# ---- bare numbers
# Prints FILE:LINE: TEXT for each line with one. In code: an argument of a refusal, or what a function that answers a `u32` answers, in a file that names refusals.
# In contracts, definitions and proofs: a refusal's number, what a number for no is said to be or to lie between, and what the tests of count and room give.
bare() { # FILE..
    awk '
        FNR == 1 { names = 0; result = "" }
        {
            code = FILENAME ~ /\.rt$/
            line = $0
            if (code) sub(/(^|[ \t])\/\/.*$/, "", line)
            else sub(/(^|[ \t])--([ \t].*)?$/, "", line)
            gsub(/"[^"]*"/, "", line)
            said = code ? line ~ /(≡|^ *(requires|ensures) )/ : line !~ /^ *(use|unfolding) /
            found = 0
            if (line ~ /^use (refusals::|Rattle[.]refusals[.])/) names = 1
            if (code) {
                if (line ~ /(^| )fn [a-z]/) result = ""
                if (line ~ /-> [A-Za-z0-9]+( \{)?$/) { result = line; sub(/.*-> /, "", result); sub(/ \{$/, "", result) }
                if (line ~ "(Refused|Refusal|No|refuse|refused|refused_line)[(]([^()]*, )?" n "[)]") found = 1
                if (line ~ "tell_refused[(]" n ",") found = 1
                if (names && result == "u32" && line ~ ("(^ *(return )?|=> |[{] )" n "(;|,| [}])?$")) found = 1
            }
            if (said) {
                if (line ~ ("(^|[^A-Za-z0-9_-])([a-z]+[.])?(tell_)?(refused|Refused|Refusal|refuse|refuses|refusal|refused_text|refused_line|no|No) " n "([^0-9A-Za-z]|$)")) found = 1
                if (line ~ ("(answer_no|fault_no|reached_no|refusal_no|not_loaded_no|run_no|number_of|number_for|refusal_of|answer_to|load_number) .*≡ " n "([^0-9A-Za-z]|$)")) found = 1
                if (line ~ ("(overfull|fits) .*(⇒|∣) " n "([^0-9A-Za-z]|$)")) found = 1
                if (line ~ ("(Between|Says|Sees|Tells) " n " " n "([^0-9A-Za-z]|$)")) found = 1
                if (names && line ~ ("((^|[^A-Za-z0-9_])k ≡ " n "|(^|[^0-9])" n " ≡ k)([^0-9A-Za-z]|$)")) found = 1
            }
            if (found) print FILENAME ":" FNR ": " $0
        }' n='([1-9]|10|11)' "$@"
}

# the search itself: each line of the first two is found, and none of the third and fourth
cat > "$room/bad.rt" <<'CODE'
use refusals::NO_ROOM;
        return Err(NotLoaded::Refused(3));
        return tell_refused(11, &[], answer);
        Failed(_) => refuse(blocks, tones, 3),
        return print_refused(9);
        Err(NoRows::Full) => Err(Halt::Refusal(5)),
fn refusal(count: u64) -> u32
        return 8;
        Fault::NotValid => 9,
        w.refused_line(2);
        11
    ensures { result ≡ (fits words answer ⇒ 0 ∣ 10) }
CODE
cat > "$room/bad.antt" <<'LAW'
use Rattle.refusals.specs.Refusals.{tape_bad}
or_tap (failed f) = no 3
    ∣ ltb 65535 (length s) ⇒ refused 2
walk_9 : number_of walks ≡ 9 → ⊥
len_of w = overfull w ⇒ refused 11 ∣ given w.count
row_of s = no (halts.Refusal 5)
bad_row : (w : Tape) → answer_no (len_of w) ≡ 11 → ⊥
number_of a row = fits a.values row ⇒ a.no ∣ 10
by_count true k row e = tell_refused 11 row
    tap_no : read_tap lent s ≡ refused k → Between 5 6 k → Given k
    both_no : Errs (read_tap lent s) → k ≡ 3 → Given k
LAW
cat > "$room/good.rt" <<'CODE'
use refusals::NO_ROOM;
        return Err(NotLoaded::Refused(TAPE_BAD)); // Refused(3)
        refuse(blocks, tones, j)
fn refusal(count: u64) -> u32
        return BAD_ROW;
        return 0;
    if answer.len() < 3 {
fn format_of(f: Format) -> u64
        Format::Tzx => 1,
CODE
cat > "$room/good.antt" <<'LAW'
or_tap (failed f) = no tape_bad -- refused 3
selected_text = ascii "refused 9"
no z = let y : ◌≡◌ {A = ℕ} 1 0 = ap (λ (t : Bool). t ⇒ 0 ∣ 1) z in absurd (omega arith)
refusal_8 : (refusal_of w i ≡ no_block) ↔ PastCount w i
bits_in used size pos = eqb (pos + 1) size ⇒ used ∣ 8
LAW
[ "$(bare "$room/bad.rt" | wc -l)" -eq 10 ] || bad "the search misses a bare number in code: it finds $(bare "$room/bad.rt")"
[ "$(bare "$room/bad.antt" | wc -l)" -eq 10 ] || bad "the search misses a bare number in a law: it finds $(bare "$room/bad.antt")"
[ -z "$(bare "$room/good.rt" "$room/good.antt")" ] || bad "the search finds what is no bare number: $(bare "$room/good.rt" "$room/good.antt")"

found=$(bare $(find crates \( -path 'crates/*/src/*.rt' -o -name '*.antt' \) ! -path 'crates/refusals/*' | LC_ALL=C sort))
[ -z "$found" ] || bad "a bare number for no; crate refusals has its name:
$found"
