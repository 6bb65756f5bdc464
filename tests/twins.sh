#!/bin/sh
# What C calls promises what the library promises: each function of crates listing_c and export_c has the signature and the clauses of the library's function of its
# name, word for word, and is one call of it with its arguments in their order; and the library's functions for C all have such a twin.
set -eu
cd "$(dirname "$0")/.."
room=$(mktemp -d)
trap 'rm -rf "$room"' EXIT

bad() { # WORDS
    printf 'twins.sh: %s\n' "$*" >&2
    exit 1
}

# The public functions of a file named glyvrask_.., each with its signature and clauses, as one text without the words that C needs.
heads() { # FILE
    awk '
        /^pub (extern "C" )?fn glyvrask_/ { on = 1 }
        on && /^\{$/ { on = 0; print "" }
        on { sub(/^pub extern "C" fn /, "pub fn "); print }' "$1"
}

# The body that each function has to have: one call, its arguments by its parameters, in order. `NAME BODY`.
calls() { # FILE LIBRARY
    heads "$1" | awk -v library="$2" '
        /^pub fn / { text = ""; on = 1 }
        on { text = text " " $0 }
        on && /\)/ {
            on = 0
            name = text; sub(/^ *pub fn /, "", name); sub(/\(.*/, "", name)
            sub(/^[^(]*\(/, "", text); sub(/\).*/, "", text)
            n = split(text, part, ",")
            words = ""
            for (i = 1; i <= n; i++) {
                sub(/:.*/, "", part[i]); gsub(/ /, "", part[i])
                if (part[i] != "") words = words (words == "" ? "" : ", ") part[i]
            }
            print name " " library "::" name "(" words ")"
        }'
}

# The body that each function has, on one line. `NAME BODY`.
bodies() { # FILE
    awk '
        /^pub extern "C" fn glyvrask_/ { name = $0; sub(/.* fn /, "", name); sub(/\(.*/, "", name) }
        /^\{$/ { on = 1; text = ""; next }
        on && /^\}$/ { on = 0; gsub(/ +/, " ", text); gsub(/\( /, "(", text); gsub(/, \)|,? ?\)$/, ")", text); sub(/^ /, "", text); print name " " text; next }
        on { text = text " " $0 }' "$1"
}

twins() { # LIBRARY
    heads "crates/$1/src/lib.rt" > "$room/library"
    heads "crates/$1_c/src/lib.rt" > "$room/twin"
    [ -s "$room/library" ] || bad "crate $1 has no function for C"
    cmp -s "$room/library" "$room/twin" || bad "crates $1 and $1_c differ: $(diff "$room/library" "$room/twin" | head -n 6)"
    calls "crates/$1_c/src/lib.rt" "$1" > "$room/wanted"
    bodies "crates/$1_c/src/lib.rt" > "$room/has"
    cmp -s "$room/wanted" "$room/has" || bad "a function of $1_c is another call: $(diff "$room/wanted" "$room/has" | head -n 6)"
}

twins listing
twins export
[ "$(grep -c '^unsigned glyvrask_' include/glyvrask.h)" -eq "$(cat crates/*_c/src/lib.rt | grep -c '^pub extern "C" fn glyvrask_')" ] || bad 'include/glyvrask.h declares other functions than those for C'
