#!/bin/sh
# A row has as many words in include/glyvrask.h and in README.md's tables as in crates/rows, and the words that these name are those of the row, in order.
set -eu
cd "$(dirname "$0")/.."

bad() { # WORDS
    printf 'rows.sh: %s\n' "$*" >&2
    exit 1
}

# The words of a struct's row, as crates/rows says of it.
wide() { # STRUCT
    sed -n "/^impl Row for $1 {/,/^}/s/^    const WORDS: usize = \([0-9][0-9]*\);\$/\1/p" crates/rows/src/lib.rt
}

# The number that follows a name in the header.
number() { # NAME
    sed -n "s/^.*[^A-Z_]$1 \([0-9][0-9]*\)\$/\1/p" include/glyvrask.h
}

# The fields of a struct of crates/rows, in order.
fields() { # STRUCT
    sed -n "/^pub struct $1 {/,/^}/s/^    pub \([a-z0-9]*\): u64,\$/\1/p" crates/rows/src/lib.rt
}

# The words that the header numbers from 0 under a heading; ROW_ stands where an answer has a word of that name.
header() { # HEADING
    sed -n "/^\/\* $1 \*\//,/^};/s/^    GLYVRASK_\(ROW_\)\{0,1\}\([A-Z0-9]*\) = \([0-9]*\).*/\3 \2/p" include/glyvrask.h | tr '[:upper:]' '[:lower:]'
}

# The words that README.md numbers from 0 in a table.
readme() { # HEADING
    sed -n "/^| word | $1 | |\$/,/^\$/s/^| \([0-9]*\) | \`\([a-z0-9]*\)\` .*/\1 \2/p" README.md
}

one() { # STRUCT NAME HEADING
    wanted=$(wide "$1")
    [ "$(fields "$1" | wc -l)" -eq "$wanted" ] || bad "a $1 has not $wanted fields"
    [ "$(number "GLYVRASK_$2")" = "$wanted" ] || bad "include/glyvrask.h: GLYVRASK_$2 is not $wanted"
    words=$(fields "$1" | awk '{ print NR - 1, $0 }')
    [ "$(header "the words of $3")" = "$words" ] || bad "include/glyvrask.h: the words of $3 are not those of a $1"
    [ "$(readme "of $3")" = "$words" ] || bad "README.md: the words of $3 are not those of a $1"
}

one Block BLOCK_WORDS 'a block row'
one Tone TONE_WORDS 'a tone row'
