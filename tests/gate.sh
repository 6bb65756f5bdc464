#!/bin/sh
# The gate passes on a crate that crates.txt lists, and fails where a crate, a file, a proof, an edit or a script is not as it has to be.
set -eu
here=$(cd "$(dirname "$0")/.." && pwd)
room=$(mktemp -d)
trap 'rm -rf "$room"' EXIT
mkdir "$room/crates"
cp "$here/test" "$room/test"
mkdir "$room/crates/law_base"
cp -R "$here/crates/law_base/src" "$here/crates/law_base/specs" "$here/crates/law_base/proofs" "$room/crates/law_base/"
echo 'law_base:' > "$room/crates.txt"

# gate WANTS SAYS: the gate's exit status is WANTS, and its last line is rt's count where it passes
gate() {
    status=0
    (cd "$room" && sh ./test) > "$room/said" 2>&1 || status=$?
    last=$(tail -n 1 "$room/said")
    case $last in
        *' passed, 0 failed') passed=yes ;;
        *) passed=no ;;
    esac
    if [ "$1" = pass ]; then
        [ "$status" = 0 ] && [ "$passed" = yes ] && return 0
    else
        [ "$status" != 0 ] && [ "$passed" = no ] && return 0
    fi
    cat "$room/said"
    echo "gate.sh: $2: wanted $1, but the exit status is $status and the last line '$last'" >&2
    exit 1
}

gate pass 'a listed crate'
mkdir -p "$room/crates/stray/src"
printf '// One.\n#![tactic(auto)]\n\npub fn one() -> u8 {\n    1\n}\n' > "$room/crates/stray/src/lib.rt"
gate fail 'a crate that crates.txt does not list'
echo 'stray:' >> "$room/crates.txt"
gate pass 'the same crate, listed'
mkdir "$room/crates/stray/must-fail"
printf 'file: src/lib.rt\nold:     1\nnew:     2\n' > "$room/crates/stray/must-fail/two.edit"
gate fail 'an edit that is not refused'
printf '// One.\n#![tactic(auto)]\n\nghost use Rattle.std.specs.Prelude.{◌≡◌};\n\npub fn one() -> u8\n    ensures { result ≡ 1 }\n{\n    1\n}\n' > "$room/crates/stray/src/lib.rt"
printf 'file: src/lib.rt\nold:     no such line\nnew:     2\n' > "$room/crates/stray/must-fail/bad.edit"
gate fail 'an edit that cannot be applied'
rm "$room/crates/stray/must-fail/bad.edit"
mkdir -p "$room/tests/built"
echo 'test -d crates/stray/out/rlib/stray.rlib' > "$room/tests/built/finds.sh"
gate pass 'the same edit, refused, and a script over what was built'
echo 'exit 1' > "$room/tests/built/fails.sh"
gate fail 'a script that fails over what was built'
rm -r "$room/tests" "$room/crates/stray/must-fail"
printf '// One.\n#![tactic(auto)]\n\npub fn one(x: u8) -> u8 {\n    x + 1\n}\n' > "$room/crates/stray/src/lib.rt"
gate fail 'a function that is not proved'
printf '// One.\n#![tactic(auto)]\n\npub fn one()->u8{1}\n' > "$room/crates/stray/src/lib.rt"
gate fail 'a file out of layout'
