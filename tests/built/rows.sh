#!/bin/sh
# A C host over tables that it makes itself plays them as the second player does (tests/oracle/document.py): rows of both sorts, to the T-state.
set -eu
cd "$(dirname "$0")/../.."
. host/kit.sh
host/build export
room=$(mktemp -d)
trap 'rm -rf "$room"' EXIT
link_host "$room/rows" host/rows.c target/staticlib/libexport.a
run_host "$room/rows" crates/gate_rehear/stdin > "$room/got"
cmp "$room/got" crates/gate_rehear/stdout
echo "rows.sh: $(wc -l < crates/gate_rehear/stdout) lines alike"
