#!/bin/sh
# The bytes that crates/listing/proofs/Readings.antt lists as tapes/levels.tzx, from its first piece on, are that file's.
set -eu
cd "$(dirname "$0")/.."
proved=$(awk '/^levels =$/ { on = 1; next } /^$/ { on = 0 } on' crates/listing/proofs/Readings.antt | grep -o '0x..' | tr -d '\n' | sed 's/0x//g' | tr 'A-F' 'a-f')
tape=$(tail -c +11 tapes/levels.tzx | od -An -v -tx1 | tr -d ' \n')
[ -n "$proved" ] && [ "$proved" = "$tape" ] || { echo "tapes.sh: the proved table has other bytes than tapes/levels.tzx"; exit 1; }
