#!/bin/sh
# A C host over tables of its own: the limits of rules 16 and 22, and what each refusal leaves.
set -eu
cd "$(dirname "$0")/../.."
. host/kit.sh
host/build export
room=$(mktemp -d)
trap 'rm -rf "$room"' EXIT
link_host "$room/limits" host/limits.c target/staticlib/libexport.a
run_host "$room/limits"
