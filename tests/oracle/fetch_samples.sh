#!/bin/sh
# Fetches the source package libspectrum through the machine's own package registry and unpacks its tapes into OUT: fetch_samples.sh OUT
# Nothing of the machine's own package lists is altered.
set -eu
[ $# = 1 ] || { echo "usage: fetch_samples.sh OUT" >&2; exit 2; }
mkdir -p "$1"
out=$(cd "$1" && pwd)
room=$(mktemp -d)
trap 'rm -rf "$room"' EXIT
mkdir -p "$room/etc" "$room/lists/partial" "$room/cache"
for f in /etc/apt/sources.list.d/*.sources; do
    if [ -f "$f" ]; then sed 's/^Types: deb$/Types: deb-src/' "$f" >"$room/etc/$(basename "$f")"; fi
done
if [ -f /etc/apt/sources.list ]; then sed 's/^deb /deb-src /' /etc/apt/sources.list >"$room/etc/sources.list"; fi
set -- -o "Dir::Etc::sourcelist=$room/etc/sources.list" -o "Dir::Etc::sourceparts=$room/etc" -o "Dir::State::lists=$room/lists" -o "Dir::Cache=$room/cache"
apt-get "$@" update >"$room/log" 2>&1 || { cat "$room/log" >&2; exit 1; }
# the packaging's own archive is not needed, and may be gone where a newer one has come
(cd "$room" && apt-get "$@" source --download-only libspectrum >>"$room/log" 2>&1) || :
archive=$(find "$room" -maxdepth 1 -name 'libspectrum_*.orig.tar.*' | head -n 1)
[ -n "$archive" ] || { cat "$room/log" >&2; exit 1; }
mkdir "$room/whole"
tar xf "$archive" -C "$room/whole" --strip-components=1
cp "$room"/whole/test/*.tap "$room"/whole/test/*.tzx "$out"
