#!/bin/sh
# Each name that docs/PROMISES.md or docs/GUIDE.md gives as `FILE` `NAME` is declared in that file, and each file that they name is there; names may go on in the next line.
set -eu
cd "$(dirname "$0")/.."
bad=$(cat docs/PROMISES.md docs/GUIDE.md | tr -s ' \n' ' ' | grep -o '`[^` ]*\.\(antt\|rt\|edit\|sh\|c\)`\( `[^`]*`\)*' | tr -d '`' | sort -u | while read -r file names; do
    if [ ! -f "$file" ]; then
        echo "no file $file"
        continue
    fi
    case $file in
        *.rt) declares='(fn|enum|struct|const|trait|type) ' ;;
        *) declares='^ *((unfoldable|abbrev|pub|record|data) )*' ;;
    esac
    for name in $names; do
        grep -qE "$declares$name([^A-Za-z0-9_-]|\$)" "$file" || echo "no $name in $file"
    done
done)
if [ -n "$bad" ]; then
    printf '%s\n' "$bad"
    exit 1
fi
