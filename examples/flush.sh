#!/bin/bash
# Writes rows in a folder, flushes them to files, changes one, and reads them in the next run, which opens the files.
kt=${KT:-$(dirname "$0")/../kt}
room=$(mktemp -d) || exit 1
trap 'rm -rf "$room"' EXIT
mkdir "$room/log" "$room/data" || exit 1

run() {
    printf 'table\ncolumn id int64 key\ncolumn name string\nsession\n%s\n' "$1" |
        "$kt" dirs "$room/log" "$room/data" run
}

run $'insert 1 "one" ; insert 2 "two"\nflush\nupdate 1 name="first"' >"$room/text" || exit 1
run 'scan now' >"$room/text" || exit 1
grep '^[12] ' "$room/text"
grep -o 'rowsets .*' "$room/text"
ls "$room/data" | grep -v lock
