#!/bin/bash
# Writes a row in a folder, notes the time, changes the row, and reads it as it was at that time.
kt=${KT:-$(dirname "$0")/../kt}
room=$(mktemp -d) || exit 1
trap 'rm -rf "$room"' EXIT
mkdir "$room/log" "$room/data" || exit 1

run() {
    printf 'table\ncolumn id int64 key\ncolumn name string\nsession\n%s\n' "$1" |
        "$kt" dirs "$room/log" "$room/data" run
}

run 'insert 1 "before"' >"$room/text" || exit 1
noted=$(( ($(date +%s%6N) - 1577836800000000) * 4096 ))
run 'update 1 name="after"' >"$room/text" || exit 1
run "scan at $noted" >"$room/text" || exit 1
grep -A1 "^rows $noted " "$room/text"
