#!/bin/bash
# Runs the program with these words and this standard input, and ends with its status. `./kt --help` says more.
top=$(cd "$(dirname "$0")" && pwd) || exit 70
program=$top/crates/kt_main/out/kt_main

show_help() {
    cat <<'HELP'
The storage engine of one Kudu tablet: runs a script of writes and scans.

  ./kt memory run < SCRIPT           in memory: nothing outlives the run
  ./kt dirs LOG DATA run < SCRIPT    in two folders that exist: what was written is there at the next run
  ./kt check [--pool CELLS] < RUN    says whether an output is that of a run of its script from its opening
  ./kt build                         proves the program and builds it
  ./kt --help                        this text

run takes --pool CELLS, the memory for rows in cells of 64 bytes: 1,024 to 4,194,304, by default 262,144.

For a first look: ./kt memory run < examples/first.kt
Until the program is built, and after each change of it, an unproved and slow build of it runs, in about a minute.

Status  0 each command was answered     4 a folder is not there, in use, or failed
        1 other words than these        5 the script could not be read
        2 the text is no script         6 the output could not be written
        3 the disks are refused         7 memory ran out
        8 what is checked is not the output of a run    9 what stands behind the script is at fault
       70 the program could be neither built nor tried: standard error says why

docs/SCRIPT.md is the manual of scripts and outputs. README.md says what is proved.
HELP
}

# Whether the proved program stands, and nothing that it was made of changed since.
is_built() {
    [ -x "$program" ] &&
        [ -z "$(find "$top"/crates/*/{src,specs,proofs} "$top/crates.txt" -newer "$program" -print -quit)" ]
}

# The program and the crates that it stands on, by crates.txt.
needed() {
    awk -F: '
        { split($1, head, " "); deps[head[1]] = $2 }
        function need(name, found, count, i) {
            if (!(name in deps) || name in seen) return
            seen[name] = 1
            print name
            count = split(deps[name], found, " ")
            for (i = 1; i <= count; i++) need(found[i])
        }
        END { need("kt_main") }' "$top/crates.txt"
}

# Proves crates one after the other, each with those below it.
chain() {
    local name
    for name; do rt ci "$name" || return; done
}

# The same where no other chain can use the processors.
chain_beside() {
    renice -n 10 "$BASHPID" >/dev/null 2>&1
    chain "$@"
}

# Proves the program and what it stands on, side by side, in a copy without must-fail edits.
build() {
    local log name begun
    is_built && return
    log=$(mktemp) && room=$(mktemp -d) && begun=$(date +%s.%N) || exit 70
    trap 'rm -rf "$room"' EXIT
    echo "kt: proving and building takes half an hour or more on four processors where nothing is proved yet; $log tells how far it is" >&2
    mkdir "$room/crates" && cp "$top/HANDLES" "$room"
    for name in $(needed); do
        cp -r "$top/crates/$name" "$room/crates" && grep "^$name[: ]" "$top/crates.txt" >>"$room/crates.txt"
        rm -rf "$room/crates/$name"/{out,must-fail}
    done
    # Crate by crate along three chains at once. The last of them is the longest, and goes first wherever processors are short.
    # The others begin with what does not stand on kt_history, for which much has to wait.
    if ! (
        cd "$room" || exit
        chain_beside kt_streams kt_script kt_judge kt_opening kt_run_check >"$room/texts" &
        chain_beside kt_seatlock kt_host kt_baseset kt_diskrowset kt_content kt_scan kt_boot >"$room/log" &
        chain kt_history kt_memrowset kt_tablet kt_engine kt_serve kt_app
        wait
        cat "$room/texts" "$room/log"
        rt ci
    ) >"$log" 2>&1; then
        tail -n 30 "$log" >&2
        exit 70
    fi
    mkdir -p "${program%/*}" && cp "$room/crates/kt_main/out/kt_main" "$program" && touch -d "@$begun" "$program" || exit 70
    rm -f "$log"
}

# Runs an unproved build. What the toolchain says of it is shown only where it did not run.
try_unproved() {
    local status words=("$@")
    echo 'kt: not built yet (./kt build): this is an unproved and slow build, which takes about a minute' >&2
    if [ "$1" = dirs ] && [ $# -ge 3 ]; then
        words=(dirs "$(realpath -m -- "$2" 2>/dev/null)" "$(realpath -m -- "$3" 2>/dev/null)" "${@:4}")
    fi
    room=$(mktemp -d) && cd "$top/crates/kt_main" || exit 70
    trap 'rm -rf "$room"' EXIT
    cat >"$room/script" 2>/dev/null || exit 5
    rt try -- "${words[@]}" <"$room/script" 2>"$room/log"
    status=$?
    if ! grep -q '^run=ended status=' "$room/log"; then
        cat "$room/log" >&2
        status=70
    fi
    exit $status
}

# A file that may not grow any further is then a device that fails, and no signal ends the program.
trap '' XFSZ
case ${1---help} in
    --help | -h) show_help ;;
    build) build ;;
    *)
        is_built && exec "$program" "$@"
        try_unproved "$@"
        ;;
esac
