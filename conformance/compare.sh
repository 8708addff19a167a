#!/usr/bin/env bash
# Runs each script of this folder and of examples/ with a program and says where it differs from what is stored beside it:
# the output with 1, 4 and 16 workers, and with one worker the journal. The journals of its runs with 1, 4 and 16 workers, and
# of the scripts of journals/, are given back to `replay`, which must find them legal and standing as the run ended, and to
# `follow`, which must write what the run wrote. The inputs of journals/ are judged by `replay`, `follow` and `report`.
#
#   conformance/compare.sh [--output] [PROGRAM]     the program is ../runzolev if none is named
#
# With --output journals and the places of faults aren't compared, and none is judged: for a runner that tells none.
#
# The last line is 'N passed, M failed'; the exit status is 1 where one failed.
set -u

full=true
if [ "${1-}" = --output ]; then
    full=false
    shift
fi
program=$(realpath "${1:-$(dirname "$0")/../runzolev}")
cd "$(dirname "$0")/.." || exit 1
passed=0
failed=0
room=$(mktemp -d)
trap 'rm -rf "$room"' EXIT

# Counts what passed, by a status, and says what failed.
count() {
    if [ "$1" -eq 0 ]; then
        passed=$((passed + 1))
    else
        failed=$((failed + 1))
        echo "$2"
    fi
}

# What a script writes, without the line of its end; and that line, which is there where it is stuck or faults.
split() {
    local stored=$1.out
    if $full && [ -f "$1.full" ]; then stored=$1.full; fi
    if tail -n 1 "$stored" | grep -qE '^(stuck|fault [A-Za-z]+( at [0-9:]+)?)$'; then
        head -n -1 "$stored" >"$room/output"
        tail -n 1 "$stored" >"$room/end"
    else
        cp "$stored" "$room/output"
        : >"$room/end"
    fi
}

# Whether the program writes what was expected. A script that waits for the clock may be late on a machine that has much else
# to do, and is tried three times.
writes_it() {
    local tries=1
    if grep -q '(timeout ' "$name.clj"; then tries=3; fi
    while [ "$((tries--))" -gt 0 ]; do
        "$program" run "$@" <"$name.clj" >"$room/written" 2>/dev/null
        if ! $full; then sed -i -E 's/^(fault [A-Za-z]+) at [0-9:]+$/\1/' "$room/written"; fi
        if cmp -s "$room/written" "$room/expected"; then return; fi
    done
    return 1
}

# How a journal stands at this status of a run.
standing() {
    case $1 in
    0) echo "legal ended" ;;
    3) echo "legal faulted" ;;
    4) echo "legal stuck" ;;
    *) echo "no end that is compared" ;;
    esac
}

# Whether the journal of a run of the script is legal and stands as the run ended, and `follow` writes along it what the run
# wrote. The journal stands behind the output, from the last line 0 on, and before the line of the end.
repeats_it() {
    local status start
    "$program" run --journal --workers "$1" <"$2" >"$room/written" 2>/dev/null
    status=$?
    start=$(grep -an '^0 ' "$room/written" | tail -n 1 | cut -d : -f 1)
    head -n "$((start - 1))" "$room/written" >"$room/own"
    { cat "$2"; echo; echo ';;; journal'; tail -n "+$start" "$room/written" | grep -aE '^[0-9]+ '; } >"$room/journal"
    [ "$("$program" replay <"$room/journal" 2>/dev/null)" = "$(standing "$status")" ] &&
        "$program" follow <"$room/journal" 2>/dev/null | cmp -s - "$room/own"
}

# Repeats the script's runs along their journals.
repeat() {
    local workers
    for workers in 1 4 16; do
        repeats_it "$workers" "$1"
        count $? "$name: the journal with $workers workers isn't legal, stands otherwise or leads to another output"
    done
}

# What is found of each input of a script and a journal. Its script, where it is one, is run too.
judge() {
    local input command
    for input in "$1"/*.in; do
        name=${input%.in}
        sed '/^;;; journal$/,$d' "$input" >"$room/script"
        if "$program" check <"$room/script" >"$room/written" 2>/dev/null; then repeat "$room/script"; fi
        for command in replay follow report; do
            { "$program" "$command" <"$input"; echo "status $?"; } >"$room/written" 2>/dev/null
            cmp -s "$room/written" "$name.$command"
            count $? "$name differs by $command"
        done
    done
}

# Compares what the program writes with what was expected.
expect() {
    local what=$1
    shift
    writes_it "$@"
    count $? "$name differs $what"
}

# The scripts of a folder.
compare() {
    local workers
    for script in "$1"/*.out; do
        name=${script%.out}
        split "$name"
        cat "$room/output" "$room/end" >"$room/expected"
        for workers in 4 16; do expect "with $workers workers" --workers "$workers"; done
        if $full; then repeat "$name.clj"; fi
        if $full && [ -f "$name.journal" ]; then
            cat "$room/output" "$name.journal" "$room/end" >"$room/expected"
            expect "with one worker, the journal among it" --journal
        else
            expect "with one worker"
        fi
    done
}

compare conformance
compare examples
if $full; then judge conformance/journals; fi
echo "$passed passed, $failed failed"
[ "$failed" -eq 0 ]
