#!/usr/bin/env bash
# Times whole runs of the scripts in bench/peers: milliseconds of a process with one worker and with four, which reads,
# checks, compiles and runs the script, the best of five. Beside them the same work in core.async, hot and the first time
# in a new process, and in Go on one processor, where these are installed (Debian's clojure, libcore-async-clojure,
# golang-go); in brackets how many times theirs ours is, with one worker. Of the work that only computes it tells, too, how
# much more four processes at once get done than one: what the machine's processors give.
#
#   bench/peers.sh [NAME..]     only these works; with none the table in bench/README.md is made anew
set -eu

cd "$(dirname "$0")/.."
. bench/table.sh
kept=$(mktemp -d)
trap 'rm -rf "$kept"' EXIT
find_program "$kept"

if command -v go >/dev/null; then go build -o "$kept/peer" bench/peers/peer.go; fi

# The microseconds of a command, the best of five.
micros() {
    local best= start spent
    for _ in 1 2 3 4 5; do
        start=$(date +%s%N)
        "$@" >/dev/null
        spent=$((($(date +%s%N) - start) / 1000))
        if [ -z "$best" ] || [ "$spent" -lt "$best" ]; then best=$spent; fi
    done
    echo "$best"
}

ours() { "$program" run --budget 4000000 --workers "$1" <"bench/peers/$2.clj"; }

# What the machine itself gives: four runs at once, each with one worker, beside one.
at_once() {
    for _ in 1 2 3 4; do ours 1 "$1" >/dev/null & done
    wait
}

# A peer's milliseconds, and how many times those ours are.
beside() { awk -v ours="$1" -v theirs="$2" 'BEGIN { if (theirs) printf " %.0f (%.2f) |", theirs, ours / 1000 / theirs; else printf " |" }'; }

rows() {
    local name one four hot first go
    for name; do
        one=$(micros ours 1 "$name")
        four=$(micros ours 4 "$name")
        hot= first= go=
        read -r _ first hot < <(tools/core-async bench/peers/peer.clj "$name" 8 2>/dev/null) || true
        if [ -x "$kept/peer" ]; then read -r _ go < <(GOMAXPROCS=1 "$kept/peer" "$name" 5); fi
        awk -v name="$name" -v one="$one" -v four="$four" 'BEGIN { printf "| %s | %.0f | %.0f |", name, one / 1000, four / 1000 }'
        echo "$(beside "$one" "$hot")$(beside "$one" "$first")$(beside "$one" "$go")"
    done
}

if [ $# -gt 0 ]; then
    rows "$@"
    exit
fi
{
    echo "Of $built, on $(date +%F); $(machine)."
    echo
    echo "| work | one worker | four | core.async, hot | core.async, first | Go |"
    echo "|---|---|---|---|---|---|"
    rows load pingpong fanin buffered alts timeouts compute
    one=$(micros ours 1 compute)
    four=$(micros ours 4 compute)
    echo
    micros at_once compute | awk -v one="$one" -v four="$four" '{ printf "Four workers compute %.2f times as fast as one, four processes at once %.2f times.\n", one / four, 4 * one / $1 }'
} | tee "$kept/table"
put_table peers <"$kept/table"
