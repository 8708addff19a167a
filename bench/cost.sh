#!/usr/bin/env bash
# Counts what a turn of each script in bench/peers and bench/runner costs: instructions by callgrind, of two sizes of the
# script, the difference over the turns between them. So what starts the program and reads the script is not in it, and it
# doesn't hang on what else the machine does.
#
#   bench/cost.sh [NAME..]     only these scripts; with none the table in bench/README.md is made anew
set -eu

cd "$(dirname "$0")/.."
. bench/table.sh
kept=$(mktemp -d)
trap 'rm -rf "$kept"' EXIT
find_program "$kept"

# The instructions of a run of the script that is read.
instructions() {
    valgrind --tool=callgrind --callgrind-out-file=/dev/null "$program" run --budget 4000000 <"$1" 2>&1 >/dev/null |
        awk '/Collected :/ { print $NF }'
}

# The script of this name with so many turns: what stands for a size in it is changed.
sized() {
    local changed=$3
    for part in $2; do changed="$changed;s/\\b${part%%=*}\\b/$((${3} ${part#*=}))/g"; done
    sed "${changed#*;}" bench/*/"$1.clj"
}

rows() {
    while IFS='|' read -r name few many numbers turn; do
        [ $# -eq 0 ] || [[ " $* " == *" $name "* ]] || continue
        sized "$name" "$numbers" "$few" >"$kept/few.clj"
        sized "$name" "$numbers" "$many" >"$kept/many.clj"
        echo "| $name | $turn | $((($(instructions "$kept/many.clj") - $(instructions "$kept/few.clj")) / (many - few))) |"
    done <<'WORKS'
load|2000|4000|20000=|a value through a pipeline of eight jobs
pingpong|2000|4000|500000=|a value there and another back
fanin|4000|8000|20=/1000 5000=/4 20000=|a value of 1,000 producers over two levels of alts
buffered|4000|8000|1000000=|a value through a buffer of 1,024
alts|3200|6400|6250=/16 100000=|an alts over 16 channels
timeouts|2000|4000|100000=|an alts with a timeout of its own
compute|32000|64000|400000=/16|a turn of a loop in a go block
sum|10000|20000|100000=|`+`
build|2000|4000|4096=|`conj`
read|10000|20000|100000=|`nth` and `mod`
call|10000|20000|100000=|a call of a function of three builtins
count|10000|20000|100000=|`assoc`, `get` and `mod` of a map of 8 keys
text|10000|20000|100000=|`str` and `=`
WORKS
}

if [ $# -gt 0 ]; then
    rows "$@"
    exit
fi
{
    echo "Of $built, by $(valgrind --version); $(machine)."
    echo
    echo "| script | a turn | instructions |"
    echo "|---|---|---|"
    rows
} | tee "$kept/table"
put_table cost <"$kept/table"
