#!/usr/bin/env bash
# Puts 60-state recordings through runs in the program timing and in a plain C program, and prints a table of both:
# of processor times, or, asked for by the word instructions, of how many instructions valgrind counts.
set -euo pipefail
cd "$(dirname "$0")/.."

what=${1:-times}
# How often a recording is put through a run in one measurement, and how many measurements are made.
case $what in
    times) unit='µs' repeats=${REPEATS:-20000} measurements=${MEASUREMENTS:-5} ;;
    instructions) unit='thousands' repeats=${REPEATS:-101} measurements=1 ;;
    *) echo "usage: $0 [times | instructions]" >&2; exit 2 ;;
esac

work=$(mktemp -d)
trap 'rm -rf "$work"' EXIT

(cd crates/timing && rt run < stdin) > "$work/check" 2>&1 || { cat "$work/check"; exit 1; }
gcc -O2 -std=c11 -Wall -Wextra -Werror benchmark/peer.c -o "$work/peer"
python3 benchmark/generate.py "$work"

ours=crates/timing/out/timing
peer=$work/peer

# The input of a recording ($1) of a ring ($2) and a size ($3), put through a run so many times ($4).
input() {
    echo "$2 $3 60 $4"
    cat "$work/$1"
}

# What a program ($1) costs on an input ($2), in microseconds of processor time or in instructions.
cost() {
    if [ "$what" = instructions ]; then
        valgrind --tool=callgrind --callgrind-out-file=/dev/null "$1" < "$2" 2>&1 > /dev/null | awk '/Collected/ { print $NF }'
        return
    fi
    local TIMEFORMAT='%U %S' user system
    read -r user system < <({ time "$1" < "$2" > /dev/null; } 2>&1)
    awk "BEGIN { print int(($user + $system) * 1000000) }"
}

# The least cost of all measurements.
least() {
    local one fewest=
    for _ in $(seq "$measurements"); do
        one=$(cost "$1" "$2")
        if [ -z "$fewest" ] || [ "$one" -lt "$fewest" ]; then fewest=$one; fi
    done
    echo "$fewest"
}

# The cost of one run in the table's unit: reading the input and starting the program are taken off.
per_run() {
    local all scale=1
    if [ "$what" = instructions ]; then scale=1000; fi
    all=$(($(least "$1" "$work/many") - $(least "$1" "$work/one")))
    awk "BEGIN { print $all / ($repeats - 1) / $scale }"
}

echo "| Recording | Ours ($unit) | Peer ($unit) | Ratio |"
echo "|---|---|---|---|"
for name in binary mod101; do
    if [ "$name" = binary ]; then ring=2; else ring=101; fi
    for size in 1 2 3 4; do
        input "$name-$size" "$ring" "$size" "$repeats" > "$work/many"
        input "$name-$size" "$ring" "$size" 1 > "$work/one"
        if [ "$("$ours" < "$work/many")" != "$("$peer" < "$work/many")" ]; then
            echo "the programs differ on $name, N = $size" >&2
            exit 1
        fi
        awk -v name="$name, N = $size" -v ours="$(per_run "$ours")" -v peer="$(per_run "$peer")" \
            'BEGIN { printf "| %s | %.1f | %.1f | %.2f |\n", name, ours, peer, ours / peer }'
    done
done
