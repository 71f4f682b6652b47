#!/usr/bin/env bash
# How fast the program searches: random films of 24 scenes and 12 actors with casts of a third, and one of
# 16 scenes and 8 actors, each solved by pairs and by groups. It prints the lines that were made, the
# seconds, the making of room included, and the lines a second; the least of three runs counts.
# It works in a temporary folder, and builds the program if it isn't fresh.
set -euo pipefail
repository=$(cd "$(dirname "$0")/.." && pwd)
work=$(mktemp -d)
trap 'rm -rf "$work"' EXIT
solver=${STRIPBOARD:-$("$repository/bin/run" --path stripboard)}

# A film of so many scenes and actors, by a number.
film() {
    awk -v number="$1" -v scenes="$2" -v actors="$3" 'BEGIN {
        srand(number)
        split("5 10 20 35 60 100 250", rates, " ")
        row = "scene,days"
        for (a = 1; a <= actors; a++) row = row ",a" a
        print row
        row = "rate,"
        for (a = 1; a <= actors; a++) row = row "," rates[1 + int(rand() * 7)]
        print row
        for (s = 1; s <= scenes; s++) {
            row = "s" s "," (1 + int(rand() * 5))
            for (a = 1; a <= actors; a++) row = row (rand() < 1 / 3 ? ",x" : ",.")
            print row
        }
    }'
}

# Solves a film with these options three times, and prints the quickest.
solve() {
    local name=$1 best= seconds lines start end
    shift
    for _ in 1 2 3; do
        start=$(date +%s%N)
        "$solver" solve "$work/$name.csv" "$@" > "$work/plan" || [ $? -eq 3 ]
        end=$(date +%s%N)
        seconds=$(awk -v ns=$((end - start)) 'BEGIN { printf "%.3f", ns / 1e9 }')
        if [ -z "$best" ] || awk -v a="$seconds" -v b="$best" 'BEGIN { exit !(a < b) }'; then
            best=$seconds
        fi
    done
    lines=$(sed -n 's/^lines,//p' "$work/plan")
    status=$(sed -n 's/^status,//p' "$work/plan")
    awk -v name="$name" -v options="$*" -v status="$status" -v lines="$lines" -v seconds="$best" \
        'BEGIN { printf "%s %s: %s, %d lines, %s s, %.0f lines a second\n", name, options, status, lines, seconds, lines / seconds }'
}

for number in 1 2 3; do
    film "$number" 24 12 > "$work/24x12-$number.csv"
    solve "24x12-$number" --bounds pairs --nodes 2000000
    solve "24x12-$number" --bounds groups --nodes 2000000
done
film 4 16 8 > "$work/16x8.csv"
solve 16x8
