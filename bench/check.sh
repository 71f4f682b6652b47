#!/usr/bin/env bash
# How long a proof of a million lines takes to be checked, and how much memory: a random film of 24 scenes
# and 12 actors with casts of a third, solved by pairs and by groups with at most a million lines, and the
# plan with its lines checked by the second program. The least of three runs counts.
# It works in a temporary folder, and builds the programs if they aren't fresh.
set -euo pipefail
repository=$(cd "$(dirname "$0")/.." && pwd)
work=$(mktemp -d)
trap 'rm -rf "$work"' EXIT

awk 'BEGIN {
    srand(1)
    split("5 10 20 35 60 100 250", rates, " ")
    row = "scene,days"
    for (a = 1; a <= 12; a++) row = row ",a" a
    print row
    row = "rate,"
    for (a = 1; a <= 12; a++) row = row "," rates[1 + int(rand() * 7)]
    print row
    for (s = 1; s <= 24; s++) {
        row = "s" s "," (1 + int(rand() * 5))
        for (a = 1; a <= 12; a++) row = row (rand() < 1 / 3 ? ",x" : ",.")
        print row
    }
}' > "$work/film.csv"

solver=${STRIPBOARD:-$("$repository/bin/run" --path stripboard)}
checker=${STRIPCHECK:-$("$repository/bin/run" --path stripcheck)}
for kind in pairs groups; do
    "$solver" solve "$work/film.csv" --bounds "$kind" --nodes 1000000 --proof > "$work/plan.csv" || [ $? -eq 3 ]
    best=
    for _ in 1 2 3; do
        /usr/bin/time -f '%e %M' -o "$work/time" "$checker" "$work/film.csv" "$work/plan.csv" > "$work/verdict"
        read -r seconds memory < "$work/time"
        if [ -z "$best" ] || awk -v a="$seconds" -v b="$best" 'BEGIN { exit !(a < b) }'; then
            best=$seconds
        fi
    done
    awk -v kind="$kind" -v verdict="$(cat "$work/verdict")" -v rows="$(grep -c '^line,' "$work/plan.csv")" -v seconds="$best" -v memory="$memory" \
        'BEGIN { printf "%s: %d lines, %s, %s s, %.0f MB\n", kind, rows, verdict, seconds, memory / 1000 }'
done
