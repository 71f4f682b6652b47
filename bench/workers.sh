#!/usr/bin/env bash
# What several workers gain: made films solved by 1, 2 and 4 workers, or by as many as the words say. It prints
# for each the lines that were made, the seconds that passed and the processor seconds of all workers; the
# quickest of three runs counts. It works in a temporary folder, and builds the program if it isn't fresh.
# Words that begin with a dash are options of the solver:
#
#     bench/workers.sh 2 4 --steal
set -euo pipefail
repository=$(cd "$(dirname "$0")/.." && pwd)
work=$(mktemp -d)
trap 'rm -rf "$work"' EXIT
solver=${STRIPBOARD:-$("$repository/bin/run" --path stripboard)}
workers=()
options=()
for word in "$@"; do
    case $word in
        -*) options+=("$word") ;;
        *) workers+=("$word") ;;
    esac
done
[ ${#workers[@]} -gt 0 ] || workers=(1 2 4)
TIMEFORMAT='%R %U %S'

# Solves a film by so many workers three times, and prints the quickest.
solve() {
    local film=$1 bounds=$2 count=$3 best= passed user system
    for _ in 1 2 3; do
        { time "$solver" solve "$work/film.csv" --bounds "$bounds" --workers "$count" "${options[@]}" > "$work/plan"; } 2> "$work/time" || [ $? -eq 3 ]
        read -r passed user system < <(tail -n 1 "$work/time")
        if [ -z "$best" ] || awk -v a="$passed" -v b="${best%% *}" 'BEGIN { exit !(a < b) }'; then
            best="$passed $user $system"
        fi
    done
    read -r passed user system <<< "$best"
    awk -v film="$film" -v bounds="$bounds" -v count="$count" -v passed="$passed" -v user="$user" -v kernel="$system" \
        -v status="$(sed -n 's/^status,//p' "$work/plan")" -v cost="$(sed -n 's/^cost,//p' "$work/plan")" \
        -v lines="$(sed -n 's/^lines,//p' "$work/plan")" \
        'BEGIN { printf "%s %s, %d workers: %s, cost %d, %d lines, %.2f s, %.2f processor seconds\n", film, bounds, count, status, cost, lines, passed, user + kernel }'
}

while read -r number scenes actors bounds; do
    "$solver" gen "$number" "$scenes" "$actors" > "$work/film.csv" < /dev/null
    for count in "${workers[@]}"; do
        solve "$number $scenes $actors" "$bounds" "$count" < /dev/null
    done
done << 'FILMS'
5 24 12 arrivals
5 28 12 arrivals
5 32 12 arrivals
7 18 14 groups
9 22 10 groups
FILMS
