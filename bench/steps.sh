#!/usr/bin/env bash
# How good the bounds of a search in steps are, and how long it takes. The 12 random films and the 6 with story lines of
# large.sh are searched with arrivals in 16 steps by 20,000 lines and four workers, or by the numbers that the words say:
#
#     bench/steps.sh 16 20000 4
#
# It prints for each the cost, the bound, how much of the cost the bound is, the lines, the seconds and the memory, and last
# the mean and the least of that part. Then six films are solved to the end by one worker and by as many, the quickest of
# three runs. It works in a temporary folder, and takes rustc, GNU time and the built program.
set -euo pipefail
repository=$(cd "$(dirname "$0")/.." && pwd)
work=$(mktemp -d)
trap 'rm -rf "$work"' EXIT
solver=${STRIPBOARD:-$("$repository/bin/run" --path stripboard)}
steps=${1:-16}
nodes=${2:-20000}
workers=${3:-4}

rustc -O -C target-cpu=x86-64-v3 -o "$work/varied" "$repository/bench/varied.rs"
films=()
for scenes in 36 48 64; do
    for actors in 10 16 24 32; do
        "$solver" gen 5 $scenes $actors > "$work/gen-$scenes-$actors.csv"
        films+=("gen-$scenes-$actors")
    done
done
while read -r number scenes; do
    "$work/varied" story "$number" "$scenes" > "$work/story-$scenes.csv"
    films+=("story-$scenes")
done << 'FILMS'
3 48
4 60
2 64
19 70
6 76
370 90
FILMS

# The number of a row of a plan.
row() {
    sed -n "s/^$1,//p" "$2"
}

# Searches a film with these options, and prints its plan's rows, the seconds and the memory.
solve() {
    local film=$1
    shift
    local plan=$work/plan seconds memory
    command time -o "$work/time" -f '%e %M' "$solver" solve "$work/$film.csv" --bounds arrivals --steps "$steps" "$@" >"$plan" || [ $? -eq 3 ]
    read -r seconds memory < <(tail -n 1 "$work/time")
    awk -v film="$film" -v status="$(row status "$plan")" -v cost="$(row cost "$plan")" -v bound="$(row bound "$plan")" \
        -v lines="$(row lines "$plan")" -v seconds="$seconds" -v memory="$memory" \
        'BEGIN { printf "%-12s %-8s %10d %10d %7.2f%% %9d %8.2f %7d\n", film, status, cost, bound, bound / cost * 100, lines, seconds, memory / 1024 }'
}

printf '%-12s %-8s %10s %10s %8s %9s %8s %7s\n' film status cost bound of-cost lines seconds MB
for film in "${films[@]}"; do
    solve "$film" --nodes "$nodes" --workers "$workers"
done | tee "$work/rows"
awk '{ part = $5 + 0; sum += part; if (NR == 1 || part < least) least = part }
    END { printf "the bound is %.2f%% of the cost on average, and at least %.2f%%\n", sum / NR, least }' "$work/rows"

echo
for film in '5 24 12' '5 28 12' '5 32 12' '7 24 16' '7 20 20' '9 26 14'; do
    # shellcheck disable=SC2086 # three words
    "$solver" gen $film >"$work/${film// /-}.csv"
    for count in 1 "$workers"; do
        for _ in 1 2 3; do
            solve "${film// /-}" --workers "$count"
        done | sort -k 7,7n | head -n 1 | sed "s/$/ $count workers/"
    done
done
