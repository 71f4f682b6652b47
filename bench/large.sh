#!/usr/bin/env bash
# How cheap the orders are that solve prints of films which can't be solved to the end: 12 random films and 6 with story
# lines, with no tries, by default, and with 2,000,000 and 3,000,000 tries, beside the best of ten times 8,000,000 tries by
# a program in plain Rust (varied.rs) whose generator begins with other states; and how many seconds 3,000,000 tries take
# by one worker and by four. Only the default run searches for longer than one line. It works in a temporary folder, and
# takes rustc and the built program.
set -euo pipefail
repository=$(cd "$(dirname "$0")/.." && pwd)
work=$(mktemp -d)
trap 'rm -rf "$work"' EXIT
solver=${STRIPBOARD:-$("$repository/bin/run" --path stripboard)}

rustc -O -C target-cpu=x86-64-v3 -o "$work/varied" "$repository/bench/varied.rs"
films=()
for scenes in 36 48 64; do
    for actors in 10 16 24 32; do
        "$solver" gen 5 $scenes $actors >"$work/gen-$scenes-$actors.csv"
        films+=("gen-$scenes-$actors")
    done
done
while read -r number scenes; do
    "$work/varied" story "$number" "$scenes" >"$work/story-$scenes.csv"
    films+=("story-$scenes")
done <<'END'
3 48
4 60
2 64
19 70
6 76
370 90
END

# The number of a row of a plan.
row() {
    sed -n "s/^$1,//p" "$2"
}

# Solves a film with these options, and gives the plan and how long it took.
solve() {
    local film=$1 plan=$2
    shift 2
    local begun=$EPOCHREALTIME
    "$solver" solve "$work/$film.csv" "$@" >"$plan" || [ $? -eq 3 ]
    echo "$begun $EPOCHREALTIME" | awk '{ printf "%.3f", $2 - $1 }'
}

# How far a cost is above the best, in percent, which is also kept for the end.
above() {
    awk -v a="$2" -v b="$best" 'BEGIN { printf "%.3f", (a / b - 1) * 100 }' | tee -a "$work/above-$1"
    echo >>"$work/above-$1"
}

short=(--bounds plain --nodes 1)
printf '%-10s %8s %10s %10s %10s %10s %10s %10s %8s %8s %8s %8s %8s %8s\n' film classes best untried default 2000000 \
    3000000 bound above above above seconds alone four
for film in "${films[@]}"; do
    seconds=$(solve "$film" "$work/default")
    solve "$film" "$work/untried" "${short[@]}" --tries 0 >/dev/null
    solve "$film" "$work/2000000" "${short[@]}" --tries 2000000 >/dev/null
    alone=$(solve "$film" "$work/3000000" "${short[@]}" --tries 3000000)
    four=$(solve "$film" "$work/four" "${short[@]}" --tries 3000000 --workers 4)
    [ "$(row order "$work/3000000")" = "$(row order "$work/four")" ]
    best=$(row cost "$work/default")
    for plan in 2000000 3000000; do
        cost=$(row cost "$work/$plan")
        [ "$cost" -ge "$best" ] || best=$cost
    done
    for state in 1 2 3 4 5 6 7 8 9 10; do
        "$work/varied" start "$work/$film.csv" 8000000 $state >"$work/best"
        cost=$(row cost "$work/best")
        [ "$cost" -ge "$best" ] || best=$cost
    done
    printf '%-10s %8s %10s' "$film" "$(row classes "$work/best")" "$best"
    for plan in untried default 2000000 3000000; do
        printf ' %10s' "$(row cost "$work/$plan")"
    done
    printf ' %10s' "$(row bound "$work/default")"
    for plan in default 2000000 3000000; do
        printf ' %7s%%' "$(above $plan "$(row cost "$work/$plan")")"
    done
    printf ' %8s %8s %8s\n' "$seconds" "$alone" "$four"
    echo "$alone $four" >>"$work/times"
done
for plan in default 2000000 3000000; do
    awk -v plan=$plan '{ sum += $1; if ($1 > worst) worst = $1 }
        END { printf "%s: %.3f%% above the best on average, %.3f%% at worst\n", plan, sum / NR, worst }' "$work/above-$plan"
done
awk '{ alone += $1; four += $2 } END { printf "3000000 tries: %.2f s by one worker, %.2f by four, %.2f of it\n", alone, four, four / alone }' "$work/times"
