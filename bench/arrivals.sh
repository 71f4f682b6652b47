#!/usr/bin/env bash
# How long made films take to be solved with groups and with arrivals, on one thread, and the proofs to be
# checked by the second program. For each film, by number, scenes and actors, it prints the status, the
# lines, and the seconds of solving and of checking; the least of three runs counts. Groups are asked for
# the first film alone, with at most two million lines: on the others they don't end soon.
# It works in a temporary folder, and builds the programs if they aren't fresh.
set -euo pipefail
repository=$(cd "$(dirname "$0")/.." && pwd)
work=$(mktemp -d)
trap 'rm -rf "$work"' EXIT
solver=${STRIPBOARD:-$("$repository/bin/run" --path stripboard)}
checker=${STRIPCHECK:-$("$repository/bin/run" --path stripcheck)}

# Runs a command three times with its output in a file, and prints the seconds of the quickest.
quickest() {
    local output=$1 best= seconds
    shift
    for _ in 1 2 3; do
        /usr/bin/time -q -f '%e' -o "$work/time" "$@" > "$output" || true
        seconds=$(cat "$work/time")
        if [ -z "$best" ] || awk -v a="$seconds" -v b="$best" 'BEGIN { exit !(a < b) }'; then
            best=$seconds
        fi
    done
    echo "$best"
}

# Solves a made film with these options, and has its plan checked.
run() {
    local film=$1 solved checked
    shift
    # shellcheck disable=SC2086
    "$solver" gen $film > "$work/film.csv"
    solved=$(quickest "$work/plan.csv" "$solver" solve "$work/film.csv" --proof "$@")
    checked=$(quickest "$work/verdict" "$checker" "$work/film.csv" "$work/plan.csv")
    echo "$film, $*: $(sed -n 's/^status,//p' "$work/plan.csv"), $(sed -n 's/^lines,//p' "$work/plan.csv") lines, $solved s, $(cat "$work/verdict") in $checked s"
}

run "5 24 12" --bounds groups --nodes 2000000
for film in "5 24 12" "5 28 12" "5 30 10" "5 32 12"; do
    run "$film" --bounds arrivals --nodes 4000000
done
