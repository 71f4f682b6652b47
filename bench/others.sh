#!/usr/bin/env bash
# What other solvers take for the same films: a constraint model by Gecode (others/talent.mzn), a logic program by
# clasp (others/talent.asp), an integer program by CBC (others/film.py), and a plain dynamic program over all sets of
# scenes (others/plain.cpp), beside our program with groups and with arrivals. Each runs in one thread. For each film,
# by number, scenes and actors, it prints the status, the cost and the user seconds of each, and ends with 1 where two
# optima differ. Who doesn't end within 120 seconds of processor time, or as many as the word says, is ended; what it
# found till then is printed, and it gets no larger film. Further words name who is to run. It works in a temporary
# folder, and takes minizinc with Gecode, clingo, cbc, python3 and g++. STRIPBOARD names the built program; without it,
# it is that of bin/stripboard.
#
#     bench/others.sh 120 groups arrivals gecode clasp cbc plain
set -euo pipefail
repository=$(cd "$(dirname "$0")/.." && pwd)
limit=${1:-120}
names=("${@:2}")
[ ${#names[@]} -gt 0 ] || names=(groups arrivals gecode clasp cbc plain)
work=$(mktemp -d)
trap 'rm -rf "$work"' EXIT
solver=${STRIPBOARD:-$("$repository/bin/run" --path stripboard)}
g++ -O2 -std=c++17 "$repository/bench/others/plain.cpp" -o "$work/plain"

# Runs a command by its limit, with what it prints in a file, and leaves its user seconds in another.
timed() {
    (
        ulimit -t "$limit"
        /usr/bin/time -q -f '%U' -o "$work/time" "$@" > "$work/printed" 2> "$work/errors"
    ) || true
    tail -n 1 "$work/time" > "$work/seconds"
}

by_options() {
    timed "$solver" solve "$work/film.csv" --bounds "$1"
    cost=$(sed -n 's/^cost,//p' "$work/printed")
    status=$(sed -n 's/^status,//p' "$work/printed")
}

by_groups() { by_options groups; }

by_arrivals() { by_options arrivals; }

by_gecode() {
    python3 "$repository/bench/others/film.py" "$work/film.csv" dzn > "$work/film.dzn"
    timed minizinc --solver gecode --all-solutions "$repository/bench/others/talent.mzn" "$work/film.dzn"
    cost=$(sed -n 's/^cost //p' "$work/printed" | tail -n 1)
    if grep -q '^==========$' "$work/printed"; then status=optimal; fi
}

by_cbc() {
    python3 "$repository/bench/others/film.py" "$work/film.csv" lp > "$work/film.lp"
    timed cbc "$work/film.lp" sec "$((limit - 1))" solve
    cost=$(sed -n 's/^Objective value: *\([0-9]*\).*/\1/p' "$work/printed")
    if grep -q '^Result - Optimal solution found' "$work/printed"; then status=optimal; fi
}

by_clasp() {
    python3 "$repository/bench/others/film.py" "$work/film.csv" asp > "$work/film.asp"
    timed clingo "$repository/bench/others/talent.asp" "$work/film.asp"
    cost=$(sed -n 's/^Optimization: //p' "$work/printed" | tail -n 1)
    if grep -q '^OPTIMUM FOUND' "$work/printed"; then status=optimal; fi
}

by_plain() {
    python3 "$repository/bench/others/film.py" "$work/film.csv" sets > "$work/film.sets"
    timed "$work/plain" < "$work/film.sets"
    cost=$(sed -n 's/^cost //p' "$work/printed")
    if [ -n "$cost" ]; then status=optimal; fi
}

declare -A failed
differ=0
for film in "7 9 5" "5 12 8" "5 14 8" "5 16 10" "5 18 10" "5 20 12" "5 24 12" "5 28 12"; do
    # shellcheck disable=SC2086
    "$solver" gen $film > "$work/film.csv"
    optimum=''
    for name in "${names[@]}"; do
        if [ -n "${failed[$name]-}" ]; then continue; fi
        cost=''
        status=stopped
        "by_$name"
        echo "$film, $name: $status, cost ${cost:-none}, $(cat "$work/seconds") s"
        if [ "$status" != optimal ]; then
            failed[$name]=1
        elif [ "${optimum:=$cost}" != "$cost" ]; then
            echo "$film, $name: $cost isn't $optimum"
            differ=1
        fi
    done
done
[ "$differ" = 0 ] || exit 1
echo "all optima are the same"
