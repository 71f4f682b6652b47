#!/usr/bin/env bash
# Solves a made film again and again by many workers, 200 times by 64 or as often and by as many as the words
# say, and has each plan checked by the other program. It prints the costs that came and how often, ends with
# 0 where there is one alone and each plan was accepted, and works in a temporary folder.
set -euo pipefail
repository=$(cd "$(dirname "$0")/.." && pwd)
work=$(mktemp -d)
trap 'rm -rf "$work"' EXIT
runs=${1:-200}
workers=${2:-64}
solver=${STRIPBOARD:-$("$repository/bin/run" --path stripboard)}
checker=${STRIPCHECK:-$("$repository/bin/run" --path stripcheck)}
"$solver" gen 11 16 8 > "$work/film.csv"
for ((run = 0; run < runs; run++)); do
    "$solver" solve "$work/film.csv" --workers "$workers" --table 64 --proof > "$work/plan.csv"
    "$checker" "$work/film.csv" "$work/plan.csv" > /dev/null
    sed -n 's/^cost,//p' "$work/plan.csv" >> "$work/costs"
done
sort "$work/costs" | uniq -c | sed 's/^ *//; s/ / runs of cost /'
[ "$(sort -u "$work/costs" | wc -l)" -eq 1 ]
