#!/usr/bin/env bash
# Instructions and nanoseconds that the value of a party takes in two forms, both in plain Rust: that of strip_sets and
# strip_arrivals, in recursive types by value, and another one that tells what is saved, in slices of one workspace. It
# first compares both on random groups and newcomers of made films, by a build that checks each place in a slice, and
# ends with 1 if two values differ. The sizes are of random sets of the film of bench/values.sh. Instructions are of
# callgrind, the difference of two lengths; of nanoseconds the least of several runs that take turns counts. It works in
# a temporary folder and builds the program if it isn't fresh. It takes rustc and valgrind.
set -euo pipefail
repository=$(cd "$(dirname "$0")/.." && pwd)
work=$(mktemp -d)
trap 'rm -rf "$work"' EXIT
solver=${STRIPBOARD:-$("$repository/bin/run" --path stripboard)}

build() {
    rustc --edition 2024 -O -C target-cpu=x86-64-v2 -C codegen-units=1 "$@" "$repository/bench/kernel/main.rs"
}
build -o "$work/kernel"
build -C debug-assertions=on -o "$work/checked"

for film in "5 24 12" "7 24 16" "9 26 14"; do
    # shellcheck disable=SC2086
    "$solver" gen $film > "$work/film.csv"
    agreed=0
    "$work/checked" agree "$work/film.csv" > "$work/agreed" || agreed=$?
    echo "$film: $(cat "$work/agreed")"
    [ "$agreed" = 0 ] || exit 1
done

# The instructions of a run that makes so many values of a size by a form.
count() {
    local form=$1 size=$2 values=$3
    # shellcheck disable=SC2086
    valgrind --tool=callgrind --callgrind-out-file=/dev/null "$work/kernel" "$form" $size "$values" 2>&1 > "$work/sum" |
        sed -n 's/.*Collected : //p'
}

# The instructions of one value, by the values past the first hundred.
instructions() {
    local fewer more
    fewer=$(count "$1" "$2" 100)
    more=$(count "$1" "$2" 300)
    echo $(((more - fewer) / 200))
}

sizes=("3 0" "4 1" "7 0" "7 1" "7 2" "10 0" "10 1" "10 2")
declare -A sums least
for _ in 1 2 3 4 5; do
    for size in "${sizes[@]}"; do
        for form in by_value saved; do
            # shellcheck disable=SC2086
            read -r sum took < <("$work/kernel" "$form" $size 2000)
            if [ "${sums[$size]-$sum}" != "$sum" ]; then
                echo "$size: the values differ" >&2
                exit 1
            fi
            sums[$size]=$sum
            if [ -z "${least[$form $size]-}" ] || [ "$took" -lt "${least[$form $size]}" ]; then
                least[$form $size]=$took
            fi
        done
    done
done
for size in "${sizes[@]}"; do
    awk -v size="${size/ /, }" -v before="$(instructions by_value "$size")" -v after="$(instructions saved "$size")" \
        -v slower="${least[by_value $size]}" -v faster="${least[saved $size]}" \
        'BEGIN { printf "%-6s by value %7d instructions, %6d ns; saved %7d, %6d ns; ratio %.2f and %.2f\n", size ":",
            before, slower, after, faster, after / before, faster / slower }'
done
