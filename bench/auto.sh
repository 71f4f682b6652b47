#!/usr/bin/env bash
# How long `solve --auto` takes beside the best choice by hand, and what it finds of large films. All searches are by as
# many workers as there are processors. The example films and seven made ones are solved with --auto by 50,000 lines, and
# by pairs, groups and arrivals, each path by path and in 16 steps. For each film it prints:
#
# - of --auto the seconds, the status, the cost, the bound and the lines;
# - the quickest choice by hand that solves the film to the end, its seconds, and how many times as long --auto takes;
# - the seconds of the plain dynamic program (others/plain.cpp), for made films of 24 scenes and more.
#
# The least of three runs counts, and the only run of the plain program. A choice is given up after 60 seconds, or when it
# takes longer than an earlier one. A dash stands for a search that didn't end, or that wasn't made. Then the 12 random
# films and the 6 with story lines of large.sh are searched once with --auto and its own lines. For each it prints the
# seconds, the cost, the bound, and the gap: how far the bound is below the cost, in percent. The last row has the mean
# and the greatest gap. It ends with 1 if two optima differ. It works in a temporary folder, and takes rustc, g++, python3
# and the built program. The words say other numbers of lines and seconds:
#
#     bench/auto.sh 50000 60
set -euo pipefail
shopt -s inherit_errexit
repository=$(cd "$(dirname "$0")/.." && pwd)
work=$(mktemp -d)
trap 'rm -rf "$work"' EXIT
solver=${STRIPBOARD:-$("$repository/bin/run" --path stripboard)}
nodes=${1:-50000}
limit=${2:-60}

g++ -O2 -std=c++17 "$repository/bench/others/plain.cpp" -o "$work/plain"
rustc -O -C target-cpu=x86-64-v3 -o "$work/varied" "$repository/bench/varied.rs"

# The value of a row of a plan.
row() {
    sed -n "s/^$1,//p" "$2"
}

# Whether the first number is less than the second, or the second is a dash.
is_less() {
    [ "$2" = - ] || awk -v a="$1" -v b="$2" 'BEGIN { exit !(a < b) }'
}

# Runs a command for at most some seconds, with what it prints in a file. Prints the seconds it took, and ends with its
# status, or with 124 if it was given up.
timed() {
    local most=$1 output=$2 status=0 begun=$EPOCHREALTIME
    shift 2
    # In the foreground, so that whoever ends the script ends the command too.
    timeout --foreground "$most" "$@" >"$output" || status=$?
    echo "$begun $EPOCHREALTIME" | awk '{ printf "%.3f", $2 - $1 }'
    return "$status"
}

# Solves a film three times, each for at most some seconds. Prints the seconds of the quickest run, or a dash if the first
# was given up, and leaves the plan in $work/plan.
quickest() {
    local most=$1 best=- seconds status
    shift
    for _ in 1 2 3; do
        status=0
        seconds=$(timed "$most" "$work/printed" "$solver" solve "$@" --workers auto) || status=$?
        case $status in
            0 | 3) ;;
            124) break ;;
            *) return "$status" ;;
        esac
        mv "$work/printed" "$work/plan"
        if is_less "$seconds" "$best"; then best=$seconds; fi
    done
    echo "$best"
}

# Prints the seconds and the cost of the quickest choice by hand that solves a film to the end, and the choice.
by_hand() {
    local film=$1 best=- cost=- choice=- bounds steps most seconds
    for bounds in pairs groups arrivals; do
        for steps in '' --steps=16; do
            most=$limit
            if [ "$best" != - ]; then most=$best; fi
            seconds=$(quickest "$most" "$work/$film.csv" --bounds "$bounds" ${steps:+"$steps"})
            if [ "$seconds" != - ] && [ "$(row status "$work/plan")" = optimal ] && is_less "$seconds" "$best"; then
                best=$seconds
                cost=$(row cost "$work/plan")
                choice=$bounds${steps:+,16}
            fi
        done
    done
    echo "$best $cost $choice"
}

# Prints the seconds and the cost of the plain dynamic program, or dashes if the film has too many classes for it.
by_plain() {
    local seconds
    python3 "$repository/bench/others/film.py" "$work/$1.csv" sets >"$work/sets"
    if seconds=$(timed "$limit" "$work/printed" "$work/plain" <"$work/sets"); then
        echo "$seconds $(sed -n 's/^cost //p' "$work/printed")"
    else
        echo '- -'
    fi
}

# Ends with 1 if a film's optimum isn't the one that --auto found.
compare() {
    local film=$1 optimum=$2 other
    shift 2
    for other in "$@"; do
        if [ "$optimum" != - ] && [ "$other" != - ] && [ "$optimum" != "$other" ]; then
            echo "$film: the optimum is $optimum and $other" >&2
            exit 1
        fi
    done
}

# Prints the row of a film of this many scenes, 0 if the plain dynamic program isn't to solve it.
table_row() {
    local film=$1 scenes=$2 seconds status cost bound lines optimum=- found hand hand_cost choice plain=- plain_cost=- times=-
    seconds=$(quickest "$limit" "$work/$film.csv" --auto --nodes "$nodes")
    if [ "$seconds" = - ]; then
        printf '%-9s %8s\n' "$film" -
        return
    fi
    status=$(row status "$work/plan")
    cost=$(row cost "$work/plan")
    bound=$(row bound "$work/plan")
    lines=$(row lines "$work/plan")
    if [ "$status" = optimal ]; then optimum=$cost; fi
    found=$(by_hand "$film")
    read -r hand hand_cost choice <<<"$found"
    if [ "$scenes" -ge 24 ]; then
        found=$(by_plain "$film")
        read -r plain plain_cost <<<"$found"
    fi
    compare "$film" "$optimum" "$hand_cost" "$plain_cost"
    if [ "$hand" != - ]; then times=$(awk -v a="$seconds" -v b="$hand" 'BEGIN { printf "%.2f", a / b }'); fi
    printf '%-9s %8s %-8s %9s %9s %7s %8s %-12s %6s %8s\n' "$film" "$seconds" "$status" "$cost" "$bound" "$lines" \
        "$hand" "$choice" "$times" "$plain"
}

printf '%-9s %8s %-8s %9s %9s %7s %8s %-12s %6s %8s\n' film auto status cost bound lines by-hand choice times plain
for film in "$repository"/examples/*.csv; do
    cp "$film" "$work/"
    table_row "$(basename "$film" .csv)" 0
done
for film in '5 20 12' '5 24 12' '5 28 12' '9 26 14' '7 24 16' '7 20 20' '5 30 10'; do
    read -r number scenes actors <<<"$film"
    "$solver" gen "$number" "$scenes" "$actors" >"$work/$number-$scenes-$actors.csv"
    table_row "$number-$scenes-$actors" "$scenes"
done

films=()
for scenes in 36 48 64; do
    for actors in 10 16 24 32; do
        "$solver" gen 5 $scenes $actors >"$work/gen-$scenes-$actors.csv"
        films+=("gen-$scenes-$actors")
    done
done
while read -r number scenes; do
    "$work/varied" story "$number" "$scenes" >"$work/story-$scenes.csv"
    films+=("story-$scenes")
done <<'END'
3 48
4 60
2 64
19 70
6 76
370 90
END

echo
printf '%-10s %8s %9s %9s %7s\n' film seconds cost bound gap
for film in "${films[@]}"; do
    status=0
    seconds=$(timed 0 "$work/plan" "$solver" solve "$work/$film.csv" --auto --workers auto) || status=$?
    [ "$status" -eq 0 ] || [ "$status" -eq 3 ] || exit "$status"
    awk -v film="$film" -v seconds="$seconds" -v cost="$(row cost "$work/plan")" -v bound="$(row bound "$work/plan")" \
        'BEGIN { printf "%-10s %8s %9d %9d %6.2f%%\n", film, seconds, cost, bound, (1 - bound / cost) * 100 }'
done | tee "$work/rows"
awk '{ gap = $5 + 0; sum += gap; if (gap > most) most = gap }
    END { printf "the gap is %.2f%% on average, and at most %.2f%%\n", sum / NR, most }' "$work/rows"
