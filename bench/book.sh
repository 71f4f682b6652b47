#!/usr/bin/env bash
# Nanoseconds a call of what workers ask of a book and of its stripes, by 1, 2 and 4 threads, beside the same in
# plain Rust: atomics by the book's own steps and orderings, and buckets behind std's Mutex. It is the least of
# several runs that take turns, less the least of those that make the same book or stripes and the same threads
# and call nothing. Each thread makes as many calls, so a call by more threads takes longer where they wait for
# one another. It works in a temporary folder and leaves nothing in the repository. It takes rt and rustc.
# With a word it keeps the folder of that name, so that a second run proves less.
set -euo pipefail
repository=$(cd "$(dirname "$0")/.." && pwd)
if [ $# -gt 0 ]; then
    work=$1
    mkdir -p "$work"
else
    work=$(mktemp -d)
    trap 'rm -rf "$work"' EXIT
fi
work=$(cd "$work" && pwd)

cp "$repository/HANDLES" "$work/"
crates="strip_io strip_mask strip_model strip_film strip_group strip_sets strip_arrivals strip_bound"
crates+=" strip_rule strip_lines strip_hand strip_table strip_book strip_stripes"
grep -E "^(${crates// /|}):" "$repository/crates.txt" > "$work/crates.txt"
uses="strip_io strip_mask strip_film strip_model strip_bound strip_rule strip_lines strip_hand"
echo "calls: $uses strip_book strip_stripes" >> "$work/crates.txt"
for name in $crates; do
    mkdir -p "$work/crates/$name"
    for part in src specs proofs; do
        if [ -d "$repository/crates/$name/$part" ]; then
            cp -r "$repository/crates/$name/$part" "$work/crates/$name/"
        fi
    done
done
calls=$work/crates/calls
mkdir -p "$calls"
cp -r "$repository/bench/book/"{src,specs,proofs} "$calls/"
# The gate takes no source files but those of its crates, so these have one ending more.
find "$calls" -name '*.txt' | while read -r file; do mv "$file" "${file%.txt}"; done

(cd "$calls" && rt run -- rest x > "$work/log" 2>&1) || {
    tail -n 20 "$work/log" >&2
    exit 1
}
cp "$calls/out/calls" "$work/proved"
rustc -O -C target-cpu=x86-64-v2 "$repository/bench/book/calls.rs" -o "$work/plain"

# Runs a program's job by so many threads, and keeps the least time that it took, in nanoseconds.
declare -A least
run() {
    local program=$1 job=$2 threads=$3 words=() begun ended took
    for _ in $(seq "$threads"); do words+=(x); done
    begun=$(date +%s%N)
    "$work/$program" "$job" "${words[@]}" > "$work/$program.out"
    ended=$(date +%s%N)
    took=$((ended - begun))
    if [ -z "${least[$*]-}" ] || [ "$took" -lt "${least[$*]}" ]; then least[$*]=$took; fi
}

for _ in 1 2 3 4 5; do
    for threads in 1 2 4; do
        for job in rest begin enlist raise again idle hit miss note; do
            run proved "$job" "$threads"
            run plain "$job" "$threads"
            # Which lines leave a full bucket depends on which thread comes first.
            if [ "$job" != note ] || [ "$threads" = 1 ]; then
                cmp "$work/proved.out" "$work/plain.out"
            fi
        done
        run plain write "$threads"
        run plain write_raise "$threads"
    done
done

# What a call takes: a job less another one, by so many calls of each thread, in millions.
call() {
    local program=$1 job=$2 less=$3 threads=$4 millions=$5
    awk -v job="${least[$program $job $threads]}" -v less="${least[$program $less $threads]}" -v millions="$millions" \
        'BEGIN { printf "%.2f\n", (job - less) / millions / 1000000 }'
}

# A job less another one, beside those of plain Rust; and how many calls a second all threads make together,
# beside those of one.
compare() {
    local name=$1 job=$2 less=$3 plain_job=$4 plain_less=$5 millions=$6 threads one
    one=$(call proved "$job" "$less" 1 "$millions")
    for threads in 1 2 4; do
        awk -v name="$name" -v threads="$threads" -v one="$one" \
            -v ours="$(call proved "$job" "$less" "$threads" "$millions")" \
            -v theirs="$(call plain "$plain_job" "$plain_less" "$threads" "$millions")" \
            'BEGIN { printf "%-34s by %d: %6.1f ns, plain Rust %6.1f, ratio %.2f, %.2f times the calls of one thread\n",
                name, threads, ours, theirs, ours / theirs, threads * one / ours }'
    done
}

# A book's worker announces its path before it draws a number; by the fewest steps it doesn't.
compare 'enlist' enlist begin enlist begin 4
compare 'enlist, by the fewest steps' enlist begin write rest 4
compare 'enlist and raise' raise begin raise begin 4
compare 'enlist and raise, by the fewest' raise begin write_raise rest 4
compare 'raise of a line of its own' again rest again rest 40
compare 'probe, hit' hit idle hit idle 12
compare 'probe, miss' miss idle miss idle 12
compare 'note' note idle note idle 12
