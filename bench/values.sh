#!/usr/bin/env bash
# Microseconds that the value of a group and its newcomers takes, by how many are in the group and how many
# newcomers there are, on random sets of a film of 24 scenes and 12 actors: the least user time of several
# runs that take turns. It works in a temporary folder and leaves nothing in the repository. It takes rt.
# With a word it keeps the folder of that name, so that a second run proves less.
set -euo pipefail
repository=$(cd "$(dirname "$0")/.." && pwd)
if [ $# -gt 0 ]; then
    work=$1
    mkdir -p "$work"
else
    work=$(mktemp -d)
    trap 'rm -rf "$work"' EXIT
fi

cp "$repository/HANDLES" "$work/"
crates="strip_io strip_mask strip_group strip_sets strip_arrivals"
grep -E "^(${crates// /|}):" "$repository/crates.txt" > "$work/crates.txt"
echo "values: strip_io strip_mask strip_arrivals" >> "$work/crates.txt"
values=$work/crates/values
mkdir -p "$values/src" "$values/proofs/value_of"
: > "$values/proofs/Lib.antt"
for name in $crates; do
    mkdir -p "$work/crates/$name"
    cp -r "$repository/crates/$name/src" "$repository/crates/$name/specs" "$repository/crates/$name/proofs" "$work/crates/$name/"
done

cat > "$values/src/main.rt" <<'END'
//! Prints the sum of the values of groups and newcomers on random sets: one size for each number of words.
#![tactic(auto)]
ghost use Rattle.std.specs.Prelude.{◌≡◌, ℕ, length, sum, true, false};
ghost use Rattle.strip_mask.specs.Set.{has};

use std::alloc::Global;
use std::env;
use std::process::ExitCode;
use std::rt::Env;
use strip_arrivals::{ArrivalsTable, Room};
use strip_io::Memory;
use strip_mask::Mask;

const TURNS: u64 = 50_000;

const HOLDS: [u64; 12] = [72, 15, 91, 38, 56, 83, 27, 64, 49, 12, 97, 33];

fn main(rt: HostRuntime) -> ExitCode {
    let words = match env::args(&rt) {
        Ok(words) => words.count(),
        Err(_) => 0,
    };
    match job(rt.alloc(), words) {
        Ok(sum) => {
            let _ = println!(&rt; "{sum}");
            ExitCode::from(0)
        }
        Err(Memory) => ExitCode::from(1),
    }
}

fn job(alloc: Global, words: usize) -> Result<u64, Memory> {
    let mut casts = Vec::new(alloc);
    let mut mixed: u64 = 7;
    for _ in 0..24 {
        mixed = next(mixed);
        casts.push(mixed >> 20 & mixed >> 40 & 4095)?;
    }
    if casts.len() != 24 {
        return Ok(0);
    }
    let table = ArrivalsTable::of(alloc, &casts, &[3; 24], &HOLDS)?;
    Ok(sum_values(&table, words))
}

fn next(mixed: u64) -> u64 {
    mixed
        .wrapping_mul(6_364_136_223_846_793_005)
        .wrapping_add(1_442_695_040_888_963_407)
}

/// So many of the twelve actors from this one on, round the twelve.
fn round(first: u32, count: u32) -> Mask {
    if first < 12 && count < 12 {
        let run = Mask::below(count).0 << first;
        Mask((run | run >> 12) & 4095)
    } else {
        Mask(0)
    }
}

/// The value, if it can be asked for, or 0.
fn value_of(table: &ArrivalsTable, set: Mask, group: Mask, others: Mask, room: &mut Room) -> u64
    requires { length table.now.holds ≡ 12 }
{
    let newcomers = others.minus(group);
    if group.size() > 10 || newcomers.size() > 2 {
        return 0;
    }
    if !group.lies_below(12) || !newcomers.lies_below(12) {
        return 0;
    }
    table.value(set, group, newcomers, room)
}

fn sum_values(table: &ArrivalsTable, words: usize) -> u64
    requires { length table.now.holds ≡ 12 }
{
    let (places, count) = match words {
        1 => (3, 0),
        2 => (5, 2),
        3 => (6, 2),
        4 => (7, 0),
        5 => (7, 1),
        6 => (7, 2),
        7 => (8, 2),
        8 => (9, 2),
        9 => (10, 0),
        10 => (10, 1),
        _ => (10, 2),
    };
    let mut room = Room::new();
    let mut sum: u64 = 0;
    let mut mixed: u64 = 1;
    for _ in 0..TURNS {
        mixed = next(mixed);
        let first = (mixed >> 50) as u32 % 12;
        let group = round(first, places);
        let others = round((first + places) % 12, count);
        let set = Mask(mixed >> 20 & 16_777_215);
        sum = sum.wrapping_add(value_of(table, set, group, others, &mut room));
    }
    sum
}
END

cat > "$values/proofs/value_of/Answers.antt" <<'END'
use Rattle.std.proofs.Common.{◌∙◌, ap, sym}
use Rattle.strip_mask.specs.Set.{has}
use Rattle.strip_mask.proofs.ByMembers.{has_from_minus}
use Rattle.values.proofs.value_of.Goals as goal

pub value-requires-clause-apart : goal.value-requires-clause-apart
value-requires-clause-apart c = λ actor there. (has_from_minus c.args.others.0 c.args.group.0 actor (ap (λ s. has s actor) (sym c.minus-newcomers.ensures) ∙ there)).1
END

(cd "$values" && rt run > "$work/log" 2>&1) || {
    tail -n 20 "$work/log" >&2
    exit 1
}

# The user time of a run with so many words, in microseconds a call.
of_run() {
    local words=()
    for _ in $(seq 2 "$1"); do words+=(x); done
    /usr/bin/time -q -f '%U' -o "$work/time" "$values/out/values" "${words[@]}" > "$work/sum"
    awk -v turns=50000 '{ printf "%.2f\n", $1 * 1000000 / turns }' "$work/time"
}

sizes=("3, 0" "5, 2" "6, 2" "7, 0" "7, 1" "7, 2" "8, 2" "9, 2" "10, 0" "10, 1" "10, 2")
declare -A least
for _ in 1 2 3 4 5; do
    for number in "${!sizes[@]}"; do
        seconds=$(of_run $((number + 1)))
        if [ -z "${least[$number]-}" ] || awk -v a="$seconds" -v b="${least[$number]}" 'BEGIN { exit !(a < b) }'; then
            least[$number]=$seconds
        fi
    done
done
for number in "${!sizes[@]}"; do
    echo "${sizes[$number]}: ${least[$number]}"
done
