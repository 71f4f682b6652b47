#!/usr/bin/env bash
# Calls per second of the table's `find` and `put`: the proved crate, and the same table in plain Rust.
# It works in a temporary folder and leaves nothing in the repository. It takes rt and rustc.
set -euo pipefail
repository=$(cd "$(dirname "$0")/.." && pwd)
work=$(mktemp -d)
trap 'rm -rf "$work"' EXIT

cp "$repository/HANDLES" "$work/"
printf 'strip_io:\nstrip_mask:\nstrip_model: strip_mask\nstrip_film: strip_mask strip_io strip_model\n' > "$work/crates.txt"
printf 'strip_table: strip_mask strip_io strip_film\ncalls: strip_film strip_table\n' >> "$work/crates.txt"
calls=$work/crates/calls
mkdir -p "$calls/src"
for name in strip_io strip_mask strip_model strip_film strip_table; do
    mkdir -p "$work/crates/$name"
    cp -r "$repository/crates/$name/src" "$repository/crates/$name/specs" "$repository/crates/$name/proofs" "$work/crates/$name/"
done

cat > "$calls/src/main.rt" <<'END'
//! Prints what calls of a stripe gave: one job for each number of words.
#![tactic(auto)]
ghost use Rattle.std.specs.Prelude.{◌<◌};

use std::env;
use std::process::ExitCode;
use std::rt::Env;
use strip_film::{Known, Noted};
use strip_table::Stripe;

const CALLS: u32 = 20_000_000;

/// How many puts fill a stripe before its finds.
const PUTS: u32 = 1_000_000;

fn main(rt: HostRuntime) -> ExitCode {
    let words = match env::args(&rt) {
        Ok(words) => words.count(),
        Err(_) => 0,
    };
    // So many buckets, and so many bits of a set that vary.
    let (buckets, bits) = if words % 2 == 1 { (1_024, 13) } else { (65_536, 19) };
    match Stripe::new(rt.alloc(), buckets) {
        Ok(mut stripe) => {
            let sum = if words < 3 { finds(&mut stripe, bits) } else { puts(&mut stripe, CALLS, bits) };
            let _ = println!(&rt; "{sum}");
            ExitCode::from(0)
        }
        Err(_) => ExitCode::from(1),
    }
}

/// The next number of a sequence that looks random.
fn next(state: u64) -> u64 {
    state.wrapping_mul(6_364_136_223_846_793_005).wrapping_add(1_442_695_040_888_963_407)
}

fn set_of(state: u64, bits: u32) -> u64
    requires { bits < 64 }
{
    (state >> 20) % (1 << bits)
}

fn puts(stripe: &mut Stripe, calls: u32, bits: u32) -> u64
    requires { bits < 64 }
{
    let mut sum: u64 = 0;
    let mut state: u64 = 1;
    for line in 0..calls {
        state = next(state);
        let noted = stripe.put(&Known {
            line,
            set: set_of(state, bits),
            bound: state >> 50,
        });
        sum = sum.wrapping_add(told(&noted));
    }
    sum
}

fn told(noted: &Noted) -> u64 {
    match noted {
        Noted::Fresh => 1,
        Noted::Raised => 2,
        Noted::Stays { bound } => *bound,
        Noted::Evicted { set, bound } => set.wrapping_add(*bound),
    }
}

fn finds(stripe: &mut Stripe, bits: u32) -> u64
    requires { bits < 63 }
{
    let mut sum = puts(stripe, PUTS, bits);
    let mut state: u64 = 1;
    for _turn in 0..CALLS {
        state = next(state);
        match stripe.find(set_of(state, bits + 1)) {
            Some(known) => {
                sum = sum.wrapping_add(known.line as u64).wrapping_add(known.bound);
            }
            None => {
                sum = sum.wrapping_add(1);
            }
        }
    }
    sum
}
END

cat > "$work/calls.rs" <<'END'
// The same table and calls in plain Rust.
use std::hint::black_box;

const PLACES: usize = 4;

#[derive(Clone, Copy)]
struct Known {
    line: u32,
    set: u64,
    bound: u64,
}

enum Noted {
    Fresh,
    Raised,
    Stays { bound: u64 },
    Evicted { set: u64, bound: u64 },
}

#[derive(Clone, Copy)]
struct Slot {
    sets: [u64; PLACES],
    bounds: [u64; PLACES],
}

struct Stripe {
    slots: Vec<Slot>,
    lines: Vec<[u32; PLACES]>,
    counts: Vec<u8>,
}

fn bucket_of(set: u64, buckets: u32) -> u32 {
    (set.wrapping_mul(0x9E37_79B9_7F4A_7C15) >> 28) as u32 % buckets
}

fn place_of(sets: &[u64; PLACES], count: u8, set: u64) -> Option<usize> {
    let place = sets.iter().position(|other| *other == set)?;
    if place < count as usize { Some(place) } else { None }
}

fn fewest(sets: &[u64; PLACES]) -> usize {
    let mut fewest = 0;
    for place in 1..PLACES {
        if sets[place].count_ones() < sets[fewest].count_ones() {
            fewest = place;
        }
    }
    fewest
}

fn close_up<T: Copy>(list: &mut [T; PLACES], place: usize, last: T) {
    for to in place..PLACES - 1 {
        list[to] = list[to + 1];
    }
    list[PLACES - 1] = last;
}

fn write(slot: &mut Slot, lines: &mut [u32; PLACES], place: usize, known: &Known) {
    slot.sets[place] = known.set;
    slot.bounds[place] = known.bound;
    lines[place] = known.line;
}

impl Stripe {
    fn new(buckets: u32) -> Stripe {
        let empty = Slot { sets: [0; PLACES], bounds: [0; PLACES] };
        Stripe {
            slots: vec![empty; buckets as usize],
            lines: vec![[0; PLACES]; buckets as usize],
            counts: vec![0; buckets as usize],
        }
    }

    fn find(&self, set: u64) -> Option<Known> {
        let bucket = bucket_of(set, self.slots.len() as u32) as usize;
        let slot = &self.slots[bucket];
        let place = place_of(&slot.sets, self.counts[bucket], set)?;
        Some(Known { line: self.lines[bucket][place], set, bound: slot.bounds[place] })
    }

    fn put(&mut self, known: &Known) -> Noted {
        let bucket = bucket_of(known.set, self.slots.len() as u32) as usize;
        let (slot, lines, count) = (&mut self.slots[bucket], &mut self.lines[bucket], &mut self.counts[bucket]);
        if let Some(place) = place_of(&slot.sets, *count, known.set) {
            let bound = slot.bounds[place];
            if known.bound <= bound {
                return Noted::Stays { bound };
            }
            write(slot, lines, place, known);
            return Noted::Raised;
        }
        if (*count as usize) < PLACES {
            write(slot, lines, *count as usize, known);
            *count += 1;
            return Noted::Fresh;
        }
        let place = fewest(&slot.sets);
        let left = Noted::Evicted { set: slot.sets[place], bound: slot.bounds[place] };
        close_up(&mut slot.sets, place, known.set);
        close_up(&mut slot.bounds, place, known.bound);
        close_up(lines, place, known.line);
        left
    }
}

const CALLS: u32 = 20_000_000;
const PUTS: u32 = 1_000_000;

fn next(state: u64) -> u64 {
    state.wrapping_mul(6_364_136_223_846_793_005).wrapping_add(1_442_695_040_888_963_407)
}

fn set_of(state: u64, bits: u32) -> u64 {
    (state >> 20) % (1 << bits)
}

fn told(noted: &Noted) -> u64 {
    match noted {
        Noted::Fresh => 1,
        Noted::Raised => 2,
        Noted::Stays { bound } => *bound,
        Noted::Evicted { set, bound } => set.wrapping_add(*bound),
    }
}

fn puts(stripe: &mut Stripe, calls: u32, bits: u32) -> u64 {
    let mut sum: u64 = 0;
    let mut state: u64 = 1;
    for line in 0..calls {
        state = next(state);
        let noted = stripe.put(&Known { line, set: set_of(state, bits), bound: state >> 50 });
        sum = sum.wrapping_add(told(&noted));
    }
    sum
}

fn finds(stripe: &mut Stripe, bits: u32) -> u64 {
    let mut sum = puts(stripe, PUTS, bits);
    let mut state: u64 = 1;
    for _ in 0..CALLS {
        state = next(state);
        match stripe.find(set_of(state, bits + 1)) {
            Some(known) => sum = sum.wrapping_add(known.line as u64).wrapping_add(known.bound),
            None => sum = sum.wrapping_add(1),
        }
    }
    sum
}

fn main() {
    let words = std::env::args().count();
    let (buckets, bits) = if words % 2 == 1 { (1_024, 13) } else { (65_536, 19) };
    let mut stripe = Stripe::new(black_box(buckets));
    let sum = if words < 3 { finds(&mut stripe, black_box(bits)) } else { puts(&mut stripe, CALLS, black_box(bits)) };
    println!("{sum}");
}
END

(cd "$calls" && rt run > "$work/log" 2>&1) || { cat "$work/log"; exit 1; }
rustc -O -C target-cpu=x86-64-v2 "$work/calls.rs" -o "$work/calls_rust"

# The least of five runs in nanoseconds.
least() {
    local best=
    for _ in 1 2 3 4 5; do
        local begun ended
        begun=$(date +%s%N)
        "$@" > "$work/out"
        ended=$(date +%s%N)
        local took=$((ended - begun))
        if [ -z "$best" ] || [ "$took" -lt "$best" ]; then best=$took; fi
    done
    echo "$best"
}

compare() {
    local name=$1 count=$2
    shift 2
    local ours theirs
    ours=$(least "$calls/out/calls" "$@")
    cp "$work/out" "$work/ours"
    theirs=$(least "$work/calls_rust" "$@")
    cmp "$work/ours" "$work/out"
    printf '%-24s %6d million calls a second, plain Rust %6d, ratio %d%%\n' \
        "$name" $((count * 1000 / ours)) $((count * 1000 / theirs)) $((theirs * 100 / ours))
}

# The finds come behind a million puts.
compare 'find of 1,024 buckets' 21000000
compare 'find of 65,536 buckets' 21000000 x
compare 'put of 1,024 buckets' 20000000 x x
compare 'put of 65,536 buckets' 20000000 x x x
