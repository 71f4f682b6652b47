#!/usr/bin/env bash
# Calls per second of the film's inner calls: the proved crates, and the same in plain Rust.
# It works in a temporary folder and leaves nothing in the repository. It takes rt and rustc.
set -euo pipefail
repository=$(cd "$(dirname "$0")/.." && pwd)
work=$(mktemp -d)
trap 'rm -rf "$work"' EXIT

cp "$repository/HANDLES" "$work/"
printf 'strip_io:\nstrip_mask:\nstrip_model: strip_mask\nstrip_film: strip_mask strip_io strip_model\ncalls: strip_mask strip_model strip_film\n' > "$work/crates.txt"
calls=$work/crates/calls
mkdir -p "$calls/src" "$calls/proofs/+walk" "$calls/proofs/lies"
for name in strip_io strip_mask strip_model strip_film; do
    mkdir -p "$work/crates/$name"
    cp -r "$repository/crates/$name/src" "$repository/crates/$name/specs" "$repository/crates/$name/proofs" "$work/crates/$name/"
done

cat > "$calls/src/main.rt" <<'END'
//! Prints what calls of a film gave: one job for each word.
#![tactic(auto)]
ghost use Rattle.std.specs.Prelude.{◌≡◌, ◌↔◌, ℕ, IsTrue};
ghost use Rattle.strip_film.specs.Film.{LiesIn};
ghost use Rattle.strip_film.specs.Path.{IsPath};
ghost use Rattle.strip_film.specs.Shown.{path_data};

use std::alloc::{AllocError, Global};
use std::env;
use std::process::ExitCode;
use std::rt::Env;
use strip_film::{Film, Path, cast_of, on, ready, step};
use strip_mask::Mask;
use strip_model::Pair;

const SETS: u64 = 65_536;

/// How often a job goes over all sets; the steps of all sets are many more calls.
const TURNS: u64 = 400;
const STEP_TURNS: u64 = 40;

fn main(rt: HostRuntime) -> ExitCode {
    let words = match env::args(&rt) {
        Ok(words) => words.count(),
        Err(_) => 0,
    };
    match film(rt.alloc()) {
        Ok(Some(film)) => {
            let _ = println!(&rt; "{}", run(&film, words));
            ExitCode::from(0)
        }
        _ => ExitCode::from(1),
    }
}

fn film(alloc: Global) -> Result<Option<Film>, AllocError> {
    let mut casts = Vec::new(alloc);
    let mut days = Vec::new(alloc);
    let mut rates = Vec::new(alloc);
    let mut holds = Vec::new(alloc);
    let mut pairs = Vec::new(alloc);
    for number in 0..16u64 {
        casts.push((number * 40_503 + 12_345) % 65_536)?;
        days.push(number % 5 + 1)?;
        rates.push(10 * number + 10)?;
        holds.push(7 * number + 5)?;
    }
    for (first, then) in [(0, 5), (3, 9), (5, 12)] {
        pairs.push(Pair { first, then })?;
    }
    Ok(Film::of(casts, days, rates, holds, pairs))
}

/// As many words as there are jobs up to it: paths, casts, who is on location, steps, ready scenes.
fn run(film: &Film, words: usize) -> u64 {
    match words {
        1 => walk(film, &Path::start(film), 7),
        2 => sum_casts(film),
        3 => sum_locations(film),
        4 => sum_steps(film),
        _ => sum_ready(film),
    }
}

fn walk(film: &Film, path: &Path, depth: u32) -> u64
    requires { IsPath film.now (path_data path.now) }
{
    let mut sum = path.paid();
    if depth > 0 {
        let next = ready(film, path.rest());
        for scene in next.iter() {
            if scene < 64 && next.has(scene) {
                sum = sum.wrapping_add(walk(film, &path.extend(film, scene), depth - 1));
            }
        }
    }
    sum
}

fn lies(film: &Film, set: u64) -> bool
    ensures { IsTrue result ↔ LiesIn film.now set }
{
    Mask(set).minus(film.all()).is_empty()
}

fn sum_casts(film: &Film) -> u64 {
    let mut sum: u64 = 0;
    for turn in 0..TURNS * SETS {
        let set = turn % SETS;
        if lies(film, set) {
            sum = sum.wrapping_add(cast_of(film, Mask(set)).0);
        }
    }
    sum
}

fn sum_locations(film: &Film) -> u64 {
    let mut sum: u64 = 0;
    for turn in 0..TURNS * SETS {
        let set = turn % SETS;
        if lies(film, set) {
            sum = sum.wrapping_add(on(film, Mask(set)).0);
        }
    }
    sum
}

fn sum_steps(film: &Film) -> u64 {
    let mut sum: u64 = 0;
    for turn in 0..STEP_TURNS * SETS {
        let set = turn % SETS;
        if lies(film, set) {
            for scene in Mask(set).iter() {
                if scene < 64 && Mask(set).has(scene) {
                    sum = sum.wrapping_add(step(film, Mask(set), scene));
                }
            }
        }
    }
    sum
}

fn sum_ready(film: &Film) -> u64 {
    let mut sum: u64 = 0;
    for turn in 0..TURNS * SETS {
        let set = turn % SETS;
        if lies(film, set) {
            sum = sum.wrapping_add(ready(film, Mask(set)).0);
        }
    }
    sum
}
END

cat > "$calls/proofs/+walk/Answers.antt" <<'END'
use Rattle.strip_film.specs.Shown.{path_data}
use Rattle.strip_film.proofs.Paths.{rest_lies}
use Rattle.calls.proofs.+walk.Goals as goal

pub ready-next-requires : goal.ready-next-requires
ready-next-requires t c = rw c.rest.ensures (rest_lies c.args.film.now (path_data c.args.path.now) c.requires)
END

cat > "$calls/proofs/+walk/Invariants.antt" <<'END'
use Rattle.calls.proofs.+walk.Given as goal

abbrev pub decreases-walk : goal.decreases-walk
decreases-walk l = l.depth

abbrev pub invariant-loop-scene : goal.invariant-loop-scene
invariant-loop-scene l = (goal.iterator-loop-scene).can_next l.scene-iterator × (goal.iterator-loop-scene).is_finite l.scene-iterator
END

cat > "$calls/proofs/lies/Answers.antt" <<'END'
use Rattle.std.proofs.Common.{◌≡◌, ◌↔◌, length}
use Rattle.strip_mask.specs.Set.{LiesBelow}
use Rattle.strip_mask.proofs.Below.{lies_by_minus}
use Rattle.calls.proofs.lies.Goals as goal

pub returns : goal.returns
returns c =
    let none : (c.minus.result.0 ≡ 0) ↔ LiesBelow (length c.args.film.now.casts) c.args.set
        = rw (c.minus.ensures, c.all.ensures) (lies_by_minus (length c.args.film.now.casts) c.args.set) in
    (λ empty. none.0 (c.is_empty.ensures.0 empty), λ lies. c.is_empty.ensures.1 (none.1 lies))
END

cat > "$work/calls.rs" <<'END'
// The same calls in plain Rust.
use std::hint::black_box;

#[derive(Clone, Copy, PartialEq, Eq)]
struct Mask(u64);

impl Mask {
    fn has(self, i: u32) -> bool {
        self.0 >> i & 1 == 1
    }
    fn with(self, i: u32) -> Mask {
        Mask(self.0 | 1 << i)
    }
    fn without(self, i: u32) -> Mask {
        Mask(self.0 & !(1 << i))
    }
    fn union(self, other: Mask) -> Mask {
        Mask(self.0 | other.0)
    }
    fn meet(self, other: Mask) -> Mask {
        Mask(self.0 & other.0)
    }
    fn minus(self, other: Mask) -> Mask {
        Mask(self.0 & !other.0)
    }
    fn iter(self) -> MaskIter {
        MaskIter(self.0)
    }
}

struct MaskIter(u64);

impl Iterator for MaskIter {
    type Item = u32;
    fn next(&mut self) -> Option<u32> {
        if self.0 == 0 {
            return None;
        }
        let i = self.0.trailing_zeros();
        self.0 &= self.0 - 1;
        Some(i)
    }
}

struct Film {
    casts: Vec<u64>,
    days: Vec<u64>,
    rates: Vec<u64>,
    holds: Vec<u64>,
    pairs: Vec<(u16, u16)>,
    all: Mask,
    before: [u64; 64],
}

fn directly_before(pairs: &[(u16, u16)]) -> [u64; 64] {
    let mut before = [0; 64];
    for &(first, then) in pairs {
        before[then as usize] |= 1 << first;
    }
    before
}

fn sum_over(values: &[u64], m: Mask) -> u64 {
    m.iter().map(|i| values[i as usize]).sum()
}

fn cast_of(film: &Film, q: Mask) -> Mask {
    q.iter().fold(Mask(0), |cast, scene| cast.union(Mask(film.casts[scene as usize])))
}

fn on(film: &Film, q: Mask) -> Mask {
    cast_of(film, q).meet(cast_of(film, film.all.minus(q)))
}

fn step(film: &Film, q: Mask, s: u32) -> u64 {
    let cast = Mask(film.casts[s as usize]);
    let waiting = on(film, q).minus(cast);
    film.days[s as usize] * (sum_over(&film.rates, cast) + sum_over(&film.holds, waiting))
}

fn ready(film: &Film, q: Mask) -> Mask {
    if film.pairs.is_empty() {
        return q;
    }
    let mut ready = Mask(0);
    for scene in q.iter() {
        if Mask(film.before[scene as usize]).meet(q) == Mask(0) {
            ready = ready.with(scene);
        }
    }
    ready
}

#[derive(Clone, Copy)]
struct Path {
    list: [u8; 64],
    len: usize,
    rest: Mask,
    paid: u64,
}

impl Path {
    fn extend(&self, film: &Film, s: u32) -> Path {
        let mut next = *self;
        next.paid += step(film, self.rest, s);
        next.rest = self.rest.without(s);
        next.list[next.len] = s as u8;
        next.len += 1;
        next
    }
}

const SETS: u64 = 65_536;
const TURNS: u64 = 400;
const STEP_TURNS: u64 = 40;

fn walk(film: &Film, path: &Path, depth: u32) -> u64 {
    let mut sum = path.paid;
    if depth > 0 {
        let next = ready(film, path.rest);
        for scene in next.iter() {
            if scene < 64 && next.has(scene) {
                sum = sum.wrapping_add(walk(film, &path.extend(film, scene), depth - 1));
            }
        }
    }
    sum
}

fn main() {
    let pairs = vec![(0, 5), (3, 9), (5, 12)];
    let before = directly_before(&pairs);
    let film = black_box(Film {
        casts: (0..16).map(|n| (n * 40_503 + 12_345) % 65_536).collect(),
        days: (0..16).map(|n| n % 5 + 1).collect(),
        rates: (0..16).map(|n| 10 * n + 10).collect(),
        holds: (0..16).map(|n| 7 * n + 5).collect(),
        pairs,
        all: Mask(SETS - 1),
        before,
    });
    let start = Path { list: [0; 64], len: 0, rest: film.all, paid: 0 };
    let sets = |turns: u64| (0..turns * SETS).map(|turn| Mask(turn % SETS)).filter(|set| set.minus(film.all) == Mask(0));
    let sum: u64 = match std::env::args().count() {
        1 => walk(&film, &start, 7),
        2 => sets(TURNS).map(|set| cast_of(&film, set).0).fold(0, u64::wrapping_add),
        3 => sets(TURNS).map(|set| on(&film, set).0).fold(0, u64::wrapping_add),
        4 => sets(STEP_TURNS)
            .flat_map(|set| set.iter().map(move |scene| (set, scene)))
            .map(|(set, scene)| step(&film, set, scene))
            .fold(0, u64::wrapping_add),
        _ => sets(TURNS).map(|set| ready(&film, set).0).fold(0, u64::wrapping_add),
    };
    println!("{sum}");
}
END

(cd "$calls" && rt run > "$work/log" 2>&1) || { cat "$work/log"; exit 1; }
rustc -O -C target-cpu=x86-64-v2 "$work/calls.rs" -o "$work/calls_rust"

# The least of five runs in nanoseconds.
least() {
    local best=
    for _ in 1 2 3 4 5; do
        local begun ended
        begun=$(date +%s%N)
        "$@" > "$work/out"
        ended=$(date +%s%N)
        local took=$((ended - begun))
        if [ -z "$best" ] || [ "$took" -lt "$best" ]; then best=$took; fi
    done
    echo "$best"
}

compare() {
    local name=$1 count=$2
    shift 2
    local ours theirs
    ours=$(least "$calls/out/calls" "$@")
    cp "$work/out" "$work/ours"
    theirs=$(least "$work/calls_rust" "$@")
    cmp "$work/ours" "$work/out"
    printf '%-8s %6d million calls a second, plain Rust %6d, ratio %d%%\n' \
        "$name" $((count * 1000 / ours)) $((count * 1000 / theirs)) $((theirs * 100 / ours))
}

# So many walks of one to seven ready scenes there are; each goes over what ready gave.
compare extend 15119258
compare cast_of 26214400 x
compare on 26214400 x x
compare step 20971520 x x x
compare ready 26214400 x x x x
