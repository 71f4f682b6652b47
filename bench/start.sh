#!/usr/bin/env bash
# How long strip_start's greedy and improve take on random films, with and without pairs, and how many tries a second
# vary makes, beside the same steps in plain Rust (varied.rs).
# It works in a temporary folder and leaves nothing in the repository. It takes rt and rustc.
set -euo pipefail
repository=$(cd "$(dirname "$0")/.." && pwd)
work=$(mktemp -d)
trap 'rm -rf "$work"' EXIT

cp "$repository/HANDLES" "$work/"
cat > "$work/crates.txt" <<'END'
strip_io:
strip_mask:
strip_model: strip_mask
strip_film: strip_mask strip_io strip_model
strip_start: strip_mask strip_model strip_film rand_core rand_pcg
start_times: strip_mask strip_model strip_film strip_start
END
times=$work/crates/start_times
mkdir -p "$times/src" "$times/proofs/by_number" "$times/proofs/longer" "$times/proofs/settled"
for name in strip_io strip_mask strip_model strip_film strip_start; do
    mkdir -p "$work/crates/$name"
    cp -r "$repository/crates/$name/src" "$repository/crates/$name/specs" "$repository/crates/$name/proofs" "$work/crates/$name/"
done

cat > "$times/src/main.rt" <<'END'
//! Prints how long a search takes to find the order that it begins with, three lines for each film.
#![tactic(auto)]
ghost use Rattle.std.specs.Prelude.{◌≡◌, ◌≤◌, IfSome};
ghost use Rattle.strip_film.specs.Path.{IsComplete, IsPath};
ghost use Rattle.strip_film.specs.Shown.{path_data};

use std::alloc::Global;
use std::process::ExitCode;
use std::rt::Runtime;
use std::time::Instant;
use strip_film::{Film, Path, laws, ready};
use strip_model::Pair;
use strip_start::{greedy, improve, vary};

/// How often each call is timed; the least time counts.
const RUNS: u64 = 5;

/// What greedy and improve together should be within, in nanoseconds.
const LIMIT: u128 = 20_000_000;

/// How many tries are timed, and on films of how many scenes and actors.
const TRIES: u32 = 300_000;
const VARIED: [(u64, u64); 4] = [(24, 12), (24, 24), (64, 24), (64, 48)];

/// How many scenes, actors and pairs a film has.
#[derive(Clone, Copy)]
struct Size {
    scenes: u64,
    actors: u64,
    pairs: u64,
}

fn main(rt: HostRuntime) -> ExitCode {
    let _ = println!(&rt;
        "{:>6} {:>6} {:>5}  {:<8} {:>12} {:>12}  {}",
        "scenes", "actors", "pairs", "from", "improve, ms", "greedy, ms", "moves"
    );
    let mut slow: u32 = 0;
    for scenes in [24, 40, 64] {
        for actors in [16, 32, 64] {
            for pairs in [0, scenes / 2] {
                match told(&rt, rt.alloc(), Size { scenes, actors, pairs }) {
                    Some(true) => {}
                    Some(false) => slow = slow.saturating_add(1),
                    None => return ExitCode::from(1),
                }
            }
        }
    }
    for (scenes, actors) in VARIED {
        let size = Size { scenes, actors, pairs: 0 };
        if tell_tries(&rt, rt.alloc(), size).is_none() {
            return ExitCode::from(1);
        }
    }
    if slow == 0 {
        let _ = println!(&rt; "each within 20 milliseconds");
    } else {
        let _ = println!(&rt; "not within 20 milliseconds: {slow}");
    }
    ExitCode::from(0)
}

/// Prints the lines of a film, improved from the greedy order, from the order of the scenes' numbers, and
/// from one that no move is better than, and says whether the times are within the limit.
fn told<R: Runtime>(rt: &R, alloc: Global, size: Size) -> Option<bool> {
    let film = film(alloc, size)?;
    let begun = greedy(&film);
    let greedy = greedy_time(rt, &film)?;
    let first = improve_time(rt, &film, &begun)?;
    line(rt, size, "greedy", first, Some(greedy), is_cut_off(&film, &begun));
    let numbers = by_number(&film)?;
    let second = improve_time(rt, &film, &numbers)?;
    line(rt, size, "numbers", second, None, is_cut_off(&film, &numbers));
    let best = settled(&film, &begun);
    let third = improve_time(rt, &film, &best)?;
    line(rt, size, "best", third, None, is_cut_off(&film, &best));
    Some(greedy.saturating_add(first) <= LIMIT && second <= LIMIT)
}

fn line<R: Runtime>(
    rt: &R,
    size: Size,
    from: &str,
    nanos: u128,
    greedy: Option<u128>,
    cut_off: bool,
) {
    let _ = print!(rt;
        "{:>6} {:>6} {:>5}  {from:<8} {:>8}.{:03} ",
        size.scenes, size.actors, size.pairs, nanos / 1_000_000, nanos / 1000 % 1000
    );
    match greedy {
        Some(nanos) => {
            let _ = print!(rt; "{:>8}.{:03}", nanos / 1_000_000, nanos / 1000 % 1000);
        }
        None => {
            let _ = print!(rt; "{:>12}", "");
        }
    }
    let _ = println!(rt; "  {}", if cut_off { "64" } else { "fewer" });
}

/// Prints how many tries a second are made on a film, in thousands, and what its order then costs.
fn tell_tries<R: Runtime>(rt: &R, alloc: Global, size: Size) -> Option<()> {
    let film = film(alloc, size)?;
    let begun = improve(&film, &greedy(&film));
    let mut least = u128::MAX;
    let mut paid = 0;
    for _run in 0..RUNS {
        let start = Instant::now(rt).ok()?;
        let best = vary(&film, &begun, TRIES);
        let took = start.elapsed(rt).ok()?.as_nanos();
        paid = best.paid();
        least = least.min(took);
    }
    let thousands = u128::from(TRIES).saturating_mul(1_000_000).checked_div(least)?;
    let Size { scenes, actors, .. } = size;
    let _ = println!(rt; "{scenes} scenes, {actors} actors: {thousands} thousand tries a second, cost {paid}");
    Some(())
}

/// The path improved so often that no move is better in the films here: where that holds, its own
/// improvement tries each move once and takes none.
fn settled(film: &Film, path: &Path) -> Path
    requires { IsComplete film.now (path_data path.now) }
    ensures { IsComplete film.now (path_data result) }
{
    let mut best = *path;
    for _turn in 0..64 {
        best = improve(film, &best);
    }
    best
}

/// Whether as many moves were taken as there may be: what comes of them can be improved again.
fn is_cut_off(film: &Film, path: &Path) -> bool
    requires { IsComplete film.now (path_data path.now) }
{
    let once = improve(film, path);
    improve(film, &once).paid() < once.paid()
}

fn greedy_time<R: Runtime>(rt: &R, film: &Film) -> Option<u128> {
    let mut least = u128::MAX;
    for _run in 0..RUNS {
        let begun = Instant::now(rt).ok()?;
        let path = greedy(film);
        let took = begun.elapsed(rt).ok()?.as_nanos();
        if path.rest().is_empty() {
            least = least.min(took);
        }
    }
    Some(least)
}

fn improve_time<R: Runtime>(rt: &R, film: &Film, path: &Path) -> Option<u128>
    requires { IsComplete film.now (path_data path.now) }
{
    let mut least = u128::MAX;
    for _run in 0..RUNS {
        let begun = Instant::now(rt).ok()?;
        let better = improve(film, path);
        let took = begun.elapsed(rt).ok()?.as_nanos();
        if better.paid() <= path.paid() {
            least = least.min(took);
        }
    }
    Some(least)
}

/// The path along the scenes in the order of their numbers, where that keeps the pairs.
fn by_number(film: &Film) -> Option<Path>
    ensures { IfSome result (λ path. IsComplete film.now (path_data path)) }
{
    film.keeps_limits();
    let mut path = Path::start(film);
    for scene in 0..film.scenes() as u32 {
        path = longer(film, &path, scene)?;
    }
    if path.rest().is_empty() {
        Some(path)
    } else {
        None
    }
}

fn longer(film: &Film, path: &Path, scene: u32) -> Option<Path>
    requires { IsPath film.now (path_data path.now) }
    ensures { IfSome result (λ next. IsPath film.now (path_data next)) }
{
    laws::what_remains_lies_in_the_film();
    if scene >= 64 || !ready(film, path.rest()).has(scene) {
        return None;
    }
    Some(path.extend(film, scene))
}

/// A film whose scenes have a third of the actors each, at random, and one to five days.
fn film(alloc: Global, size: Size) -> Option<Film> {
    let mut casts = Vec::new(alloc);
    let mut days = Vec::new(alloc);
    let mut rates = Vec::new(alloc);
    let mut holds = Vec::new(alloc);
    for scene in 0..size.scenes {
        casts.push(cast(scene, size.actors)).ok()?;
        days.push(random(scene) % 5 + 1).ok()?;
    }
    for actor in 0..size.actors {
        let rate = random(actor.wrapping_add(1000)) % 1_000_000 + 1;
        rates.push(rate).ok()?;
        holds.push(rate / 2 + 1).ok()?;
    }
    Film::of(casts, days, rates, holds, pairs(alloc, size)?)
}

fn cast(scene: u64, actors: u64) -> u64 {
    let mut cast = 0;
    for actor in 0..actors.min(64) {
        if random(scene.wrapping_mul(64).wrapping_add(actor)) % 3 == 0 {
            cast |= 1 << actor;
        }
    }
    cast
}

/// Each of so many scenes before a later one.
fn pairs(alloc: Global, size: Size) -> Option<Vec<Pair>> {
    let mut pairs = Vec::new(alloc);
    for first in 0..size.pairs.min(32) {
        let then = first + 1 + random(first.wrapping_add(2000)) % 31;
        if then < size.scenes {
            let pair = Pair {
                first: first as u16,
                then: then as u16,
            };
            pairs.push(pair).ok()?;
        }
    }
    Some(pairs)
}

/// A number that looks random, by the mixing of SplitMix64.
fn random(seed: u64) -> u64 {
    let begun = seed.wrapping_add(1).wrapping_mul(0x9E37_79B9_7F4A_7C15);
    let once = (begun ^ (begun >> 30)).wrapping_mul(0xBF58_476D_1CE4_E5B9);
    let twice = (once ^ (once >> 27)).wrapping_mul(0x94D0_49BB_1331_11EB);
    twice ^ (twice >> 31)
}
END

cat > "$times/proofs/by_number/Invariants.antt" <<'END'
use Rattle.strip_film.specs.Path.{IsPath}
use Rattle.strip_film.specs.Shown.{path_data}
use Rattle.start_times.proofs.by_number.Given as goal

abbrev pub invariant-loop-scene : goal.invariant-loop-scene
invariant-loop-scene l = IsPath l.film (path_data l.path)
END

cat > "$times/proofs/settled/Invariants.antt" <<'END'
use Rattle.strip_film.specs.Path.{IsComplete}
use Rattle.strip_film.specs.Shown.{path_data}
use Rattle.start_times.proofs.settled.Given as goal

abbrev pub invariant-loop-turn : goal.invariant-loop-turn
invariant-loop-turn l = IsComplete l.film (path_data l.best)
END

cat > "$times/proofs/longer/Answers.antt" <<'END'
use Rattle.std.proofs.Common.{sym, subst}
use Rattle.strip_film.specs.Film.{LiesIn}
use Rattle.strip_film.specs.Shown.{path_data}
use Rattle.start_times.proofs.longer.Goals as goal

pub ready-requires : goal.ready-requires
ready-requires c = subst (LiesIn c.args.film.now) (sym c.rest.ensures) (c.what_remains_lies_in_the_film.ensures c.args.film.now (path_data c.args.path.now) c.requires)
END

(cd "$times" && rt run > "$work/log" 2>&1) || { cat "$work/log"; exit 1; }
"$times/out/start_times"

echo 'the same in plain Rust:'
rustc -O -C target-cpu=x86-64-v3 -o "$work/varied" "$repository/bench/varied.rs"
for size in '24 12' '24 24' '64 24' '64 48'; do
    "$work/varied" times $size 300000
done
