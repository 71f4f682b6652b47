#!/usr/bin/env bash
# How long strip_reduce::reduce takes on films of 200 scenes and 64 actors, kind by kind.
# It works in a temporary folder and leaves nothing in the repository. It takes rt.
set -euo pipefail
repository=$(cd "$(dirname "$0")/.." && pwd)
work=$(mktemp -d)
trap 'rm -rf "$work"' EXIT

cp "$repository/HANDLES" "$work/"
cat > "$work/crates.txt" <<'END'
strip_io:
strip_mask:
strip_model: strip_mask
strip_film: strip_mask strip_io strip_model
strip_reduce: strip_mask strip_io strip_model strip_film
reduce_times: strip_mask strip_model strip_film strip_reduce
END
times=$work/crates/reduce_times
mkdir -p "$times/src"
for name in strip_io strip_mask strip_model strip_film strip_reduce; do
    mkdir -p "$work/crates/$name"
    cp -r "$repository/crates/$name/src" "$repository/crates/$name/specs" "$repository/crates/$name/proofs" "$work/crates/$name/"
done

cat > "$times/src/main.rt" <<'END'
//! Prints how long `reduce` takes on the largest films, a line for each kind of film.
#![tactic(auto)]

use std::alloc::Global;
use std::process::ExitCode;
use std::rt::Runtime;
use std::time::Instant;
use strip_mask::Mask;
use strip_model::{Actor, Instance, MAX_ACTORS, MAX_SCENES, Pair, Scene};
use strip_reduce::{ReduceFault, Reduced, reduce};

/// How often each film is reduced; the least time counts.
const RUNS: u64 = 40;

/// What each film should be within, in nanoseconds.
const LIMIT: u128 = 10_000_000;

#[derive(Clone, Copy)]
enum Kind {
    /// Forty different casts, at random.
    FewCasts,
    /// Two scenes have equal casts only once the actor before was dropped, who works in one scene
    /// only once the two before were joined.
    Chain,
    /// All actors but eight work in the same scenes, and no two scenes have equal casts.
    AlikeActors,
    /// 150 scenes in pairs, and one cast in the rest.
    Paired,
    /// Nearly as many pairs as there can be, and still steps that go over them: a few scenes are
    /// joined, and then all actors but nine.
    MostPairs,
    /// 64 classes with as many pairs as they can have.
    FullFilm,
}

fn main(rt: HostRuntime) -> ExitCode {
    let kinds = [
        ("few casts", Kind::FewCasts),
        ("chain", Kind::Chain),
        ("alike actors", Kind::AlikeActors),
        ("paired", Kind::Paired),
        ("most pairs", Kind::MostPairs),
        ("full film", Kind::FullFilm),
    ];
    let _ = println!(&rt;
        "{:<12} {:>6} {:>6} {:>6} {:>7} {:>5}  {:>12}",
        "film", "scenes", "actors", "pairs", "classes", "steps", "microseconds"
    );
    let mut slow: u32 = 0;
    for (name, kind) in kinds {
        match told(&rt, rt.alloc(), name, kind) {
            Some(true) => {}
            Some(false) => slow = slow.saturating_add(1),
            None => return ExitCode::from(1),
        }
    }
    if slow == 0 {
        let _ = println!(&rt; "each within 10 milliseconds");
    } else {
        let _ = println!(&rt; "not within 10 milliseconds: {slow}");
    }
    ExitCode::from(0)
}

/// Prints the line of a film, and says whether its time is within the limit. Where too many classes
/// are left, only the joins of scenes are known of the steps, and a plus stands behind them.
fn told<R: Runtime>(rt: &R, alloc: Global, name: &str, kind: Kind) -> Option<bool> {
    let inst = instance(alloc, kind)?;
    let (result, nanos) = timed(rt, alloc, &inst)?;
    let scenes = inst.scenes().len();
    let actors = inst.actors().len();
    let pairs = inst.pairs().len();
    let (classes, left, more) = match result {
        Ok(reduced) => (reduced.classes.len(), reduced.film.rates().len(), ' '),
        Err(ReduceFault::TooManyClasses { count }) => (count as usize, actors, '+'),
        Err(ReduceFault::Memory) => return None,
    };
    let steps = scenes
        .saturating_sub(classes)
        .saturating_add(actors.saturating_sub(left));
    let micros = nanos / 1000;
    let _ = println!(rt;
        "{name:<12} {scenes:>6} {actors:>6} {pairs:>6} {classes:>7} {steps:>5}{more} {micros:>12}"
    );
    Some(nanos <= LIMIT)
}

/// What `reduce` gives, and the least time that it took in nanoseconds.
fn timed<R: Runtime>(
    rt: &R,
    alloc: Global,
    inst: &Instance,
) -> Option<(Result<Reduced, ReduceFault>, u128)> {
    let (mut result, mut least) = timed_once(rt, alloc, inst)?;
    for _run in 1..RUNS {
        let (again, nanos) = timed_once(rt, alloc, inst)?;
        result = again;
        if nanos < least {
            least = nanos;
        }
    }
    Some((result, least))
}

fn timed_once<R: Runtime>(
    rt: &R,
    alloc: Global,
    inst: &Instance,
) -> Option<(Result<Reduced, ReduceFault>, u128)> {
    let begun = Instant::now(rt).ok()?;
    let result = reduce(alloc, inst);
    let took = begun.elapsed(rt).ok()?;
    Some((result, took.as_nanos()))
}

/// A film of the kind with as many scenes and actors as there may be.
fn instance(alloc: Global, kind: Kind) -> Option<Instance> {
    let mut scenes = Vec::new(alloc);
    let mut actors = Vec::new(alloc);
    for number in 0..MAX_SCENES as u32 {
        let name = format!(in alloc; "scene {number}").ok()?;
        let days = (number % 5 + 1) as u64;
        let cast = cast(kind, number);
        scenes.push(Scene { name, days, cast }).ok()?;
    }
    for number in 0..MAX_ACTORS as u32 {
        let name = format!(in alloc; "actor {number}").ok()?;
        let rate = (10 * number + 10) as u64;
        let hold = hold(kind, number);
        actors.push(Actor { name, rate, hold }).ok()?;
    }
    let inst = Instance::of(scenes, actors)?;
    let pairs = pairs(alloc, kind)?;
    if inst.fits_pairs(&pairs) {
        Some(inst.with_pairs(pairs))
    } else {
        None
    }
}

fn cast(kind: Kind, scene: u32) -> u64 {
    match kind {
        Kind::FewCasts => random(random(scene as u64) % 40),
        Kind::Chain => chain_cast(scene),
        Kind::AlikeActors => alike_cast(scene, 0),
        Kind::Paired | Kind::FullFilm => random(rest_below(scene, unpaired(kind))),
        Kind::MostPairs => alike_cast(scene, unpaired(kind)),
    }
}

/// The hold rate: 0 for the actor who is dropped first of the chain.
fn hold(kind: Kind, actor: u32) -> u64 {
    match kind {
        Kind::Chain if actor == 55 => 0,
        _ => (7 * (actor % 64) + 5) as u64,
    }
}

/// The last 56 scenes are the chain, in which each has an actor more than the one before it; the
/// others have casts of their own, of the last eight actors.
fn chain_cast(scene: u32) -> u64 {
    let others = MAX_SCENES as u32 - 56;
    if scene < others {
        return (scene as u64 + 1) << 56;
    }
    let place = (scene - others).min(55);
    let gone = Mask::below(54 - place.min(54));
    let all = if place == 55 {
        Mask::below(56)
    } else {
        Mask::below(55)
    };
    all.minus(gone).0
}

/// The scene's own cast of the first eight actors, and the others all or none. The first `same`
/// scenes have one cast.
fn alike_cast(scene: u32, same: u32) -> u64 {
    let number = rest_below(scene, same);
    let own = number % 255 + 1;
    if random(number) % 2 == 0 {
        own
    } else {
        Mask::below(64).minus(Mask::below(8)).0 | own
    }
}

/// The scene's number, where the first `same` scenes have one number.
fn rest_below(scene: u32, same: u32) -> u64 {
    scene.max(same) as u64
}

/// How many scenes stand in no pair, the first ones.
fn unpaired(kind: Kind) -> u32 {
    match kind {
        Kind::Paired => 50,
        Kind::MostPairs => 24,
        Kind::FullFilm => 137,
        _ => 200,
    }
}

/// How far a scene is from the last that it is in a pair with.
fn reach(kind: Kind) -> u32 {
    match kind {
        Kind::Paired => 40,
        _ => 200,
    }
}

/// Pairs of each scene that stands in any with those behind it, as far as they reach.
fn pairs(alloc: Global, kind: Kind) -> Option<Vec<Pair>> {
    let mut pairs = Vec::new(alloc);
    for first in unpaired(kind)..MAX_SCENES as u32 {
        add_pairs(&mut pairs, first, reach(kind))?;
    }
    Some(pairs)
}

fn add_pairs(pairs: &mut Vec<Pair>, first: u32, reach: u32) -> Option<()> {
    for then in first.saturating_add(1)..MAX_SCENES as u32 {
        if then.saturating_sub(first) <= reach {
            let pair = Pair {
                first: first as u16,
                then: then as u16,
            };
            pairs.push(pair).ok()?;
        }
    }
    Some(())
}

/// A number that looks random, by the mixing of SplitMix64.
fn random(seed: u64) -> u64 {
    let begun = seed.wrapping_add(1).wrapping_mul(0x9E37_79B9_7F4A_7C15);
    let once = (begun ^ (begun >> 30)).wrapping_mul(0xBF58_476D_1CE4_E5B9);
    let twice = (once ^ (once >> 27)).wrapping_mul(0x94D0_49BB_1331_11EB);
    twice ^ (twice >> 31)
}
END

(cd "$times" && rt run > "$work/log" 2>&1) || { cat "$work/log"; exit 1; }
"$times/out/reduce_times"
