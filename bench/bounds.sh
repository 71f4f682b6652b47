#!/usr/bin/env bash
# Calls per second of the bounds, the exchange rule and the running state: the proved crates, and the same in plain Rust,
# on films of 16, 24 and 40 scenes with 12 actors. It works in a temporary folder and leaves nothing in the repository.
# It takes rt and rustc. With a word it keeps the folder of that name, so that a second run proves less.
set -euo pipefail
repository=$(cd "$(dirname "$0")/.." && pwd)
if [ $# -gt 0 ]; then
    work=$1
    mkdir -p "$work"
else
    work=$(mktemp -d)
    trap 'rm -rf "$work"' EXIT
fi

cp "$repository/HANDLES" "$work/"
crates="strip_io strip_mask strip_model strip_film strip_rule strip_group strip_bound"
grep -E "^(${crates// /|}):" "$repository/crates.txt" > "$work/crates.txt"
echo "calls: strip_io strip_mask strip_model strip_film strip_rule strip_group strip_bound" >> "$work/crates.txt"
calls=$work/crates/calls
mkdir -p "$calls/src" "$calls/proofs"
for name in $crates; do
    mkdir -p "$work/crates/$name"
    cp -r "$repository/crates/$name/src" "$repository/crates/$name/specs" "$repository/crates/$name/proofs" "$work/crates/$name/"
done

cat > "$calls/src/main.rt" <<'END'
//! Prints the sum of what calls on a film gave: one job for each word, and each five jobs a larger film.
#![tactic(auto)]
ghost use Rattle.std.specs.Prelude.{◌≡◌, ◌≤◌, ℕ, length, IsTrue};
ghost use Rattle.strip_mask.specs.Set.{LiesBelow, full, size};
ghost use Rattle.strip_film.specs.Film.{LiesIn};
ghost use Rattle.strip_film.specs.Running.{IsRunning};
ghost use Rattle.strip_film.specs.Shown.{running_data};
ghost use Rattle.strip_bound.specs.Bounds.{group_data};
ghost use Rattle.strip_bound.specs.Tables.{AreTables};

use std::alloc::Global;
use std::env;
use std::process::ExitCode;
use std::rt::Env;
use strip_bound::{BoundTables, groups, pairs};
use strip_film::{Film, Path, Running, laws, ready};
use strip_group::GroupTable;
use strip_io::Memory;
use strip_mask::Mask;
use strip_rule::open_firsts;

const TURNS: u64 = 2_000_000;

fn main(rt: HostRuntime) -> ExitCode {
    let words = match env::args(&rt) {
        Ok(words) => words.count(),
        Err(_) => 0,
    };
    match job(rt.alloc(), words) {
        Ok(sum) => {
            let _ = println!(&rt; "{sum}");
            ExitCode::from(0)
        }
        Err(Memory) => ExitCode::from(1),
    }
}

fn job(alloc: Global, words: usize) -> Result<u64, Memory> {
    let scenes = if words <= 5 {
        16
    } else if words <= 10 {
        24
    } else {
        40
    };
    match film(alloc, scenes)? {
        Some(film) => run(alloc, &film, words % 5),
        None => Ok(0),
    }
}

fn film(alloc: Global, scenes: u64) -> Result<Option<Film>, Memory>
    requires { scenes ≤ 64 }
{
    let mut casts = Vec::new(alloc);
    let mut days = Vec::new(alloc);
    let mut rates = Vec::new(alloc);
    let mut holds = Vec::new(alloc);
    for number in 0..scenes {
        let mixed = (number + 1) * 2_654_435_761 / 64;
        casts.push(mixed % 4096 & mixed / 4096 % 4096 | 1 << (number % 12))?;
        days.push(number % 5 + 1)?;
    }
    for number in 0..12u64 {
        rates.push(10 * number + 10)?;
        holds.push(7 * number + 5)?;
    }
    Ok(Film::of(casts, days, rates, holds, Vec::new(alloc)))
}

fn run(alloc: Global, film: &Film, kind: usize) -> Result<u64, Memory> {
    film.keeps_limits();
    match kind {
        1 => {
            let table = GroupTable::of(alloc, film.casts(), film.days(), film.holds())?;
            Ok(sum_extras(film, &table))
        }
        2 => Ok(sum_pairs(film, &BoundTables::of(alloc, film)?)),
        3 => Ok(sum_groups(film, &BoundTables::of(alloc, film)?)),
        4 => Ok(sum_firsts(film)),
        _ => Ok(sum_moves(film)),
    }
}

fn next(mixed: u64) -> u64 {
    mixed
        .wrapping_mul(6_364_136_223_846_793_005)
        .wrapping_add(1_442_695_040_888_963_407)
}

fn lies(film: &Film, set: Mask) -> bool
    ensures { IsTrue result → LiesIn film.now set.0 }
{
    set.minus(film.all()).is_empty()
}

fn is_group(group: Mask, actors: Mask) -> bool
    ensures { (count : ℕ) → actors.0 ≡ full count → IsTrue result → (size group.0 ≤ 6) × LiesBelow count group.0 }
{
    group.size() <= 6 && group.minus(actors).is_empty()
}

fn sum_extras(film: &Film, table: &GroupTable) -> u64
    requires { table.now ≡ group_data film.now }
{
    film.keeps_limits();
    let actors = Mask::below(film.holds().len() as u32);
    let mut sum: u64 = 0;
    let mut mixed: u64 = 1;
    for turn in 0..TURNS {
        mixed = next(mixed);
        let set = Mask(mixed >> 20).meet(film.all());
        let group = Mask(63 << (turn % 7));
        if lies(film, set) && is_group(group, actors) {
            sum = sum.wrapping_add(table.extra(group, set));
        }
    }
    sum
}

fn sum_pairs(film: &Film, tables: &BoundTables) -> u64
    requires { AreTables film.now tables.now }
{
    let mut sum: u64 = 0;
    let mut mixed: u64 = 1;
    for _turn in 0..TURNS {
        mixed = next(mixed);
        let set = Mask(mixed >> 20).meet(film.all());
        if lies(film, set) {
            sum = sum.wrapping_add(pairs(film, tables, set));
        }
    }
    sum
}

fn sum_groups(film: &Film, tables: &BoundTables) -> u64
    requires { AreTables film.now tables.now }
{
    let mut sum: u64 = 0;
    let mut mixed: u64 = 1;
    for _turn in 0..TURNS {
        mixed = next(mixed);
        let set = Mask(mixed >> 20).meet(film.all());
        if lies(film, set) {
            sum = sum.wrapping_add(groups(film, tables, set));
        }
    }
    sum
}

fn sum_firsts(film: &Film) -> u64 {
    let mut sum: u64 = 0;
    let mut mixed: u64 = 1;
    for _turn in 0..TURNS {
        mixed = next(mixed);
        let set = Mask(mixed >> 20).meet(film.all());
        if lies(film, set) {
            sum = sum.wrapping_add(open_firsts(film, set).0);
        }
    }
    sum
}

fn sum_moves(film: &Film) -> u64 {
    let mut state = Running::of(film, &Path::start(film));
    let mut sum: u64 = 0;
    let mut mixed: u64 = 1;
    for _turn in 0..TURNS {
        mixed = next(mixed);
        if mixed >> 63 == 0 {
            take_some(&mut state, film, mixed >> 40);
        } else {
            take_back(&mut state, film);
        }
        sum = sum.wrapping_add(state.paid());
    }
    sum
}

// A ready scene of a set, or the first.
fn take_some(state: &mut Running, film: &Film, set: u64)
    requires { IsRunning film.now (running_data state.old) }
    ensures { IsRunning film.now (running_data state.new) }
{
    laws::what_remains_lies_in_the_film();
    let firsts = ready(film, state.rest());
    let scene = Mask(set).meet(firsts).first().or(firsts.first()).unwrap_or(64);
    if scene < 64 && firsts.has(scene) {
        state.take(film, scene);
    }
}

fn take_back(state: &mut Running, film: &Film)
    requires { IsRunning film.now (running_data state.old) }
    ensures { IsRunning film.now (running_data state.new) }
{
    if !state.path().scenes().is_empty() {
        state.back(film);
    }
}
END

mkdir -p "$calls/proofs/lies" "$calls/proofs/is_group" "$calls/proofs/sum_moves" "$calls/proofs/take_some"
cat > "$calls/proofs/lies/Answers.antt" <<'END'
use Rattle.std.proofs.Common.{◌≡◌, ◌↔◌, length}
use Rattle.strip_mask.specs.Set.{LiesBelow}
use Rattle.strip_mask.proofs.Below.{lies_by_minus}
use Rattle.calls.proofs.lies.Goals as goal

pub returns : goal.returns
returns c =
    let none : (c.minus.result.0 ≡ 0) ↔ LiesBelow (length c.args.film.now.casts) c.args.set.0
        = rw (c.minus.ensures, c.all.ensures) (lies_by_minus (length c.args.film.now.casts) c.args.set.0) in
    λ empty. none.0 (c.is_empty.ensures.0 empty)
END

cat > "$calls/proofs/is_group/Answers.antt" <<'END'
use Rattle.std.proofs.Common.{◌≡◌, ◌∙◌, ℕ, ap, arith, sym}
use Rattle.strip_mask.specs.Set.{minus}
use Rattle.strip_mask.proofs.Below.{lies_by_minus}
use Rattle.calls.proofs.is_group.Goals as goal

pub returns-then-size-le6 : goal.returns-then-size-le6
returns-then-size-le6 c = λ count all empty. (
  omega (arith, c.if-size-le6.true, c.size.ensures),
  (lies_by_minus count c.args.group.0).0 (sym (c.minus.ensures ∙ ap (minus c.args.group.0) all) ∙ c.is_empty.ensures.0 empty),
)
END

cat > "$calls/proofs/sum_moves/Invariants.antt" <<'END'
use Rattle.strip_film.specs.Running.{IsRunning}
use Rattle.strip_film.specs.Shown.{running_data}
use Rattle.calls.proofs.sum_moves.Given as goal

abbrev pub invariant-loop-turn : goal.invariant-loop-turn
invariant-loop-turn l = record { running : IsRunning l.film (running_data l.state) }
END

cat > "$calls/proofs/take_some/Answers.antt" <<'END'
use Rattle.std.proofs.Common.{sym, subst}
use Rattle.strip_film.specs.Film.{LiesIn}
use Rattle.strip_film.specs.Shown.{running_data}
use Rattle.calls.proofs.take_some.Goals as goal

pub ready-firsts-requires : goal.ready-firsts-requires
ready-firsts-requires c = subst (LiesIn c.args.film.now) (sym c.rest.ensures) (c.what_remains_lies_in_the_film.ensures c.args.film.now (running_data c.args.state.now).path c.requires.path)
END

cat > "$work/calls.rs" <<'END'
// The same calls in plain Rust.
use std::arch::x86_64::*;
use std::hint::black_box;

#[derive(Clone, Copy, PartialEq, Eq)]
struct Mask(u64);

impl Mask {
    fn has(self, i: u32) -> bool {
        self.0 >> i & 1 == 1
    }
    fn with(self, i: u32) -> Mask {
        Mask(self.0 | 1 << i)
    }
    fn without(self, i: u32) -> Mask {
        Mask(self.0 & !(1 << i))
    }
    fn union(self, other: Mask) -> Mask {
        Mask(self.0 | other.0)
    }
    fn meet(self, other: Mask) -> Mask {
        Mask(self.0 & other.0)
    }
    fn minus(self, other: Mask) -> Mask {
        Mask(self.0 & !other.0)
    }
    fn is_empty(self) -> bool {
        self.0 == 0
    }
    fn size(self) -> u32 {
        self.0.count_ones()
    }
    fn first(self) -> Option<u32> {
        (self.0 != 0).then(|| self.0.trailing_zeros())
    }
    fn iter(self) -> MaskIter {
        MaskIter(self.0)
    }
}

struct MaskIter(u64);

impl Iterator for MaskIter {
    type Item = u32;
    fn next(&mut self) -> Option<u32> {
        if self.0 == 0 {
            return None;
        }
        let i = self.0.trailing_zeros();
        self.0 &= self.0 - 1;
        Some(i)
    }
}

fn sum_over(values: &[u64], m: Mask) -> u64 {
    m.iter().map(|i| values[i as usize]).sum()
}

struct Film {
    casts: Vec<u64>,
    days: Vec<u64>,
    rates: Vec<u64>,
    holds: Vec<u64>,
    all: Mask,
}

fn film(scenes: u64) -> Film {
    let cast = |number: u64| {
        let mixed = (number + 1) * 2_654_435_761 / 64;
        mixed % 4096 & mixed / 4096 % 4096 | 1 << (number % 12)
    };
    Film {
        casts: (0..scenes).map(cast).collect(),
        days: (0..scenes).map(|n| n % 5 + 1).collect(),
        rates: (0..12).map(|n| 10 * n + 10).collect(),
        holds: (0..12).map(|n| 7 * n + 5).collect(),
        all: Mask((1 << scenes) - 1),
    }
}

fn cast_of(film: &Film, q: Mask) -> Mask {
    q.iter().fold(Mask(0), |cast, scene| cast.union(Mask(film.casts[scene as usize])))
}

fn on(film: &Film, q: Mask) -> Mask {
    cast_of(film, q).meet(cast_of(film, film.all.minus(q)))
}

// ---- the extra of a group

struct DaySums(Vec<[u16; 4096]>);

fn block(set: Mask, number: usize) -> Mask {
    Mask(set.0 >> (12 * number) & 4095)
}

impl DaySums {
    fn of(days: &[u64]) -> DaySums {
        let table = |first: usize| {
            let mut table = [0; 4096];
            for set in 1..4096usize {
                let day = days.get(first + set.trailing_zeros() as usize).copied().unwrap_or(0);
                table[set] = table[set & (set - 1)] + day as u16;
            }
            table
        };
        DaySums((0..days.len().div_ceil(12)).map(|number| table(12 * number)).collect())
    }
    fn sum(&self, set: Mask) -> u64 {
        self.0.iter().enumerate().map(|(number, table)| table[block(set, number).0 as usize] as u64).sum()
    }
}

struct Places {
    stays: [u64; 6],
    rates: [u64; 6],
}

trait BySet: Copy {
    const PLACES: usize;
    fn none() -> Self;
    fn with_days(self, table: &[u16; 4096], scenes: u64, stays: &[u64; 6]) -> Self;
    fn or_after(self, others: Self, days: Self, rate: u64) -> Self;
    fn saved(self, days: Self, rates: &[u64; 6]) -> Self;
    fn paid_alone(self, rates: &[u64; 6]) -> u64;
    fn first(self) -> u64;
    fn last(self) -> u64;
}

#[derive(Clone, Copy)]
struct Four(__m128i);

fn or_paid(alone: __m128i, others: __m128i, days: __m128i, rates: __m128i) -> __m128i {
    unsafe { _mm_max_epu32(alone, _mm_add_epi32(others, _mm_mullo_epi32(rates, days))) }
}

impl BySet for Four {
    const PLACES: usize = 2;
    #[inline(always)]
    fn none() -> Four {
        unsafe { Four(_mm_setzero_si128()) }
    }
    #[inline(always)]
    fn with_days(self, table: &[u16; 4096], scenes: u64, stays: &[u64; 6]) -> Four {
        let at = |set: u64| table[(set & 4095) as usize] as i16;
        let (first, second) = (scenes & stays[0], scenes & stays[1]);
        unsafe {
            let days = _mm_set_epi16(0, 0, 0, 0, at(second & stays[0]), at(second), at(first), at(scenes));
            Four(_mm_add_epi32(self.0, _mm_cvtepu16_epi32(days)))
        }
    }
    #[inline(always)]
    fn or_after(self, others: Four, days: Four, rate: u64) -> Four {
        unsafe { Four(or_paid(self.0, others.0, days.0, _mm_set1_epi32(rate as i32))) }
    }
    #[inline(always)]
    fn saved(self, days: Four, rates: &[u64; 6]) -> Four {
        let (first, second) = (rates[0] as i32, rates[1] as i32);
        unsafe {
            let by_first = _mm_set_epi32(first, 0, first, 0);
            let by_second = _mm_set_epi32(second, second, 0, 0);
            let saved = or_paid(self.0, _mm_shuffle_epi32(self.0, 0b10_10_00_00), days.0, by_first);
            let saved = or_paid(saved, _mm_shuffle_epi32(saved, 0b01_00_01_00), days.0, by_second);
            Four(or_paid(saved, _mm_shuffle_epi32(saved, 0b10_10_00_00), days.0, by_first))
        }
    }
    #[inline(always)]
    fn paid_alone(self, rates: &[u64; 6]) -> u64 {
        unsafe { rates[0] * _mm_extract_epi32(self.0, 1) as u32 as u64 + rates[1] * _mm_extract_epi32(self.0, 2) as u32 as u64 }
    }
    #[inline(always)]
    fn first(self) -> u64 {
        unsafe { _mm_extract_epi32(self.0, 0) as u32 as u64 }
    }
    #[inline(always)]
    fn last(self) -> u64 {
        unsafe { _mm_extract_epi32(self.0, 3) as u32 as u64 }
    }
}

#[derive(Clone, Copy)]
struct Halves<T> {
    without: T,
    with: T,
}

impl<T: BySet> BySet for Halves<T> {
    const PLACES: usize = T::PLACES + 1;
    #[inline(always)]
    fn none() -> Self {
        Halves { without: T::none(), with: T::none() }
    }
    #[inline(always)]
    fn with_days(self, table: &[u16; 4096], scenes: u64, stays: &[u64; 6]) -> Self {
        Halves {
            without: self.without.with_days(table, scenes, stays),
            with: self.with.with_days(table, scenes & stays[T::PLACES], stays),
        }
    }
    #[inline(always)]
    fn or_after(self, others: Self, days: Self, rate: u64) -> Self {
        Halves {
            without: self.without.or_after(others.without, days.without, rate),
            with: self.with.or_after(others.with, days.with, rate),
        }
    }
    #[inline(always)]
    fn saved(self, days: Self, rates: &[u64; 6]) -> Self {
        let without = self.without.saved(days.without, rates);
        let with = self.with.or_after(without, days.with, rates[T::PLACES]).saved(days.with, rates);
        Halves { without, with }
    }
    #[inline(always)]
    fn paid_alone(self, rates: &[u64; 6]) -> u64 {
        self.without.paid_alone(rates) + rates[T::PLACES] * self.with.first()
    }
    #[inline(always)]
    fn first(self) -> u64 {
        self.without.first()
    }
    #[inline(always)]
    fn last(self) -> u64 {
        self.with.last()
    }
}

type Six = Halves<Halves<Halves<Halves<Four>>>>;

struct Tables {
    weights: Vec<u64>,
    plays: Vec<u64>,
    stays: Vec<u64>,
    sums: DaySums,
}

fn tables(film: &Film) -> Tables {
    let plays = |actor: u32| (0..film.casts.len()).fold(0, |set, scene| set | (film.casts[scene] >> actor & 1) << scene);
    Tables {
        weights: film.casts.iter().zip(&film.days).map(|(cast, day)| day * sum_over(&film.rates, Mask(*cast))).collect(),
        plays: (0..12).map(plays).collect(),
        stays: (0..12).map(|actor| !plays(actor)).collect(),
        sums: DaySums::of(&film.days),
    }
}

#[inline(never)]
fn extra(film: &Film, tables: &Tables, group: Mask, q: Mask) -> u64 {
    let mut places = Places { stays: [u64::MAX; 6], rates: [0; 6] };
    for (place, actor) in group.iter().enumerate() {
        places.stays[place] = tables.stays[actor as usize];
        places.rates[place] = film.holds[actor as usize];
    }
    let mut days = Six::none();
    for (number, table) in tables.sums.0.iter().enumerate() {
        days = days.with_days(table, block(q, number).0, &places.stays.map(|set| block(Mask(set), number).0));
    }
    days.paid_alone(&places.rates) - Six::none().saved(days, &places.rates).last()
}

fn pair_extra(film: &Film, tables: &Tables, q: Mask, a: u32, b: u32) -> u64 {
    let of_a = Mask(tables.plays[a as usize]).meet(q);
    let of_b = Mask(tables.plays[b as usize]).meet(q);
    let a_waits = film.holds[a as usize] * tables.sums.sum(of_b.minus(of_a));
    let b_waits = film.holds[b as usize] * tables.sums.sum(of_a.minus(of_b));
    a_waits.min(b_waits)
}

#[inline(never)]
fn pairs(film: &Film, tables: &Tables, q: Mask) -> u64 {
    let mut left = on(film, q);
    let mut sum = sum_over(&tables.weights, q);
    while let (Some(a), 2..) = (left.first(), left.size()) {
        let rest = left.without(a);
        let b = rest.0.trailing_zeros();
        sum += pair_extra(film, tables, q, a, b);
        left = rest.without(b);
    }
    sum
}

#[inline(never)]
fn groups(film: &Film, tables: &Tables, q: Mask) -> u64 {
    let mut left = on(film, q);
    let mut sum = sum_over(&tables.weights, q);
    while !left.is_empty() {
        let group = left.iter().take(6).fold(Mask(0), Mask::with);
        sum += extra(film, tables, group, q);
        left = left.minus(group);
    }
    sum
}

// ---- the exchange rule

fn fits_before(film: &Film, on: Mask, t: u32, s: u32) -> bool {
    let (first, second) = (Mask(film.casts[t as usize]), Mask(film.casts[s as usize]));
    on.minus(first).is_empty() && first.minus(on.union(second)).is_empty()
}

fn goes_before(film: &Film, on: Mask, t: u32, s: u32) -> bool {
    t != s && fits_before(film, on, t, s) && (t < s || !fits_before(film, on, s, t))
}

#[inline(never)]
fn open_firsts(film: &Film, q: Mask) -> Mask {
    let on = on(film, q);
    let mut holders = Mask(0);
    for scene in q.iter() {
        if on.minus(Mask(film.casts[scene as usize])).is_empty() {
            holders = holders.with(scene);
        }
    }
    if holders.is_empty() {
        return q;
    }
    let mut open = Mask(0);
    for scene in q.iter() {
        if !holders.iter().any(|first| goes_before(film, on, first, scene)) {
            open = open.with(scene);
        }
    }
    open
}

// ---- the running state

struct Running {
    list: [u8; 64],
    len: usize,
    rest: Mask,
    paid: u64,
    done: [u8; 64],
    left: [u8; 64],
    on: Mask,
    before: [u64; 64],
}

fn move_counts(from: &mut [u8; 64], to: &mut [u8; 64], cast: Mask) {
    for actor in cast.iter() {
        from[actor as usize] -= 1;
        to[actor as usize] += 1;
    }
}

fn without_scenes(counts: &[u8; 64], cast: Mask) -> Mask {
    cast.iter().filter(|&actor| counts[actor as usize] == 0).fold(Mask(0), Mask::with)
}

impl Running {
    fn start(film: &Film) -> Running {
        let mut left = [0; 64];
        for actor in 0..12u32 {
            left[actor as usize] = film.casts.iter().filter(|&&cast| Mask(cast).has(actor)).count() as u8;
        }
        Running { list: [0; 64], len: 0, rest: film.all, paid: 0, done: [0; 64], left, on: Mask(0), before: [0; 64] }
    }
    fn take(&mut self, film: &Film, s: u32) {
        let cast = Mask(film.casts[s as usize]);
        let step = film.days[s as usize] * (sum_over(&film.rates, cast) + sum_over(&film.holds, self.on.minus(cast)));
        self.before[self.len] = self.paid;
        self.list[self.len] = s as u8;
        self.len += 1;
        self.rest = self.rest.without(s);
        self.paid += step;
        move_counts(&mut self.left, &mut self.done, cast);
        self.on = self.on.union(cast).minus(without_scenes(&self.left, cast));
    }
    fn back(&mut self, film: &Film) {
        self.len -= 1;
        let s = self.list[self.len] as u32;
        self.list[self.len] = 0;
        self.rest = self.rest.with(s);
        self.paid = self.before[self.len];
        let cast = Mask(film.casts[s as usize]);
        move_counts(&mut self.done, &mut self.left, cast);
        self.on = self.on.union(cast).minus(without_scenes(&self.done, cast));
    }
}

const TURNS: u64 = 2_000_000;

fn next(mixed: u64) -> u64 {
    mixed.wrapping_mul(6_364_136_223_846_793_005).wrapping_add(1_442_695_040_888_963_407)
}

fn sum_of(film: &Film, call: impl Fn(u64, Mask) -> u64) -> u64 {
    let (mut sum, mut mixed) = (0u64, 1u64);
    for turn in 0..TURNS {
        mixed = next(mixed);
        sum = sum.wrapping_add(call(turn, Mask(mixed >> 20).meet(film.all)));
    }
    sum
}

fn sum_moves(film: &Film) -> u64 {
    let mut state = Running::start(film);
    let (mut sum, mut mixed) = (0u64, 1u64);
    for _ in 0..TURNS {
        mixed = next(mixed);
        if mixed >> 63 == 0 {
            let firsts = state.rest;
            if let Some(scene) = Mask(mixed >> 40).meet(firsts).first().or(firsts.first()) {
                state.take(film, scene);
            }
        } else if state.len > 0 {
            state.back(film);
        }
        sum = sum.wrapping_add(state.paid);
    }
    sum
}

fn main() {
    let words = std::env::args().count();
    let film = black_box(film(if words <= 5 { 16 } else if words <= 10 { 24 } else { 40 }));
    let tables = black_box(tables(&film));
    let sum = match words % 5 {
        1 => sum_of(&film, |turn, set| extra(&film, &tables, Mask(63 << (turn % 7)), set)),
        2 => sum_of(&film, |_, set| pairs(&film, &tables, set)),
        3 => sum_of(&film, |_, set| groups(&film, &tables, set)),
        4 => sum_of(&film, |_, set| open_firsts(&film, set).0),
        _ => sum_moves(&film),
    };
    println!("{sum}");
}
END

(cd "$calls" && rt run > "$work/log" 2>&1) || { cat "$work/log"; exit 1; }
rustc -O -C target-cpu=x86-64-v2 "$work/calls.rs" -o "$work/calls_rust"

turns=2000000

# The least of five runs of each, by turns, in nanoseconds.
compare() {
    local scenes=$1 name=$2 ours= theirs= took
    shift 2
    for _ in 1 2 3 4 5; do
        took=$(date +%s%N)
        "$calls/out/calls" "$@" > "$work/ours"
        took=$(($(date +%s%N) - took))
        if [ -z "$ours" ] || [ "$took" -lt "$ours" ]; then ours=$took; fi
        took=$(date +%s%N)
        "$work/calls_rust" "$@" > "$work/theirs"
        took=$(($(date +%s%N) - took))
        if [ -z "$theirs" ] || [ "$took" -lt "$theirs" ]; then theirs=$took; fi
    done
    cmp "$work/ours" "$work/theirs"
    printf '| %s | %s | %d.%d | %d.%d | %d | %d | %d%% |\n' "$scenes" "$name" \
        $((turns * 1000 / ours)) $((turns * 10000 / ours % 10)) $((turns * 1000 / theirs)) $((turns * 10000 / theirs % 10)) \
        $((ours / turns)) $((theirs / turns)) $((theirs * 100 / ours))
}

echo '| scenes | call | millions a second | plain Rust | nanoseconds | plain Rust | ratio |'
echo '|---|---|---|---|---|---|---|'
words=()
for scenes in 16 24 40; do
    for name in 'extra of six' pairs groups open_firsts 'take, back'; do
        compare "$scenes" "$name" "${words[@]}"
        words+=(x)
    done
done
