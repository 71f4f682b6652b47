//! What is paid, by set of the group's places, in recursive types that are made and moved by value. This is the form
//! of crates/strip_sets and crates/strip_arrivals.

use crate::film::{Bits, Film};
use crate::lanes::{get, lanes, u32x4};

/// How many places a group has at most.
const PLACES: usize = 10;

/// A quarter of what fits in 32 bits, which no value of these types passes.
const MOST: u64 = 1_073_741_823;

/// One thing for each of four classes of scenes. If there are fewer classes, the last are told for nothing.
#[derive(Clone, Copy)]
struct Classes<R> {
    first: R,
    second: R,
    third: R,
    fourth: R,
}

impl<R> Classes<R> {
    #[inline(always)]
    fn one(first: R) -> Classes<R>
    where
        R: Copy,
    {
        Classes { first, second: first, third: first, fourth: first }
    }

    #[inline(always)]
    fn two(first: R, second: R) -> Classes<R>
    where
        R: Copy,
    {
        Classes { first, second, third: second, fourth: second }
    }

    #[inline(always)]
    fn map<T>(self, of: impl Fn(R) -> T) -> Classes<T> {
        Classes { first: of(self.first), second: of(self.second), third: of(self.third), fourth: of(self.fourth) }
    }
}

/// A number for each set of the first few places, where bit i of a set is place i.
trait BySet: Sized {
    /// How many places there are.
    const COUNT: usize;

    /// Gives each set the same number.
    fn all(number: u64) -> Self;

    /// Gives the empty set one number and each other set another one.
    fn none_and_others(none: u64, others: u64) -> Self;

    /// Tells the number of a set.
    fn at(&self, set: usize) -> u64;

    /// Gives each set a first number and the numbers of its places.
    fn sums(&mut self, first: u64, numbers: &[u64; PLACES]);

    /// Gives each set a first number and the numbers of the places that it has not.
    fn other_sums(&mut self, first: u64, numbers: &[u64; PLACES]);

    /// Adds a number to that of one set.
    fn add(&mut self, set: usize, number: u64);

    /// Gives each set the sum of the numbers of its subsets.
    fn below(&mut self);

    /// Takes the numbers of the others.
    fn copy_from(&mut self, others: &Self);

    /// Takes the numbers of the others, each raised by one number.
    fn more_than(&mut self, others: &Self, number: u64);

    /// Gives each set the number of the others, and its weight for each of its days.
    fn sum_times(&mut self, others: &Self, weights: &Self, days: &Self);

    /// Adds the numbers of the others.
    fn plus(&mut self, others: &Self);

    /// Gives each set the lesser of its number and that of the others.
    fn least(&mut self, others: &Self);

    /// Lowers the number of each set to that of the others and what its days cost, if nothing is blocked.
    fn or_open(&mut self, others: &Self, weights: &Self, days: &Self, blocked: &Self);

    /// Lowers the number of each set to that of the others and what the days cost that it has more than they.
    /// A guarded step asks that the same is blocked for both.
    fn or_before<const COUNT: usize, const GUARDED: bool>(
        &mut self,
        others: &Self,
        weights: Classes<&Self>,
        days: Classes<&Self>,
        days_before: Classes<&Self>,
        blocked: &Self,
        blocked_before: &Self,
    );

    /// Lowers the number of each set to the least that it takes to come to it, place after place in any order.
    /// A step costs the weights of the set behind it for each day that comes with it.
    /// A guarded step leads to a set for which the same is blocked.
    fn pass<const COUNT: usize, const GUARDED: bool>(
        &mut self,
        weights: Classes<&Self>,
        days: Classes<&Self>,
        blocked: &Self,
    );
}

#[inline(always)]
fn vector(numbers: &[u32; 4]) -> u32x4 {
    get(numbers, 0)
}

/// Sums what the days of each class cost that come with a step.
#[inline(always)]
fn cost_of<const COUNT: usize>(weights: Classes<u32x4>, days: Classes<u32x4>, days_before: Classes<u32x4>) -> u32x4 {
    let mut sum = weights.first * (days.first - days_before.first);
    if COUNT > 1 {
        sum = sum + weights.second * (days.second - days_before.second);
    }
    if COUNT > 2 {
        sum = sum + weights.third * (days.third - days_before.third);
    }
    if COUNT > 3 {
        sum = sum + weights.fourth * (days.fourth - days_before.fourth);
    }
    sum
}

/// Lowers numbers to the others and the costs; a guarded step only if the same is blocked.
#[inline(always)]
fn lower<const GUARDED: bool>(
    numbers: u32x4,
    others: u32x4,
    costs: u32x4,
    blocked: u32x4,
    blocked_before: u32x4,
) -> u32x4 {
    let least = numbers.simd_min(others + costs);
    if GUARDED { blocked.simd_eq(blocked_before).select(least, numbers) } else { least }
}

/// A step from the empty set to each place, by three of the four lanes.
const FROM_NONE: i32 = lanes(0, 0, 0, 3);
/// A step from the first place to both.
const FROM_FIRST: i32 = lanes(0, 1, 2, 1);
/// A step from the second place to both.
const FROM_SECOND: i32 = lanes(0, 1, 2, 2);

/// The pass of two places within the lanes.
#[inline(always)]
fn pass_two<const COUNT: usize, const GUARDED: bool>(
    numbers: u32x4,
    weights: Classes<u32x4>,
    days: Classes<u32x4>,
    blocked: u32x4,
) -> u32x4 {
    const BEHIND: i32 = lanes(3, 1, 2, 3);
    const BEFORE: i32 = lanes(2, 0, 0, 1);
    const OF_SECOND: i32 = lanes(0, 1, 2, 0);
    let costs = cost_of::<COUNT>(
        weights.map(|four| four.swizzle::<BEHIND>()),
        days.map(|four| four.swizzle::<BEHIND>()),
        days.map(|four| four.swizzle::<BEFORE>()),
    );
    let before = blocked.swizzle::<FROM_NONE>();
    let numbers = lower::<GUARDED>(numbers, numbers.swizzle::<FROM_NONE>(), costs, blocked, before);
    let before = blocked.swizzle::<FROM_FIRST>();
    let numbers = lower::<GUARDED>(numbers, numbers.swizzle::<FROM_FIRST>(), costs, blocked, before);
    let (costs, before) = (costs.swizzle::<OF_SECOND>(), blocked.swizzle::<FROM_SECOND>());
    lower::<GUARDED>(numbers, numbers.swizzle::<FROM_SECOND>(), costs, blocked, before)
}

/// The four sets of two places, at once.
impl BySet for [u32; 4] {
    const COUNT: usize = 2;

    fn all(number: u64) -> Self {
        [number as u32; 4]
    }

    fn none_and_others(none: u64, others: u64) -> Self {
        let others = others as u32;
        [none as u32, others, others, others]
    }

    fn at(&self, set: usize) -> u64 {
        u64::from(self[set])
    }

    #[inline(always)]
    fn sums(&mut self, first: u64, numbers: &[u64; PLACES]) {
        let (one, other) = (numbers[0], numbers[1]);
        *self = [first, first + one, first + other, first + one + other].map(|sum| sum as u32);
    }

    #[inline(always)]
    fn other_sums(&mut self, first: u64, numbers: &[u64; PLACES]) {
        let (one, other) = (numbers[0], numbers[1]);
        *self = [first + one + other, first + other, first + one, first].map(|sum| sum as u32);
    }

    fn add(&mut self, set: usize, number: u64) {
        self[set] += number as u32;
    }

    #[inline(always)]
    fn below(&mut self) {
        let numbers = vector(self);
        let numbers = numbers + numbers.to_first();
        *self = (numbers + numbers.to_second()).to_array();
    }

    #[inline(always)]
    fn copy_from(&mut self, others: &Self) {
        *self = *others;
    }

    #[inline(always)]
    fn more_than(&mut self, others: &Self, number: u64) {
        *self = (vector(others) + u32x4::splat(number as u32)).to_array();
    }

    #[inline(always)]
    fn sum_times(&mut self, others: &Self, weights: &Self, days: &Self) {
        *self = (vector(others) + vector(weights) * vector(days)).to_array();
    }

    #[inline(always)]
    fn plus(&mut self, others: &Self) {
        *self = (vector(self) + vector(others)).to_array();
    }

    #[inline(always)]
    fn least(&mut self, others: &Self) {
        *self = vector(self).simd_min(vector(others)).to_array();
    }

    #[inline(always)]
    fn or_open(&mut self, others: &Self, weights: &Self, days: &Self, blocked: &Self) {
        let numbers = vector(self);
        let least = numbers.simd_min(vector(others) + vector(weights) * vector(days));
        *self = vector(blocked).simd_eq(u32x4::ZERO).select(least, numbers).to_array();
    }

    #[inline(always)]
    fn or_before<const COUNT: usize, const GUARDED: bool>(
        &mut self,
        others: &Self,
        weights: Classes<&Self>,
        days: Classes<&Self>,
        days_before: Classes<&Self>,
        blocked: &Self,
        blocked_before: &Self,
    ) {
        let costs = cost_of::<COUNT>(weights.map(vector), days.map(vector), days_before.map(vector));
        let (blocked, before) = (vector(blocked), vector(blocked_before));
        *self = lower::<GUARDED>(vector(self), vector(others), costs, blocked, before).to_array();
    }

    #[inline(always)]
    fn pass<const COUNT: usize, const GUARDED: bool>(
        &mut self,
        weights: Classes<&Self>,
        days: Classes<&Self>,
        blocked: &Self,
    ) {
        let (weights, days) = (weights.map(vector), days.map(vector));
        *self = pass_two::<COUNT, GUARDED>(vector(self), weights, days, vector(blocked)).to_array();
    }
}

/// Numbers of one place more: those of the sets without it, and those with it.
struct Halves<T> {
    without: T,
    with: T,
}

impl<'a, T> Classes<&'a Halves<T>> {
    #[inline(always)]
    fn without(self) -> Classes<&'a T> {
        self.map(|halves| &halves.without)
    }

    #[inline(always)]
    fn with(self) -> Classes<&'a T> {
        self.map(|halves| &halves.with)
    }
}

impl<T: BySet> BySet for Halves<T> {
    const COUNT: usize = T::COUNT + 1;

    fn all(number: u64) -> Self {
        Halves { without: T::all(number), with: T::all(number) }
    }

    fn none_and_others(none: u64, others: u64) -> Self {
        Halves { without: T::none_and_others(none, others), with: T::all(others) }
    }

    fn at(&self, set: usize) -> u64 {
        let place = 1 << T::COUNT;
        if set < place { self.without.at(set) } else { self.with.at(set - place) }
    }

    #[inline(always)]
    fn sums(&mut self, first: u64, numbers: &[u64; PLACES]) {
        self.without.sums(first, numbers);
        self.with.more_than(&self.without, numbers[T::COUNT]);
    }

    #[inline(always)]
    fn other_sums(&mut self, first: u64, numbers: &[u64; PLACES]) {
        self.with.other_sums(first, numbers);
        self.without.more_than(&self.with, numbers[T::COUNT]);
    }

    fn add(&mut self, set: usize, number: u64) {
        let place = 1 << T::COUNT;
        if set < place { self.without.add(set, number) } else { self.with.add(set - place, number) }
    }

    #[inline(always)]
    fn below(&mut self) {
        self.without.below();
        self.with.below();
        self.with.plus(&self.without);
    }

    #[inline(always)]
    fn copy_from(&mut self, others: &Self) {
        self.without.copy_from(&others.without);
        self.with.copy_from(&others.with);
    }

    #[inline(always)]
    fn more_than(&mut self, others: &Self, number: u64) {
        self.without.more_than(&others.without, number);
        self.with.more_than(&others.with, number);
    }

    #[inline(always)]
    fn sum_times(&mut self, others: &Self, weights: &Self, days: &Self) {
        self.without.sum_times(&others.without, &weights.without, &days.without);
        self.with.sum_times(&others.with, &weights.with, &days.with);
    }

    #[inline(always)]
    fn plus(&mut self, others: &Self) {
        self.without.plus(&others.without);
        self.with.plus(&others.with);
    }

    #[inline(always)]
    fn least(&mut self, others: &Self) {
        self.without.least(&others.without);
        self.with.least(&others.with);
    }

    #[inline(always)]
    fn or_open(&mut self, others: &Self, weights: &Self, days: &Self, blocked: &Self) {
        self.without.or_open(&others.without, &weights.without, &days.without, &blocked.without);
        self.with.or_open(&others.with, &weights.with, &days.with, &blocked.with);
    }

    #[inline(always)]
    fn or_before<const COUNT: usize, const GUARDED: bool>(
        &mut self,
        others: &Self,
        weights: Classes<&Self>,
        days: Classes<&Self>,
        days_before: Classes<&Self>,
        blocked: &Self,
        blocked_before: &Self,
    ) {
        self.without.or_before::<COUNT, GUARDED>(
            &others.without,
            weights.without(),
            days.without(),
            days_before.without(),
            &blocked.without,
            &blocked_before.without,
        );
        self.with.or_before::<COUNT, GUARDED>(
            &others.with,
            weights.with(),
            days.with(),
            days_before.with(),
            &blocked.with,
            &blocked_before.with,
        );
    }

    #[inline(always)]
    fn pass<const COUNT: usize, const GUARDED: bool>(
        &mut self,
        weights: Classes<&Self>,
        days: Classes<&Self>,
        blocked: &Self,
    ) {
        self.without.pass::<COUNT, GUARDED>(weights.without(), days.without(), &blocked.without);
        self.with.or_before::<COUNT, GUARDED>(
            &self.without,
            weights.with(),
            days.with(),
            days.without(),
            &blocked.with,
            &blocked.without,
        );
        self.with.pass::<COUNT, GUARDED>(weights.with(), days.with(), &blocked.with);
    }
}

/// The same numbers, with a function of its own for each operation, so that code stays small.
struct Block<T> {
    numbers: T,
}

impl<'a, T> Classes<&'a Block<T>> {
    #[inline(always)]
    fn numbers(self) -> Classes<&'a T> {
        self.map(|block| &block.numbers)
    }
}

impl<T: BySet> BySet for Block<T> {
    const COUNT: usize = T::COUNT;

    fn all(number: u64) -> Self {
        Block { numbers: T::all(number) }
    }

    fn none_and_others(none: u64, others: u64) -> Self {
        Block { numbers: T::none_and_others(none, others) }
    }

    fn at(&self, set: usize) -> u64 {
        self.numbers.at(set)
    }

    #[inline(never)]
    fn sums(&mut self, first: u64, numbers: &[u64; PLACES]) {
        self.numbers.sums(first, numbers)
    }

    #[inline(never)]
    fn other_sums(&mut self, first: u64, numbers: &[u64; PLACES]) {
        self.numbers.other_sums(first, numbers)
    }

    fn add(&mut self, set: usize, number: u64) {
        self.numbers.add(set, number)
    }

    #[inline(never)]
    fn below(&mut self) {
        self.numbers.below()
    }

    #[inline(never)]
    fn copy_from(&mut self, others: &Self) {
        self.numbers.copy_from(&others.numbers)
    }

    #[inline(never)]
    fn more_than(&mut self, others: &Self, number: u64) {
        self.numbers.more_than(&others.numbers, number)
    }

    #[inline(never)]
    fn sum_times(&mut self, others: &Self, weights: &Self, days: &Self) {
        self.numbers.sum_times(&others.numbers, &weights.numbers, &days.numbers)
    }

    #[inline(never)]
    fn plus(&mut self, others: &Self) {
        self.numbers.plus(&others.numbers)
    }

    #[inline(never)]
    fn least(&mut self, others: &Self) {
        self.numbers.least(&others.numbers)
    }

    #[inline(never)]
    fn or_open(&mut self, others: &Self, weights: &Self, days: &Self, blocked: &Self) {
        self.numbers.or_open(&others.numbers, &weights.numbers, &days.numbers, &blocked.numbers)
    }

    #[inline(never)]
    fn or_before<const COUNT: usize, const GUARDED: bool>(
        &mut self,
        others: &Self,
        weights: Classes<&Self>,
        days: Classes<&Self>,
        days_before: Classes<&Self>,
        blocked: &Self,
        blocked_before: &Self,
    ) {
        self.numbers.or_before::<COUNT, GUARDED>(
            &others.numbers,
            weights.numbers(),
            days.numbers(),
            days_before.numbers(),
            &blocked.numbers,
            &blocked_before.numbers,
        )
    }

    #[inline(never)]
    fn pass<const COUNT: usize, const GUARDED: bool>(
        &mut self,
        weights: Classes<&Self>,
        days: Classes<&Self>,
        blocked: &Self,
    ) {
        self.numbers.pass::<COUNT, GUARDED>(weights.numbers(), days.numbers(), &blocked.numbers)
    }
}

/// A group on a set of scenes.
struct Crew<S> {
    set: u64,
    /// By scene the places of those of the group who work in it.
    casts: [u16; 64],
    /// By place what he gets for a day of waiting.
    holds: [u64; PLACES],
    /// By set of places what they get together for a day of waiting.
    rates: S,
}

impl<S: BySet> Crew<S> {
    fn of(film: &Film, set: u64, group: u64) -> Crew<S> {
        let mut holds = [0; PLACES];
        let mut casts = [0; 64];
        for (place, actor) in Bits(group).enumerate() {
            holds[place] = film.holds[actor as usize];
            for scene in Bits(film.plays[actor as usize] & set) {
                casts[scene as usize] |= 1 << place;
            }
        }
        let mut rates = S::all(0);
        rates.sums(0, &holds);
        Crew { set, casts, holds, rates }
    }

    /// Sums by set of places the days of those of the scenes that are open while only these are still here.
    fn counted(&self, film: &Film, scenes: u64) -> S {
        let mut days = S::all(0);
        for scene in Bits(scenes) {
            days.add(self.casts[scene as usize] as usize, film.scene_days[scene as usize]);
        }
        days.below();
        days
    }

    /// Sums by set of places what those get who have left and work in one of these scenes.
    fn mates(&self, scenes: u64) -> S {
        let places = Bits(scenes).fold(0, |places, scene| places | self.casts[scene as usize]);
        let mut holds = [0; PLACES];
        for place in Bits(u64::from(places)) {
            holds[place as usize] = self.holds[place as usize];
        }
        let mut rates = S::all(0);
        rates.other_sums(0, &holds);
        rates
    }
}

/// A group and its newcomers on a set of scenes.
struct Party<S> {
    crew: Crew<S>,
    newcomers: u64,
    /// More than anything that is paid.
    never: u64,
    /// By set of places the days of the open scenes without newcomers.
    days: S,
}

/// One of the newcomers.
struct Newcomer<S> {
    hold: u64,
    /// By set of places the days of the open scenes in which of the newcomers he alone works.
    days: S,
    /// By set of places what a day of a scene without newcomers costs while he is here.
    waits: S,
}

/// What is told of both newcomers together.
struct Both<S> {
    /// By set of places the days of the open scenes in which both work.
    days: S,
    /// By set of places what those get who are here or share a scene with one of the two.
    together: S,
}

impl<S: BySet> Party<S> {
    fn newcomer(&self, film: &Film, actor: u32) -> Newcomer<S> {
        let hold = film.holds[actor as usize];
        let scenes = film.plays[actor as usize] & self.crew.set;
        let alone = scenes & !film.scenes_with(self.newcomers & !(1 << actor));
        let mut waits = self.crew.mates(scenes);
        waits.least(&S::all(hold));
        waits.plus(&self.crew.rates);
        Newcomer { hold, days: self.crew.counted(film, alone), waits }
    }

    fn both(&self, film: &Film, one: u32, other: u32) -> Both<S> {
        let (ones, others) = (film.plays[one as usize], film.plays[other as usize]);
        let mut together = self.crew.mates((ones | others) & self.crew.set);
        together.plus(&self.crew.rates);
        Both { days: self.crew.counted(film, ones & others & self.crew.set), together }
    }

    /// The row after which all newcomers are gone.
    fn over(&self) -> S {
        let mut row = S::none_and_others(0, self.never);
        row.pass::<1, false>(Classes::one(&self.crew.rates), Classes::one(&self.days), &self.days);
        row
    }

    /// The row where one newcomer is here and all others are gone.
    fn stay(&self, one: &Newcomer<S>, over: &S) -> S {
        let rates = &self.crew.rates;
        let mut row = S::all(0);
        row.sum_times(over, rates, &one.days);
        let days = Classes::two(&self.days, &one.days);
        row.pass::<2, false>(Classes::two(&one.waits, rates), days, &self.days);
        row
    }

    /// Lets those of the group leave who work in none of the awaited scenes, while no newcomer is here.
    fn leave(&self, awaited: &S, row: &mut S) {
        row.pass::<1, true>(Classes::one(&self.crew.rates), Classes::one(&self.days), awaited);
    }

    /// The row where both newcomers are here and the one came first, from those where one of them is gone.
    fn both_here(
        &self,
        both: &Both<S>,
        (one, one_stays): (&Newcomer<S>, &S),
        (other, other_stays): (&Newcomer<S>, &S),
    ) -> S {
        let rates = &self.crew.rates;
        let (mut with_other, mut neither) = (S::all(0), S::all(0));
        with_other.more_than(rates, one.hold);
        neither.more_than(&other.waits, one.hold);
        neither.least(&both.together);
        let mut one_goes = S::all(0);
        one_goes.sum_times(other_stays, &other.waits, &one.days);
        let mut other_goes = S::all(0);
        other_goes.sum_times(one_stays, &with_other, &other.days);
        one_goes.least(&other_goes);
        let mut row = S::all(0);
        row.sum_times(&one_goes, rates, &both.days);
        let weights = Classes { first: &neither, second: &other.waits, third: &with_other, fourth: rates };
        let days = Classes { first: &self.days, second: &one.days, third: &other.days, fourth: &both.days };
        row.pass::<4, false>(weights, days, &self.days);
        row
    }

    /// The row where the one is here and the other is still to come.
    fn here(&self, both: &Both<S>, one: (&Newcomer<S>, &S), other: (&Newcomer<S>, &S)) -> S {
        let rates = &self.crew.rates;
        let mut gone = S::all(0);
        gone.copy_from(other.1);
        self.leave(&other.0.days, &mut gone);
        let mut row = self.both_here(both, one, other);
        let mut awaited = S::all(0);
        awaited.copy_from(&other.0.days);
        awaited.plus(&both.days);
        row.or_open(&gone, rates, &one.0.days, &both.days);
        let days = Classes::two(&self.days, &one.0.days);
        row.pass::<2, true>(Classes::two(&one.0.waits, rates), days, &awaited);
        row
    }

    /// The row where the only newcomer is still to come.
    fn row_of_one(&self, film: &Film, actor: u32) -> S {
        let one = self.newcomer(film, actor);
        let mut row = self.stay(&one, &self.over());
        self.leave(&one.days, &mut row);
        row
    }

    /// The row where both newcomers are still to come.
    fn row_of_two(&self, film: &Film, one: u32, other: u32) -> S {
        let both = self.both(film, one, other);
        let (one, other) = (self.newcomer(film, one), self.newcomer(film, other));
        let over = self.over();
        let (one_stays, other_stays) = (self.stay(&one, &over), self.stay(&other, &over));
        let mut row = self.here(&both, (&one, &one_stays), (&other, &other_stays));
        row.least(&self.here(&both, (&other, &other_stays), (&one, &one_stays)));
        let mut awaited = S::all(0);
        awaited.copy_from(&one.days);
        awaited.plus(&other.days);
        awaited.plus(&both.days);
        self.leave(&awaited, &mut row);
        row
    }

    /// The row where all newcomers are still to come.
    fn first_row(&self, film: &Film) -> S {
        let mut newcomers = Bits(self.newcomers);
        match (newcomers.next(), newcomers.next()) {
            (None, _) => self.over(),
            (Some(actor), None) => self.row_of_one(film, actor),
            (Some(one), Some(other)) => self.row_of_two(film, one, other),
        }
    }
}

#[inline(never)]
fn value_by<S: BySet>(film: &Film, set: u64, group: u64, newcomers: u64, never: u64) -> u64 {
    let crew = Crew::<S>::of(film, set, group);
    let days = crew.counted(film, set & !film.scenes_with(newcomers));
    let party = Party { crew, newcomers, never, days };
    party.first_row(film).at((1 << group.count_ones()) - 1) - own_pay(film, set, group)
}

/// Sums what those of the group get for the days on which they work.
fn own_pay(film: &Film, set: u64, group: u64) -> u64 {
    Bits(group).map(|actor| film.holds[actor as usize] * film.days(film.plays[actor as usize] & set)).sum()
}

type Four = Halves<Halves<[u32; 4]>>;
type Five = Halves<Four>;
type Six = Halves<Block<Five>>;
type Seven = Halves<Six>;
type Eight = Halves<Block<Seven>>;
type Nine = Halves<Eight>;
type Ten = Halves<Nine>;

/// Finds the value of a group of at most ten actors and at most two newcomers on a set of scenes.
pub fn value(film: &Film, set: u64, group: u64, newcomers: u64) -> u64 {
    let never = (film.days(set) + 1) * (film.rates(group) + film.rates(newcomers)) + 1;
    assert!(never <= MOST);
    let value = match group.count_ones() {
        0..=4 => value_by::<Four>,
        5 => value_by::<Five>,
        6 => value_by::<Six>,
        7 => value_by::<Seven>,
        8 => value_by::<Eight>,
        9 => value_by::<Nine>,
        _ => value_by::<Ten>,
    };
    value(film, set, group, newcomers, never)
}
