//! What is saved, by set of the group's places, in slices of one workspace. Three ideas make it cheap:
//! - *Savings instead of costs.* Let R be a set's hold rates, E its days in a stage, and r what is paid. A row tells
//!   s = never + R * E - r. A step by a place saves its hold rate h on all days before it. It owes each class of scenes
//!   the extra, what a day of it costs beyond R. So a class at bare rates needs no product.
//! - *Newcomers come first.* The mates of a newcomer share a scene with him. None of them leaves before he comes, and
//!   while all are here, his waiting adds nothing: x is 0. So no stage is needed in which he is still to come.
//! - *Groups made once.* The casts, the days and the own pay of a group serve all asks of a bound.
//!
//! `pass`: the new number of a set is the most of the old one and, for each place p of it,
//! new(set \ p) + h * days(set \ p) - the sum over classes of extra(set) * (days(set) - days(set \ p)).
//!
//! | row           | days         | begins as                                                 | extra on days              |
//! |---------------|--------------|-----------------------------------------------------------|----------------------------|
//! | over          | free         | never for the empty set, else 0                           |                            |
//! | A stays       | free and A's | over                                                      | A's on free                |
//! | both, A first | all          | max(A stays, B stays + hold of A * B's - B's extra * A's) | both's on free, B's on A's |
//! | result        | all          | both, A first - hold of A * B's, or the other order       |                            |
//!
//! A and B are the newcomers. Free are the days of scenes without them, A's those with A and not B. A's extra is the
//! lesser of his hold rate and what his absent mates get; that of both, of A's hold rate with B's extra and what absent
//! mates of both get. The workspace has days of groups, 10 of 128 numbers or 1 of 1,024 in the same room; 1,024 numbers
//! for counting, 0 between uses; 13 tables of up to 1,024.

use crate::film::{Bits, Film};
use crate::lanes::{get, lanes, put, u32x4};

/// How many sets a block has: those of the four lowest places.
const BLOCK: usize = 16;
/// How many places a group has at most.
const PLACES: usize = 10;
/// How many sets ten places have.
const SETS: usize = 1 << PLACES;
/// How many groups a bound asks at most.
const GROUPS: usize = 10;
/// How many sets each of several groups has at most.
const FEW: usize = 128;

/// The hold rates by place, as vectors: the first two in the lanes of sets with that place, the others in all lanes.
struct Holds {
    first: u32x4,
    second: u32x4,
    others: [u32x4; 8],
}

/// A class of scenes, by set: what a day of it costs beyond the rates of those who are here, and its days.
#[derive(Clone, Copy)]
struct Class<'a> {
    extra: &'a [u32],
    days: &'a [u32],
}

/// What a pass goes by: the days of the stage, and the classes with an extra.
#[derive(Clone, Copy)]
struct Steps<'a, const CLASSES: usize> {
    holds: &'a Holds,
    days: &'a [u32],
    classes: [Class<'a>; CLASSES],
}

/// The steps by one of the two lowest places: what they save and what they owe.
#[derive(Clone, Copy)]
struct Turn {
    more: u32x4,
    less: u32x4,
}

/// For each set of two places the set without the first. A set without it stands for itself.
const FIRST: i32 = lanes(0, 0, 2, 2);
/// For each set of two places the set without the second. A set without it stands for itself.
const SECOND: i32 = lanes(0, 1, 0, 1);

impl<const CLASSES: usize> Steps<'_, CLASSES> {
    /// Raises the row by blocks: each from those that lack one of its higher places, then within.
    #[inline(never)]
    fn pass(self, row: &mut [u32]) {
        let mut at = 0;
        while at < row.len() {
            let numbers = self.raised(row, at);
            self.block(row, at, numbers);
            at += BLOCK;
        }
    }

    /// Raises the numbers of a block from the blocks that lack one of its places.
    #[inline(always)]
    fn raised(&self, row: &[u32], at: usize) -> [u32x4; 4] {
        let mut four = [get(row, at), get(row, at + 4), get(row, at + 8), get(row, at + 12)];
        let mut left = at;
        while left != 0 {
            let place = left.trailing_zeros() as usize;
            let from = at ^ (1 << place);
            // The place is at most nine: `& 7` only spares a check.
            let hold = self.holds.others[(place - 2) & 7];
            four = [
                self.from(four[0], get(row, from), hold, at, from),
                self.from(four[1], get(row, from + 4), hold, at + 4, from + 4),
                self.from(four[2], get(row, from + 8), hold, at + 8, from + 8),
                self.from(four[3], get(row, from + 12), hold, at + 12, from + 12),
            ];
            left &= left - 1;
        }
        four
    }

    /// Raises the numbers of a block from one another: by the third and fourth place, and within vectors.
    #[inline(always)]
    fn block(&self, row: &mut [u32], at: usize, four: [u32x4; 4]) {
        let (third, fourth) = (self.holds.others[0], self.holds.others[1]);
        let none = self.within(four[0], at);
        let one = self.within(self.from(four[1], none, third, at + 4, at), at + 4);
        let other = self.within(self.from(four[2], none, fourth, at + 8, at), at + 8);
        let both = self.from(four[3], one, fourth, at + 12, at + 4);
        let both = self.within(self.from(both, other, third, at + 12, at + 8), at + 12);
        put(row, at, none);
        put(row, at + 4, one);
        put(row, at + 8, other);
        put(row, at + 12, both);
    }

    /// Raises the numbers of four sets from those of the sets without a place of this hold rate.
    #[inline(always)]
    fn from(&self, numbers: u32x4, before: u32x4, hold: u32x4, at: usize, from: usize) -> u32x4 {
        let mut saved = before + get(self.days, from) * hold;
        if CLASSES > 0 {
            saved = saved - owed(self.classes[0], at, from);
        }
        if CLASSES > 1 {
            saved = saved - owed(self.classes[1], at, from);
        }
        numbers.simd_max(saved)
    }

    /// Raises the numbers of four sets from one another: by the first place, the second, and the first again.
    #[inline(always)]
    fn within(&self, numbers: u32x4, at: usize) -> u32x4 {
        let first = self.turn::<FIRST>(self.holds.first, at);
        let second = self.turn::<SECOND>(self.holds.second, at);
        let numbers = self.turned::<FIRST>(numbers, first);
        let numbers = self.turned::<SECOND>(numbers, second);
        self.turned::<FIRST>(numbers, first)
    }

    #[inline(always)]
    fn turn<const PLACE: i32>(&self, holds: u32x4, at: usize) -> Turn {
        let mut less = u32x4::ZERO;
        if CLASSES > 0 {
            less = owed_within::<PLACE>(self.classes[0], at);
        }
        if CLASSES > 1 {
            less = less + owed_within::<PLACE>(self.classes[1], at);
        }
        Turn { more: get(self.days, at).swizzle::<PLACE>() * holds, less }
    }

    #[inline(always)]
    fn turned<const PLACE: i32>(&self, numbers: u32x4, turn: Turn) -> u32x4 {
        let mut saved = numbers.swizzle::<PLACE>() + turn.more;
        if CLASSES > 0 {
            saved = saved - turn.less;
        }
        numbers.simd_max(saved)
    }
}

/// Multiplies the days of a class that come with a step by its extra.
#[inline(always)]
fn owed(class: Class, at: usize, from: usize) -> u32x4 {
    (get(class.days, at) - get(class.days, from)) * get(class.extra, at)
}

/// The same for a step within a vector.
#[inline(always)]
fn owed_within<const PLACE: i32>(class: Class, at: usize) -> u32x4 {
    let days = get(class.days, at);
    (days - days.swizzle::<PLACE>()) * get(class.extra, at)
}

/// Makes each vector of a row, block after block, from its place.
#[inline(always)]
fn fill(row: &mut [u32], of: impl Fn(usize) -> u32x4) {
    let mut at = 0;
    while at < row.len() {
        for place in [at, at + 4, at + 8, at + 12] {
            put(row, place, of(place));
        }
        at += BLOCK;
    }
}

/// Gives each set the sum of the numbers of its subsets, and leaves 0 for each of these numbers.
#[inline(never)]
fn below(row: &mut [u32], numbers: &mut [u32]) {
    let mut at = 0;
    while at < row.len() {
        below_block(row, numbers, at);
        at += BLOCK;
    }
    let mut place = BLOCK;
    while place < row.len() {
        for halves in row.chunks_exact_mut(2 * place) {
            let (without, with) = halves.split_at_mut(place);
            plus(with, without);
        }
        place *= 2;
    }
}

#[inline(always)]
fn below_block(row: &mut [u32], numbers: &mut [u32], at: usize) {
    let (none, third) = (below_two(take(numbers, at)), below_two(take(numbers, at + 4)));
    let (fourth, both) = (below_two(take(numbers, at + 8)), below_two(take(numbers, at + 12)));
    let third = third + none;
    put(row, at, none);
    put(row, at + 4, third);
    put(row, at + 8, fourth + none);
    put(row, at + 12, both + fourth + third);
}

/// Takes four numbers and leaves 0.
#[inline(always)]
fn take(numbers: &mut [u32], at: usize) -> u32x4 {
    let four = get(numbers, at);
    put(numbers, at, u32x4::ZERO);
    four
}

#[inline(always)]
fn below_two(numbers: u32x4) -> u32x4 {
    let numbers = numbers + numbers.to_first();
    numbers + numbers.to_second()
}

/// Adds the numbers of the others.
#[inline(always)]
fn plus(row: &mut [u32], others: &[u32]) {
    let mut at = 0;
    while at < row.len() {
        for place in [at, at + 4, at + 8, at + 12] {
            let sum = get(row, place) + get(others, place);
            put(row, place, sum);
        }
        at += BLOCK;
    }
}

/// Finds by set what those mates get who have left, at most a hold rate.
#[inline(never)]
fn extras(row: &mut [u32], mates: &Mates, hold: u32) {
    let holds = &mates.holds;
    let none = u32x4::from_array([0, holds[0], holds[1], holds[0] + holds[1]]);
    let (third, fourth) = (none + u32x4::splat(holds[2]), u32x4::splat(holds[3]));
    put(row, 0, none);
    put(row, 4, third);
    put(row, 8, none + fourth);
    put(row, 12, third + fourth);
    let (mut have, mut place) = (BLOCK, 4);
    while have < row.len() {
        let (low, high) = row.split_at_mut(have);
        let more = u32x4::splat(holds[place]);
        fill(&mut high[..have], |at| get(low, at) + more);
        have *= 2;
        place += 1;
    }
    let (all, most) = (u32x4::splat(mates.all), u32x4::splat(hold));
    let mut at = 0;
    while at < row.len() {
        for place in [at, at + 4, at + 8, at + 12] {
            let others = (all - get(row, place)).simd_min(most);
            put(row, place, others);
        }
        at += BLOCK;
    }
}

/// A group on a set of scenes.
struct Crew {
    /// By scene the places of those of the group who work in it.
    casts: [u16; 64],
    /// By place what he gets for a day of waiting.
    holds: [u32; PLACES],
    /// What they get together.
    rates: u64,
    /// The set of all places.
    full: usize,
    vectors: Holds,
}

/// Those of a group who work in some scenes: what each gets, by place, and what all get.
struct Mates {
    holds: [u32; PLACES],
    all: u32,
}

impl Crew {
    fn new() -> Crew {
        let vectors = Holds { first: u32x4::ZERO, second: u32x4::ZERO, others: [u32x4::ZERO; 8] };
        Crew { casts: [0; 64], holds: [0; PLACES], rates: 0, full: 0, vectors }
    }

    #[inline(never)]
    fn make(&mut self, film: &Film, set: u64, group: u64) {
        for scene in Bits(set) {
            self.casts[scene as usize] = 0;
        }
        self.holds = [0; PLACES];
        self.rates = film.rates(group);
        self.full = (1 << group.count_ones()) - 1;
        for (place, actor) in Bits(group).enumerate() {
            self.holds[place] = film.holds[actor as usize] as u32;
            for scene in Bits(film.plays[actor as usize] & set) {
                self.casts[scene as usize] |= 1 << place;
            }
        }
        let holds = &self.holds;
        self.vectors.first = u32x4::from_array([0, holds[0], 0, holds[0]]);
        self.vectors.second = u32x4::from_array([0, 0, holds[1], holds[1]]);
        for place in 2..PLACES {
            self.vectors.others[place - 2] = u32x4::splat(holds[place]);
        }
    }

    /// How many numbers a table of the group has.
    fn sets(&self) -> usize {
        (self.full + 1).max(BLOCK)
    }

    /// Sums by set the days of those of the scenes that are open. The numbers are 0 before and after it.
    #[inline(never)]
    fn counted(&self, film: &Film, scenes: u64, numbers: &mut [u32], days: &mut [u32]) {
        for scene in Bits(scenes) {
            numbers[self.casts[scene as usize] as usize] += film.scene_days[scene as usize] as u32;
        }
        below(days, numbers);
    }

    #[inline(never)]
    fn mates(&self, scenes: u64) -> Mates {
        let places = Bits(scenes).fold(0, |places, scene| places | self.casts[scene as usize]);
        let mut mates = Mates { holds: [0; PLACES], all: 0 };
        for place in Bits(u64::from(places)) {
            let hold = self.holds[place as usize];
            mates.holds[place as usize] = hold;
            mates.all += hold;
        }
        mates
    }

    /// Sums what those of the group get for the days on which they work.
    #[inline(never)]
    fn own_pay(&self, days: &[u32], all_days: u64) -> u64 {
        let mut pay = 0;
        for place in Bits(self.full as u64) {
            let free = u64::from(days[self.full ^ (1 << place)]);
            pay += u64::from(self.holds[place as usize]) * (all_days - free);
        }
        pay
    }
}

/// A made group: its open days by set, its own pay, and all days of the set of scenes.
struct Group<'a> {
    crew: &'a Crew,
    set: u64,
    days: &'a [u32],
    own_pay: u64,
    all_days: u64,
}

impl<'a> Group<'a> {
    /// Makes a number that is more than the group and the newcomers are paid.
    fn never(&self, newcomers: u64) -> u64 {
        (self.all_days + 1) * (self.crew.rates + newcomers) + 1
    }

    /// Tells what is paid at least beyond the own pay, by what the set of all saves.
    fn paid(&self, never: u64, saved: u32) -> u64 {
        never + self.crew.rates * self.all_days - u64::from(saved) - self.own_pay
    }

    fn steps<'b, const CLASSES: usize>(&self, days: &'b [u32], classes: [Class<'b>; CLASSES]) -> Steps<'b, CLASSES>
    where
        'a: 'b,
    {
        Steps { holds: &self.crew.vectors, days, classes }
    }

    /// Makes the row where all newcomers are gone.
    fn over(&self, row: &mut [u32], never: u64, days: &[u32]) {
        row.fill(0);
        row[0] = never as u32;
        self.steps(days, []).pass(row);
    }

    /// Finds the value of the group alone, in one table.
    fn alone(&self, row: &mut [u32]) -> u64 {
        let never = self.never(0);
        self.over(row, never, self.days);
        self.paid(never, row[self.crew.full])
    }

    /// Finds the value with one newcomer, in four tables: over on D, then his row on all days.
    #[inline(never)]
    fn with_one(&self, film: &Film, room: &mut [u32], numbers: &mut [u32], actor: u32) -> u64 {
        let (hold, scenes) = (film.holds[actor as usize], film.plays[actor as usize] & self.set);
        let mut one = Newcomer::of(room, self.days.len());
        self.crew.counted(film, scenes, numbers, one.days);
        let own = &*one.days;
        fill(one.all, |at| get(self.days, at) - get(own, at));
        one.make(self, scenes, hold as u32);
        let never = self.never(hold);
        self.over(one.stays, never, one.all);
        self.steps(self.days, [Class { extra: one.extra, days: one.all }]).pass(one.stays);
        self.paid(never, one.stays[self.crew.full])
    }

    /// Finds the value with two newcomers, in thirteen tables.
    #[inline(never)]
    fn with_two(&self, film: &Film, room: &mut [u32], numbers: &mut [u32], one: u32, other: u32) -> u64 {
        let mut pair = Pair::of(room, self.days.len());
        let (ones, others) = (film.plays[one as usize] & self.set, film.plays[other as usize] & self.set);
        let (one_hold, other_hold) = (film.holds[one as usize] as u32, film.holds[other as usize] as u32);
        self.crew.counted(film, ones & !others, numbers, pair.one.days);
        self.crew.counted(film, others & !ones, numbers, pair.other.days);
        self.crew.counted(film, ones & others, numbers, pair.days);
        pair.apart(self.days);
        let mates = self.crew.mates(ones | others);
        extras(pair.together, &mates, mates.all);
        pair.one.make(self, ones, one_hold);
        pair.other.make(self, others, other_hold);
        let never = self.never(u64::from(one_hold) + u64::from(other_hold));
        self.over(pair.one.stays, never, pair.days);
        pair.other.stays.copy_from_slice(pair.one.stays);
        self.stay(pair.days, &mut pair.one);
        self.stay(pair.days, &mut pair.other);
        self.both_here(pair.row, pair.scratch, (pair.days, pair.together), &pair.one, &pair.other);
        self.both_here(pair.second, pair.scratch, (pair.days, pair.together), &pair.other, &pair.one);
        let full = self.crew.full;
        let one_first = pair.row[full] - one_hold * pair.other.days[full];
        let other_first = pair.second[full] - other_hold * pair.one.days[full];
        self.paid(never, one_first.max(other_first))
    }

    /// Makes the row where one is here and the other is gone, from that where both are.
    fn stay(&self, days: &[u32], one: &mut Newcomer) {
        self.steps(one.all, [Class { extra: one.extra, days }]).pass(one.stays);
    }

    /// Makes the row where both are here and the one came first. The one's hold rate on the other's days counts
    /// as saved.
    fn both_here(
        &self,
        row: &mut [u32],
        neither: &mut [u32],
        (days, together): (&[u32], &[u32]),
        one: &Newcomer,
        other: &Newcomer,
    ) {
        let hold = u32x4::splat(one.hold);
        more_at_most(neither, other.extra, hold, together);
        begin_both(row, hold, one, other);
        let classes = [Class { extra: neither, days }, Class { extra: other.extra, days: one.days }];
        self.steps(self.days, classes).pass(row);
    }
}

/// Finds what a day of no newcomer costs more while both are here: the hold rate more, at most that of all mates.
#[inline(never)]
fn more_at_most(row: &mut [u32], others: &[u32], hold: u32x4, most: &[u32]) {
    fill(row, |at| (get(others, at) + hold).simd_min(get(most, at)));
}

/// Begins the row where both are here with those where one of them goes.
#[inline(never)]
fn begin_both(row: &mut [u32], hold: u32x4, one: &Newcomer, other: &Newcomer) {
    fill(row, |at| {
        let less = get(other.extra, at) * get(one.days, at);
        let one_goes = get(other.stays, at) + get(other.days, at) * hold - less;
        one_goes.simd_max(get(one.stays, at))
    });
}

/// The tables of a newcomer and what he gets for a day of waiting.
struct Newcomer<'a> {
    hold: u32,
    /// By set the days of the open scenes that are his alone.
    days: &'a mut [u32],
    /// The days of these and of the scenes without newcomers; if he is the only one, of the latter alone.
    all: &'a mut [u32],
    /// What a day without him costs more while he is here.
    extra: &'a mut [u32],
    /// The row where he is here and the other is gone.
    stays: &'a mut [u32],
}

impl<'a> Newcomer<'a> {
    fn of(room: &'a mut [u32], sets: usize) -> Newcomer<'a> {
        let (days, room) = room.split_at_mut(sets);
        let (all, room) = room.split_at_mut(sets);
        let (extra, room) = room.split_at_mut(sets);
        Newcomer { hold: 0, days, all, extra, stays: &mut room[..sets] }
    }

    fn make(&mut self, group: &Group, scenes: u64, hold: u32) {
        let mates = group.crew.mates(scenes);
        self.hold = hold;
        extras(self.extra, &mates, hold);
    }
}

/// The tables of two newcomers.
struct Pair<'a> {
    one: Newcomer<'a>,
    other: Newcomer<'a>,
    /// By set the days of the open scenes of both, then of those of neither.
    days: &'a mut [u32],
    /// What the mates of both get who have left.
    together: &'a mut [u32],
    /// What a day of neither costs more while both are here.
    scratch: &'a mut [u32],
    /// The row where both are here and the one came first.
    row: &'a mut [u32],
    /// The same for the other.
    second: &'a mut [u32],
}

impl<'a> Pair<'a> {
    fn of(room: &'a mut [u32], sets: usize) -> Pair<'a> {
        let (one, room) = room.split_at_mut(4 * sets);
        let (other, room) = room.split_at_mut(4 * sets);
        let (days, room) = room.split_at_mut(sets);
        let (together, room) = room.split_at_mut(sets);
        let (scratch, room) = room.split_at_mut(sets);
        let (row, room) = room.split_at_mut(sets);
        let (one, other) = (Newcomer::of(one, sets), Newcomer::of(other, sets));
        Pair { one, other, days, together, scratch, row, second: &mut room[..sets] }
    }

    /// Takes the days of no newcomer from all days, and adds each newcomer's own to them.
    #[inline(never)]
    fn apart(&mut self, all: &[u32]) {
        let mut at = 0;
        while at < all.len() {
            let (one, other) = (get(self.one.days, at), get(self.other.days, at));
            let without = get(all, at) - get(self.days, at) - one - other;
            put(self.days, at, without);
            put(self.one.all, at, without + one);
            put(self.other.all, at, without + other);
            at += 4;
        }
    }
}

/// A group of a bound. It is made when it is first asked.
struct Kept {
    group: u64,
    made: bool,
    crew: Crew,
    own_pay: u64,
}

/// The groups of a bound and the workspace of their values.
pub struct Groups {
    set: u64,
    all_days: u64,
    kept: Vec<Kept>,
    room: Vec<u32>,
}

impl Groups {
    pub fn new() -> Groups {
        let kept = || Kept { group: 0, made: false, crew: Crew::new(), own_pay: 0 };
        let room = vec![0; GROUPS * FEW + SETS + 13 * SETS];
        Groups { set: 0, all_days: 0, kept: (0..GROUPS).map(|_| kept()).collect(), room }
    }

    /// Begins a bound of a set of scenes with at most ten groups of at most seven, or one of at most ten.
    pub fn begin(&mut self, film: &Film, set: u64, groups: &[u64]) {
        assert!(groups.len() == 1 || groups.iter().all(|group| group.count_ones() <= 7));
        (self.set, self.all_days) = (set, film.days(set));
        for (kept, group) in self.kept.iter_mut().zip(groups) {
            (kept.group, kept.made) = (*group, false);
        }
    }

    /// Finds the value of one of the groups and at most two newcomers.
    pub fn value(&mut self, film: &Film, number: usize, newcomers: u64) -> u64 {
        let (set, all_days, kept) = (self.set, self.all_days, &mut self.kept[number]);
        let (days, room) = self.room.split_at_mut(GROUPS * FEW);
        let (numbers, room) = room.split_at_mut(SETS);
        if !kept.made {
            kept.crew.make(film, set, kept.group);
        }
        let days = &mut days[FEW * number..][..kept.crew.sets()];
        if !kept.made {
            kept.made = true;
            kept.crew.counted(film, set, numbers, days);
            kept.own_pay = kept.crew.own_pay(days, all_days);
        }
        let group = Group { crew: &kept.crew, set, days, own_pay: kept.own_pay, all_days };
        let mut newcomers = Bits(newcomers);
        match (newcomers.next(), newcomers.next()) {
            (None, _) => group.alone(&mut room[..group.days.len()]),
            (Some(one), None) => group.with_one(film, room, numbers, one),
            (Some(one), Some(other)) => group.with_two(film, room, numbers, one, other),
        }
    }
}
