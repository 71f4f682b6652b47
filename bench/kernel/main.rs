//! The value of a party in two forms.
//!
//!   kernel agree FILE                     compares both forms on random parties of a film, and ends with 1 if two
//!                                         values differ
//!   kernel FORM PLACES NEWCOMERS COUNT    makes COUNT values of one size by a form, `by_value` or `saved`; prints
//!                                         their sum and the nanoseconds a value

mod by_value;
mod film;
mod lanes;
mod saved;

use film::{Bits, Film};
use saved::Groups;
use std::process::ExitCode;
use std::time::Instant;

/// How many random sets of scenes are asked of a film.
const SETS: u32 = 3000;

/// The hold rates of the film of `bench/values.sh`.
const HOLDS: [u64; 12] = [72, 15, 91, 38, 56, 83, 27, 64, 49, 12, 97, 33];

/// Random numbers, which are the same in each run.
struct Random(u64);

impl Random {
    fn next(&mut self) -> u64 {
        self.0 = self.0.wrapping_mul(6_364_136_223_846_793_005).wrapping_add(1_442_695_040_888_963_407);
        self.0
    }

    fn below(&mut self, count: usize) -> usize {
        (self.next() >> 33) as usize % count
    }

    /// Chooses some members of a set, at most so many.
    fn some_of(&mut self, set: u64, count: usize) -> u64 {
        let mut members: Vec<u32> = Bits(set).collect();
        let mut some = 0;
        for _ in 0..count.min(members.len()) {
            some |= 1 << members.swap_remove(self.below(members.len()));
        }
        some
    }
}

fn main() -> ExitCode {
    let words: Vec<String> = std::env::args().skip(1).collect();
    let words: Vec<&str> = words.iter().map(String::as_str).collect();
    match words[..] {
        ["agree", file] => agree(&Film::read(&std::fs::read_to_string(file).unwrap())),
        [form, places, newcomers, count] => {
            let number = |word: &str| word.parse::<u32>().unwrap();
            measure(form, number(places), number(newcomers), number(count))
        }
        _ => ExitCode::from(2),
    }
}

/// Compares both forms on random sets: on several groups that share out all actors, and on one of up to ten.
fn agree(film: &Film) -> ExitCode {
    let (mut random, mut groups) = (Random(7), Groups::new());
    let (scenes, actors) = (u64::MAX >> (64 - film.scenes), u64::MAX >> (64 - film.holds.len()));
    let mut values = 0;
    for _ in 0..SETS {
        let (count, size) = (random.below(film.scenes as usize + 1), 1 + random.below(10));
        let set = random.some_of(scenes, count);
        for parties in [shared_out(&mut random, actors), vec![random.some_of(actors, size)]] {
            groups.begin(film, set, &parties);
            match asked(film, set, &parties, &mut random, &mut groups) {
                Some(asked) => values += asked,
                None => return ExitCode::from(1),
            }
        }
    }
    println!("{values} values are the same");
    ExitCode::from(0)
}

/// Shares the actors out to random groups of seven.
fn shared_out(random: &mut Random, actors: u64) -> Vec<u64> {
    let (mut left, mut parties) = (actors, Vec::new());
    while left != 0 {
        let group = random.some_of(left, 7);
        parties.push(group);
        left &= !group;
    }
    parties
}

/// Asks each group alone, then with one and with two random newcomers, and counts the values if both forms agree.
fn asked(film: &Film, set: u64, parties: &[u64], random: &mut Random, groups: &mut Groups) -> Option<usize> {
    let actors = u64::MAX >> (64 - film.holds.len());
    for count in 0..3 {
        for (number, &group) in parties.iter().enumerate() {
            let newcomers = random.some_of(actors & !group, count);
            let by_value = by_value::value(film, set, group, newcomers);
            let saved = groups.value(film, number, newcomers);
            if saved != by_value {
                println!("{set:#x} {group:#x} {newcomers:#x}: {by_value} by value, {saved} saved");
                return None;
            }
        }
    }
    Some(3 * parties.len())
}

/// Takes the time of values of one size on random sets of the film of `bench/values.sh`.
fn measure(form: &str, places: u32, newcomers: u32, count: u32) -> ExitCode {
    let mut random = Random(7);
    let casts: Vec<u64> = (0..24).map(|_| random.next()).map(|mixed| mixed >> 20 & mixed >> 40 & 4095).collect();
    let film = Film::of(&casts, &[3; 24], &HOLDS);
    let mut groups = Groups::new();
    let begun = Instant::now();
    let sum = match form {
        "by_value" => {
            sum_of(places, newcomers, count, |set, group, newcomers| by_value::value(&film, set, group, newcomers))
        }
        "saved" => sum_of(places, newcomers, count, |set, group, newcomers| {
            groups.begin(&film, set, &[group]);
            groups.value(&film, 0, newcomers)
        }),
        _ => return ExitCode::from(2),
    };
    println!("{sum} {:.0}", begun.elapsed().as_nanos() as f64 / f64::from(count));
    ExitCode::from(0)
}

/// Sums the values of random sets, groups and newcomers.
fn sum_of(places: u32, newcomers: u32, count: u32, mut value: impl FnMut(u64, u64, u64) -> u64) -> u64 {
    let (mut random, mut sum) = (Random(1), 0);
    for _ in 0..count {
        let mixed = random.next();
        let first = (mixed >> 50) as u32 % 12;
        let group = round(first, places);
        let newcomers = round((first + places) % 12, newcomers) & !group;
        sum += value(mixed >> 20 & 16_777_215, group, newcomers);
    }
    sum
}

/// Takes so many of the twelve actors from the first on, round the twelve.
fn round(first: u32, count: u32) -> u64 {
    let run = ((1 << count) - 1) << first;
    (run | run >> 12) & 4095
}
