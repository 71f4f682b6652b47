// The same words, table and calls in plain Rust.
use std::hint::black_box;
use std::sync::Mutex;
use std::sync::atomic::AtomicU64;
use std::sync::atomic::Ordering::SeqCst;
use std::thread;

const PLACES: usize = 4;
const COUNT: usize = 16;

struct Book {
    words: Vec<AtomicU64>,
    cap: u32,
}

fn desk_word(desk: u32) -> usize {
    32 + 16 * desk as usize
}

fn set_word(line: u32) -> usize {
    1056 + 2 * line as usize
}

fn bound_word(line: u32) -> usize {
    1057 + 2 * line as usize
}

impl Book {
    fn new(cap: u32) -> Book {
        let words = vec![0u64; 1056 + 2 * cap as usize];
        Book { words: words.iter().map(|word| AtomicU64::new(*word)).collect(), cap }
    }

    // Announces at a desk, draws a number, and writes the bound and the set, by the steps of a book.
    fn enlist(&self, desk: u32, part: u32, set: u64, bound: u64) -> Option<u32> {
        let part = u64::from(part);
        let _ = self.words[desk_word(desk)].compare_exchange(part, part, SeqCst, SeqCst);
        let number = self.words[COUNT].fetch_add(1, SeqCst);
        if number >= u64::from(self.cap) {
            return None;
        }
        let line = number as u32;
        self.words[bound_word(line)].fetch_max(bound, SeqCst);
        self.words[set_word(line)].store(set, SeqCst);
        Some(line)
    }

    // Draws a number and writes both words, with nothing announced.
    fn write(&self, set: u64, bound: u64) -> Option<u32> {
        let number = self.words[COUNT].fetch_add(1, SeqCst);
        if number >= u64::from(self.cap) {
            return None;
        }
        let line = number as u32;
        self.words[bound_word(line)].store(bound, SeqCst);
        self.words[set_word(line)].store(set, SeqCst);
        Some(line)
    }

    fn begin(&self, desk: u32, part: u32) {
        let part = u64::from(part);
        let _ = self.words[desk_word(desk)].compare_exchange(part, part, SeqCst, SeqCst);
    }

    fn raise(&self, line: u32, bound: u64) {
        self.words[bound_word(line)].fetch_max(bound, SeqCst);
    }
}

#[derive(Clone, Copy)]
struct Known {
    line: u32,
    set: u64,
    bound: u64,
}

enum Noted {
    Fresh,
    Raised,
    Stays { bound: u64 },
    Evicted { set: u64, bound: u64 },
}

#[derive(Clone, Copy)]
struct Slot {
    sets: [u64; PLACES],
    bounds: [u64; PLACES],
}

struct Stripe {
    slots: Vec<Slot>,
    lines: Vec<[u32; PLACES]>,
    counts: Vec<u8>,
}

fn hash(set: u64) -> u64 {
    set.wrapping_mul(0x9E37_79B9_7F4A_7C15)
}

fn bucket_of(set: u64, buckets: u32) -> u32 {
    (hash(set) >> 28) as u32 % buckets
}

fn place_of(sets: &[u64; PLACES], count: u8, set: u64) -> Option<usize> {
    let place = sets.iter().position(|other| *other == set)?;
    if place < count as usize { Some(place) } else { None }
}

fn fewest(sets: &[u64; PLACES]) -> usize {
    let mut fewest = 0;
    for place in 1..PLACES {
        if sets[place].count_ones() < sets[fewest].count_ones() {
            fewest = place;
        }
    }
    fewest
}

fn close_up<T: Copy>(list: &mut [T; PLACES], place: usize, last: T) {
    for to in place..PLACES - 1 {
        list[to] = list[to + 1];
    }
    list[PLACES - 1] = last;
}

fn write(slot: &mut Slot, lines: &mut [u32; PLACES], place: usize, known: &Known) {
    slot.sets[place] = known.set;
    slot.bounds[place] = known.bound;
    lines[place] = known.line;
}

impl Stripe {
    fn new(buckets: u32) -> Stripe {
        let empty = Slot { sets: [0; PLACES], bounds: [0; PLACES] };
        Stripe {
            slots: vec![empty; buckets as usize],
            lines: vec![[0; PLACES]; buckets as usize],
            counts: vec![0; buckets as usize],
        }
    }

    fn find(&self, set: u64) -> Option<Known> {
        let bucket = bucket_of(set, self.slots.len() as u32) as usize;
        let slot = &self.slots[bucket];
        let place = place_of(&slot.sets, self.counts[bucket], set)?;
        Some(Known { line: self.lines[bucket][place], set, bound: slot.bounds[place] })
    }

    fn put(&mut self, known: &Known) -> Noted {
        let bucket = bucket_of(known.set, self.slots.len() as u32) as usize;
        let (slot, lines, count) = (&mut self.slots[bucket], &mut self.lines[bucket], &mut self.counts[bucket]);
        if let Some(place) = place_of(&slot.sets, *count, known.set) {
            let bound = slot.bounds[place];
            if known.bound <= bound {
                return Noted::Stays { bound };
            }
            write(slot, lines, place, known);
            return Noted::Raised;
        }
        if (*count as usize) < PLACES {
            write(slot, lines, *count as usize, known);
            *count += 1;
            return Noted::Fresh;
        }
        let place = fewest(&slot.sets);
        let left = Noted::Evicted { set: slot.sets[place], bound: slot.bounds[place] };
        close_up(&mut slot.sets, place, known.set);
        close_up(&mut slot.bounds, place, known.bound);
        close_up(lines, place, known.line);
        left
    }
}

struct Stripes(Vec<Mutex<Stripe>>);

impl Stripes {
    fn new(entries: u32) -> Stripes {
        Stripes((0..16).map(|_| Mutex::new(Stripe::new(entries / 64))).collect())
    }

    fn probe(&self, set: u64) -> Option<Known> {
        self.0[(hash(set) >> 60) as usize].lock().unwrap().find(set)
    }

    fn note(&self, known: &Known) -> Noted {
        self.0[(hash(known.set) >> 60) as usize].lock().unwrap().put(known)
    }
}

const SHARE: u32 = 1_000_000;
const ROUNDS: u32 = 4;
const LEAD: u32 = 256;
const APART: u32 = 64;
const RAISES: u32 = 10_000_000;
const CALLS: u32 = 12_000_000;
const LINES: u32 = 16_383;

#[derive(Clone, Copy, PartialEq, Eq)]
enum Job {
    Rest,
    Begin,
    Enlist,
    Raise,
    Write,
    WriteRaise,
    Again,
    Idle,
    Hit,
    Miss,
    Note,
}

fn make_line(job: Job, book: &Book, desk: u32, part: u32, set: u64, bound: u64, top: u64) -> u64 {
    let line = match job {
        Job::Write | Job::WriteRaise => book.write(set, bound),
        _ => {
            book.begin(desk, part);
            if job == Job::Begin {
                return 0;
            }
            book.enlist(desk, part, set, bound)
        }
    };
    let Some(line) = line else {
        return 0;
    };
    if job == Job::Raise || job == Job::WriteRaise {
        book.raise(line, top);
    }
    u64::from(line)
}

fn make_lines(job: Job, book: &Book, desk: u32, from: u64, set: u64, bound: u64, top: u64, lines: &[u32]) -> u64 {
    let mut sum: u64 = 0;
    if job == Job::Rest {
        return sum;
    }
    if job == Job::Again {
        let line = lines[(desk * APART) as usize];
        for turn in 0..RAISES {
            book.raise(line, from.wrapping_add(u64::from(turn)).min(top));
        }
        return u64::from(line);
    }
    for part in 0..SHARE {
        sum = sum.wrapping_add(make_line(job, book, desk, part + 1, set, bound, top));
    }
    sum
}

fn next(state: u64) -> u64 {
    state.wrapping_mul(6_364_136_223_846_793_005).wrapping_add(1_442_695_040_888_963_407)
}

fn told(probe: &Option<Known>) -> u64 {
    match probe {
        Some(known) => u64::from(known.line) + 2,
        None => 1,
    }
}

fn noted(noted: &Noted) -> u64 {
    match noted {
        Noted::Fresh => 1,
        Noted::Raised => 2,
        Noted::Stays { bound } => *bound,
        Noted::Evicted { set, bound } => set.wrapping_add(*bound),
    }
}

fn ask(job: Job, stripes: &Stripes, lines: &[Known], number: u32) -> u64 {
    let mut state = next(u64::from(number));
    let mut sum: u64 = 0;
    if job == Job::Idle {
        return sum;
    }
    for _ in 0..CALLS {
        state = next(state);
        let line = &lines[(state >> 33) as usize % lines.len()];
        sum = sum.wrapping_add(match job {
            Job::Hit => told(&stripes.probe(line.set)),
            Job::Miss => told(&stripes.probe(line.set | 1 << 20)),
            _ => noted(&stripes.note(line)),
        });
    }
    sum
}

// What so many threads gave together, each with its number.
fn beside<F: Fn(u32) -> u64 + Sync>(threads: u32, f: F) -> u64 {
    thread::scope(|scope| {
        let f = &f;
        let all: Vec<_> = (0..threads).map(|number| scope.spawn(move || f(number))).collect();
        all.into_iter().fold(0, |sum: u64, one| sum.wrapping_add(one.join().unwrap()))
    })
}

fn main() {
    let words: Vec<String> = std::env::args().collect();
    let threads = words.len() as u32 - 2;
    let job = match words[1].as_str() {
        "rest" => Job::Rest,
        "begin" => Job::Begin,
        "enlist" => Job::Enlist,
        "raise" => Job::Raise,
        "write" => Job::Write,
        "write_raise" => Job::WriteRaise,
        "again" => Job::Again,
        "hit" => Job::Hit,
        "miss" => Job::Miss,
        "note" => Job::Note,
        _ => Job::Idle,
    };
    let sum = match job {
        Job::Idle | Job::Hit | Job::Miss | Job::Note => {
            let lines: Vec<Known> =
                (0..LINES).map(|line| Known { line, set: u64::from(LINES - line), bound: 0 }).collect();
            let stripes = Stripes::new(black_box(if job == Job::Note { 8_192 } else { 65_536 }));
            for line in &lines {
                stripes.note(line);
            }
            beside(threads, |number| ask(job, &stripes, &lines, number))
        }
        _ => {
            let book = Book::new(LEAD + threads * ROUNDS * SHARE);
            let (set, bound, top) = black_box((7, 12_000_000_000, 13_000_000_000));
            let lines: Vec<u32> = (0..LEAD).map(|part| book.enlist(0, part + 1, set, bound).unwrap()).collect();
            (0..ROUNDS).fold(0, |sum: u64, round| {
                let from = bound + u64::from(round * RAISES);
                sum.wrapping_add(beside(threads, |number| {
                    make_lines(job, &book, number, from, set, bound, top, &lines)
                }))
            })
        }
    };
    println!("{sum}");
}
