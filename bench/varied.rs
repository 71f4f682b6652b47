// The order that a search begins with, found by the same steps as in strip_start, in plain Rust; and films with story
// lines. It shares nothing with the crates.
//
//   varied start FILE TRIES [STATE]   reduces the film, makes the greedy order, improves and varies it in several runs;
//                                     prints what it costs by then, its classes, how long varying took, and the order's
//                                     scenes
//   varied story NUMBER SCENES        prints a film with story lines, leads and day players
//   varied times SCENES ACTORS TRIES  prints how many tries a second are made
use std::time::Instant;

#[derive(Clone)]
struct Film {
    names: Vec<String>,
    casts: Vec<u64>,
    days: Vec<u64>,
    rates: Vec<u64>,
    holds: Vec<u64>,
    pairs: Vec<(usize, usize)>,
}

/// The fields of a row of a text whose fields have no quotes within quotes.
fn fields(row: &str) -> Vec<String> {
    let mut all = vec![String::new()];
    let mut quoted = false;
    for c in row.chars() {
        match c {
            '"' => quoted = !quoted,
            ',' if !quoted => all.push(String::new()),
            c => all.last_mut().unwrap().push(c),
        }
    }
    all.iter().map(|f| f.trim().to_string()).collect()
}

fn read(text: &str) -> Film {
    let rows: Vec<Vec<String>> = text.lines().map(fields).collect();
    let number = |f: &String| f.parse::<u64>().unwrap();
    let rates: Vec<u64> = rows[1][2..].iter().map(number).collect();
    let mut film = Film {
        names: vec![],
        casts: vec![],
        days: vec![],
        holds: rates.clone(),
        rates,
        pairs: vec![],
    };
    for row in &rows[2..] {
        match row[0].as_str() {
            "hold" => film.holds = row[2..].iter().map(number).collect(),
            "before" => {
                let place = |name: &String| film.names.iter().position(|n| n == name).unwrap();
                let pair = (place(&row[1]), place(&row[2]));
                if !film.pairs.contains(&pair) {
                    film.pairs.push(pair);
                }
            }
            _ => {
                film.names.push(row[0].clone());
                film.days.push(number(&row[1]));
                let plays = |f: &String| matches!(f.as_str(), "x" | "X" | "1");
                let cast = row[2..].iter().enumerate().filter(|(_, f)| plays(f));
                film.casts.push(cast.map(|(a, _)| 1 << a).sum());
            }
        }
    }
    film
}

/// The classes of a film, the scenes of each, and what is set apart.
struct Reduced {
    film: Film,
    members: Vec<Vec<usize>>,
    apart: u64,
}

fn reduce(film: &Film) -> Reduced {
    let mut all = Reduced {
        film: film.clone(),
        members: (0..film.casts.len()).map(|s| vec![s]).collect(),
        apart: 0,
    };
    while step(&mut all) {}
    all
}

fn plays(film: &Film, actor: usize) -> Vec<usize> {
    (0..film.casts.len()).filter(|s| film.casts[*s] >> actor & 1 == 1).collect()
}

fn without_actor(film: &mut Film, actor: usize) {
    film.rates.remove(actor);
    film.holds.remove(actor);
    let low = (1u64 << actor) - 1;
    for cast in &mut film.casts {
        *cast = (*cast & low) | (*cast >> 1 & !low);
    }
}

fn step(all: &mut Reduced) -> bool {
    let film = &mut all.film;
    for actor in 0..film.rates.len() {
        let own = plays(film, actor);
        if film.holds[actor] == 0 || own.len() <= 1 {
            all.apart += own.iter().map(|s| film.days[*s] * film.rates[actor]).sum::<u64>();
            without_actor(film, actor);
            return true;
        }
    }
    let stands = |film: &Film, s: usize| film.pairs.iter().any(|(a, b)| *a == s || *b == s);
    for one in 0..film.casts.len() {
        for other in one + 1..film.casts.len() {
            if film.casts[one] == film.casts[other] && !stands(film, one) && !stands(film, other) {
                film.days[one] += film.days[other];
                film.casts.remove(other);
                film.days.remove(other);
                for pair in &mut film.pairs {
                    pair.0 -= (pair.0 > other) as usize;
                    pair.1 -= (pair.1 > other) as usize;
                }
                let more = all.members.remove(other);
                all.members[one].extend(more);
                return true;
            }
        }
    }
    for one in 0..film.rates.len() {
        for other in one + 1..film.rates.len() {
            if plays(film, one) == plays(film, other) {
                film.rates[one] += film.rates[other];
                film.holds[one] += film.holds[other];
                without_actor(film, other);
                return true;
            }
        }
    }
    false
}

fn keeps(film: &Film, order: &[usize]) -> bool {
    let place = |s: usize| order.iter().position(|x| *x == s).unwrap();
    film.pairs.iter().all(|(a, b)| place(*a) < place(*b))
}

/// What an order pays, actor by actor.
fn pay(film: &Film, order: &[usize]) -> u64 {
    let mut sum = 0;
    for actor in 0..film.rates.len() {
        let here: Vec<bool> = order.iter().map(|s| film.casts[*s] >> actor & 1 == 1).collect();
        let Some(first) = here.iter().position(|h| *h) else { continue };
        let last = here.iter().rposition(|h| *h).unwrap();
        for place in first..=last {
            let rate = if here[place] { film.rates[actor] } else { film.holds[actor] };
            sum += film.days[order[place]] * rate;
        }
    }
    sum
}

fn hold_sum(film: &Film, mut actors: u64) -> u64 {
    let mut sum = 0;
    while actors != 0 {
        sum += film.holds[actors.trailing_zeros() as usize];
        actors &= actors - 1;
    }
    sum
}

fn greedy(film: &Film) -> Vec<usize> {
    let count = film.casts.len();
    let mut order: Vec<usize> = vec![];
    while order.len() < count {
        let rest: Vec<usize> = (0..count).filter(|s| !order.contains(s)).collect();
        let done = order.iter().fold(0, |c, s| c | film.casts[*s]);
        let left = rest.iter().fold(0, |c, s| c | film.casts[*s]);
        let ready = |s: usize| !film.pairs.iter().any(|(a, b)| *b == s && rest.contains(a));
        let cost = |s: usize| {
            let cast = film.casts[s];
            let own: u64 = (0..film.rates.len()).filter(|a| cast >> a & 1 == 1).map(|a| film.rates[a]).sum();
            film.days[s] * (own + hold_sum(film, done & left & !cast))
        };
        let next = rest.iter().copied().filter(|s| ready(*s)).min_by_key(|s| (cost(*s), *s)).unwrap();
        order.push(next);
    }
    order
}

fn improve(film: &Film, start: &[usize]) -> Vec<usize> {
    let mut best = start.to_vec();
    'moves: for _ in 0..64 {
        let paid = pay(film, &best);
        for from in 0..best.len() {
            for to in 0..best.len() {
                let mut moved = best.clone();
                let scene = moved.remove(from);
                moved.insert(to, scene);
                if keeps(film, &moved) && pay(film, &moved) < paid {
                    best = moved;
                    continue 'moves;
                }
            }
        }
        break;
    }
    best
}

struct Pcg32 {
    state: u64,
    increment: u64,
}

impl Pcg32 {
    fn new(state: u64, stream: u64) -> Pcg32 {
        let mut words = Pcg32 { state: 0, increment: stream << 1 | 1 };
        words.next();
        words.state = words.state.wrapping_add(state);
        words.next();
        words
    }

    fn next(&mut self) -> u32 {
        let old = self.state;
        self.state = old.wrapping_mul(6364136223846793005).wrapping_add(self.increment);
        (((old >> 18 ^ old) >> 27) as u32).rotate_right((old >> 59) as u32)
    }

    fn below(&mut self, n: usize) -> usize {
        (self.next() as u64 * n as u64 >> 32) as usize
    }
}

/// An order with who works before and behind each place, and what is paid for waiting there.
#[derive(Clone)]
struct Order {
    scenes: [u8; 64],
    before: [u64; 64],
    behind: [u64; 64],
    waits: [u64; 64],
}

struct Prices {
    casts: [u64; 64],
    days: [u64; 64],
    firsts: [u64; 64],
    sums: [[u64; 256]; 8],
    eights: usize,
}

impl Prices {
    fn of(film: &Film) -> Prices {
        let mut all = Prices { casts: [0; 64], days: [0; 64], firsts: [0; 64], sums: [[0; 256]; 8], eights: film.holds.len().div_ceil(8) };
        all.casts[..film.casts.len()].copy_from_slice(&film.casts);
        all.days[..film.days.len()].copy_from_slice(&film.days);
        for (a, b) in &film.pairs {
            all.firsts[*b] |= 1 << a;
        }
        for (eight, holds) in film.holds.chunks(8).enumerate() {
            for set in 1..256usize {
                let hold = holds.get(set.trailing_zeros() as usize).copied().unwrap_or(0);
                all.sums[eight][set] = all.sums[eight][set & (set - 1)] + hold;
            }
        }
        all
    }

    fn wait(&self, scene: u8, actors: u64) -> u64 {
        let mut waiting = actors & !self.casts[scene as usize & 63];
        let mut sum = 0;
        for sums in &self.sums[..self.eights] {
            sum += sums[(waiting & 255) as usize];
            waiting >>= 8;
        }
        sum * self.days[scene as usize & 63]
    }
}

/// The cheapest of the orders that the runs lead to, the first of those that pay the same: one run for each 100,000
/// tries, at least one and at most 16.
fn vary(film: &Film, start: &[usize], tries: u64, state: u64) -> Vec<usize> {
    let runs = (tries / 100_000).clamp(1, 16);
    let order = |run: u64| {
        let mut words = Pcg32::new(state, 54 + run);
        if runs == 1 {
            return anneal(film, start, tries, &mut words, &|n| 1000 - n * 1000 / tries);
        }
        rounds(film, start, tries / runs + u64::from(run < tries % runs), &mut words)
    };
    (0..runs).map(order).min_by_key(|order| pay(film, order)).unwrap()
}

/// The order that one of several runs leads to: rounds of 100,000 tries, of which the last may be cut short. Each begins
/// with the order of the one before.
fn rounds(film: &Film, start: &[usize], tries: u64, words: &mut Pcg32) -> Vec<usize> {
    let in_halves = |n: u64| match n / 100 {
        gone if gone < 500 => 1000 - gone * 3 / 2,
        gone => (1000 - gone) / 2,
    };
    let mut best = start.to_vec();
    for begun in (0..tries).step_by(100_000) {
        best = anneal(film, &best, (tries - begun).min(100_000), words, &in_halves);
    }
    best
}

/// The cheapest order that so many tries meet. The slack is at first a hundredth of what the given order pays for waiting,
/// and later as many thousandths of that as `left` says.
fn anneal(film: &Film, start: &[usize], tries: u64, words: &mut Pcg32, left: &dyn Fn(u64) -> u64) -> Vec<usize> {
    let k = start.len();
    if tries == 0 || k < 3 {
        return start.to_vec();
    }
    let prices = Prices::of(film);
    let mut now = Order { scenes: [0; 64], before: [0; 64], behind: [0; 64], waits: [0; 64] };
    let mut cast = 0;
    for (place, scene) in start.iter().enumerate() {
        now.scenes[place] = *scene as u8;
        now.before[place] = cast;
        cast |= film.casts[*scene];
    }
    cast = 0;
    for place in (0..k).rev() {
        now.behind[place] = cast;
        cast |= film.casts[start[place]];
    }
    for place in 0..k {
        now.waits[place] = prices.wait(now.scenes[place], now.before[place] & now.behind[place]);
    }
    let begun: u64 = now.waits[..k].iter().sum();
    let (mut waits, mut least, mut best) = (begun, begun, now.scenes);
    let mut next = now.clone();
    for n in 0..tries {
        let slack = begun / 100 * left(n) / 1000;
        let kind = words.next() % 3;
        let (first, end, front);
        if kind == 2 {
            let (i, j) = (words.below(k), words.below(k));
            if i == j {
                continue;
            }
            (first, end, front) = (i.min(j), i.max(j) + 1, 0);
        } else {
            let b = if kind == 0 { 1 } else { 2 + words.below(k / 3) };
            let (i, j) = (words.below(k - b + 1), words.below(k - b + 1));
            if i == j {
                continue;
            }
            (first, end, front) = if i < j { (i, j + b, b) } else { (j, i + b, i - j) };
        }
        if kind == 2 {
            for place in first..end {
                next.scenes[place] = now.scenes[first + end - 1 - place];
            }
        } else {
            let rest = end - first - front;
            next.scenes[first..first + rest].copy_from_slice(&now.scenes[first + front..end]);
            next.scenes[first + rest..end].copy_from_slice(&now.scenes[first..first + front]);
        }
        let old: u64 = now.waits[first..end].iter().sum();
        let mut later = 0u64;
        let mut kept = true;
        if !film.pairs.is_empty() {
            for place in (first..end).rev() {
                let scene = next.scenes[place] as usize & 63;
                kept &= prices.firsts[scene] & later == 0;
                later |= 1 << scene;
            }
        }
        if !kept {
            continue;
        }
        let mut cast = now.behind[end - 1];
        for place in (first..end).rev() {
            next.behind[place] = cast;
            cast |= prices.casts[next.scenes[place] as usize & 63];
        }
        let mut cast = now.before[first];
        let mut sum = 0;
        for place in first..end {
            let scene = next.scenes[place];
            let wait = prices.wait(scene, cast & next.behind[place]);
            sum += wait;
            if sum > old + slack {
                break;
            }
            next.before[place] = cast;
            next.waits[place] = wait;
            cast |= prices.casts[scene as usize & 63];
        }
        if sum > old + slack {
            continue;
        }
        now.scenes[first..end].copy_from_slice(&next.scenes[first..end]);
        now.before[first..end].copy_from_slice(&next.before[first..end]);
        now.behind[first..end].copy_from_slice(&next.behind[first..end]);
        now.waits[first..end].copy_from_slice(&next.waits[first..end]);
        waits = waits - old + sum;
        if waits < least {
            (least, best) = (waits, now.scenes);
        }
    }
    best[..k].iter().map(|s| *s as usize).collect()
}

/// A number that looks random, by the mixing of SplitMix64.
struct Mix(u64);

impl Mix {
    fn below(&mut self, n: u64) -> u64 {
        self.0 = self.0.wrapping_add(0x9E37_79B9_7F4A_7C15);
        let once = (self.0 ^ self.0 >> 30).wrapping_mul(0xBF58_476D_1CE4_E5B9);
        let twice = (once ^ once >> 27).wrapping_mul(0x94D0_49BB_1331_11EB);
        (twice ^ twice >> 31) % n
    }

    fn between(&mut self, least: u64, most: u64) -> u64 {
        least + self.below(most - least + 1)
    }
}

/// A film of story lines of 4 to 10 scenes, each with two or three actors of its own, of whom most are in a scene, and
/// perhaps a day player; with 2 to 5 leads, who are in half of the scenes of every story line.
fn story(number: u64, scenes: usize) -> String {
    let mut mix = Mix(number);
    let mut rates: Vec<(String, u64, u64)> = vec![];
    let leads = mix.between(2, 5) as usize;
    for lead in 0..leads {
        let rate = mix.between(20, 50) * 100;
        rates.push((format!("lead {}", lead + 1), rate, rate / 2));
    }
    let mut lines: Vec<Vec<u64>> = vec![];
    let mut left = scenes;
    while left > 0 {
        let size = (mix.between(4, 10) as usize).min(left);
        left -= size;
        let mut line = vec![0u64; size];
        for lead in 0..leads {
            for scene in &mut line {
                *scene |= mix.below(2) << lead;
            }
        }
        for own in 0..mix.between(2, 3) {
            let rate = mix.between(5, 15) * 100;
            let actor = rates.len();
            rates.push((format!("story {} actor {}", lines.len() + 1, own + 1), rate, rate / 2));
            for scene in &mut line {
                if mix.below(10) < 6 {
                    *scene |= 1 << actor;
                }
            }
        }
        if mix.below(2) == 0 {
            let rate = mix.between(2, 4) * 100;
            let actor = rates.len();
            rates.push((format!("story {} day player", lines.len() + 1), rate, rate));
            for _ in 0..2 {
                let scene = mix.below(size as u64) as usize;
                line[scene] |= 1 << actor;
            }
        }
        lines.push(line);
    }
    let mut text = String::from("scene,days");
    for (name, _, _) in &rates {
        text += &format!(",{name}");
    }
    text += "\nrate,";
    for (_, rate, _) in &rates {
        text += &format!(",{rate}");
    }
    text += "\nhold,";
    for (_, _, hold) in &rates {
        text += &format!(",{hold}");
    }
    text += "\n";
    let mut gone = vec![0; lines.len()];
    for _ in 0..scenes {
        let open: Vec<usize> = (0..lines.len()).filter(|l| gone[*l] < lines[*l].len()).collect();
        let line = open[mix.below(open.len().min(4) as u64) as usize];
        let cast = lines[line][gone[line]];
        gone[line] += 1;
        text += &format!("story {} scene {},{}", line + 1, gone[line], mix.between(1, 4));
        for actor in 0..rates.len() {
            text += if cast >> actor & 1 == 1 { ",x" } else { ",." };
        }
        text += "\n";
    }
    text
}

/// The film of bench/start.sh with so many scenes and actors, without pairs.
fn timed(scenes: u64, actors: u64) -> Film {
    let random = |seed: u64| Mix(seed.wrapping_mul(0x9E37_79B9_7F4A_7C15)).below(u64::MAX);
    let cast = |scene: u64| (0..actors).filter(|a| random(scene * 64 + a) % 3 == 0).map(|a| 1 << a).sum();
    let rates: Vec<u64> = (0..actors).map(|a| random(a + 1000) % 1_000_000 + 1).collect();
    Film {
        names: vec![],
        casts: (0..scenes).map(cast).collect(),
        days: (0..scenes).map(|s| random(s) % 5 + 1).collect(),
        holds: rates.iter().map(|r| r / 2 + 1).collect(),
        rates,
        pairs: vec![],
    }
}

fn time(scenes: u64, actors: u64, tries: u64) {
    let film = timed(scenes, actors);
    let start = improve(&film, &greedy(&film));
    let mut least = u128::MAX;
    let mut paid = 0;
    for _ in 0..5 {
        let begun = Instant::now();
        let best = vary(&film, &start, tries, 0);
        least = least.min(begun.elapsed().as_nanos());
        paid = pay(&film, &best);
    }
    let thousands = tries as u128 * 1_000_000 / least;
    println!("{scenes} scenes, {actors} actors: {thousands} thousand tries a second, cost {paid}");
}

fn main() {
    let words: Vec<String> = std::env::args().skip(1).collect();
    if words[0] == "times" {
        let number = |place: usize| words[place].parse().unwrap();
        time(number(1), number(2), number(3));
        return;
    }
    if words[0] == "story" {
        print!("{}", story(words[1].parse().unwrap(), words[2].parse().unwrap()));
        return;
    }
    let text = std::fs::read_to_string(&words[1]).unwrap();
    let tries = words[2].parse::<u64>().ok();
    let state = words.get(3).map_or(0, |w| w.parse().unwrap());
    let film = read(&text);
    let reduced = reduce(&film);
    let classes = &reduced.film;
    let greedy = greedy(classes);
    let better = improve(classes, &greedy);
    let tries = tries.unwrap_or(5000 * classes.casts.len() as u64);
    let begun = Instant::now();
    let mut best = vary(classes, &better, tries, state);
    let took = begun.elapsed();
    if classes.pairs.is_empty() && best.last() < best.first() {
        best.reverse();
    }
    let order: Vec<usize> = best.iter().flat_map(|c| reduced.members[*c].clone()).collect();
    let cost = pay(&film, &order);
    assert_eq!(cost, pay(classes, &best) + reduced.apart);
    assert!(keeps(&film, &order));
    let names: Vec<&str> = order.iter().map(|s| film.names[*s].as_str()).collect();
    println!(
        "cost,{cost}\ngreedy,{}\nimproved,{}\nclasses,{}\nactors,{}\nnanoseconds,{}\norder,{}",
        pay(classes, &greedy) + reduced.apart,
        pay(classes, &better) + reduced.apart,
        classes.casts.len(),
        classes.rates.len(),
        took.as_nanos(),
        names.join(",")
    );
}
