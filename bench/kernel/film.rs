//! A film as the value of a party sees it.

/// A film of at most 64 scenes: who works when, the days of scenes, and what actors get for a day of waiting.
pub struct Film {
    /// How many scenes there are.
    pub scenes: u32,
    /// By actor what he gets for a day of waiting, in whole units of money.
    pub holds: Vec<u64>,
    /// By actor the scenes in which he works.
    pub plays: Vec<u64>,
    /// By scene its days, and 0 past the last one.
    pub scene_days: [u64; 64],
    /// For each twelve scenes the days of each set of them.
    day_sums: Vec<Box<[u16; 4096]>>,
}

/// The members of a set, the least first.
pub struct Bits(pub u64);

impl Iterator for Bits {
    type Item = u32;

    #[inline(always)]
    fn next(&mut self) -> Option<u32> {
        if self.0 == 0 {
            return None;
        }
        let least = self.0.trailing_zeros();
        self.0 &= self.0 - 1;
        Some(least)
    }
}

impl Film {
    /// Makes a film of the cast and the days of each scene, and each actor's hold rate.
    pub fn of(casts: &[u64], days: &[u64], holds: &[u64]) -> Film {
        let plays = |actor| (0..casts.len()).fold(0, |scenes, scene| scenes | (casts[scene] >> actor & 1) << scene);
        let mut scene_days = [0; 64];
        scene_days[..days.len()].copy_from_slice(days);
        Film {
            scenes: casts.len() as u32,
            holds: holds.to_vec(),
            plays: (0..holds.len()).map(plays).collect(),
            scene_days,
            day_sums: scene_days[..days.len()].chunks(12).map(sums_of).collect(),
        }
    }

    /// Reads a film as the program's `gen` writes it, in which each actor waits for his rate.
    pub fn read(text: &str) -> Film {
        let mut rows = text.lines().map(|row| row.split(',').skip(1));
        rows.next();
        let number = |field: &str| field.parse().unwrap();
        let holds: Vec<u64> = rows.next().unwrap().skip(1).map(number).collect();
        let (mut casts, mut days) = (Vec::new(), Vec::new());
        for mut row in rows {
            days.push(number(row.next().unwrap()));
            casts.push(row.enumerate().fold(0, |cast, (actor, field)| cast | u64::from(field == "x") << actor));
        }
        Film::of(&casts, &days, &holds)
    }

    /// Sums the days of a set of scenes. One turn for each twelve scenes of the film.
    #[inline(always)]
    pub fn days(&self, set: u64) -> u64 {
        let mut days = 0;
        for (dozen, sums) in self.day_sums.iter().enumerate() {
            days += u64::from(sums[(set >> (12 * dozen) & 4095) as usize]);
        }
        days
    }

    /// Finds the scenes in which some of the actors work.
    pub fn scenes_with(&self, actors: u64) -> u64 {
        Bits(actors).fold(0, |scenes, actor| scenes | self.plays[actor as usize])
    }

    /// Sums what the actors get for a day of waiting.
    pub fn rates(&self, actors: u64) -> u64 {
        Bits(actors).map(|actor| self.holds[actor as usize]).sum()
    }
}

/// Sums the days of each set of at most twelve scenes.
fn sums_of(days: &[u64]) -> Box<[u16; 4096]> {
    let mut sums = Box::new([0; 4096]);
    for set in 1..4096_usize {
        let least = set.trailing_zeros() as usize;
        sums[set] = sums[set & (set - 1)] + days.get(least).copied().unwrap_or(0) as u16;
    }
    sums
}
