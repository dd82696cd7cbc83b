//! Random days: `days SEED` writes one, the same for the same seed. `days SEED BYTES` writes a day of well-formed mixed calls that is as long as
//! whole lines allow within BYTES. Nothing here knows how a series answers: it only aims where answers are interesting.

use std::io::Write;

struct Dice(u64);

impl Dice {
    fn new(seed: u64) -> Dice {
        let mut dice = Dice(seed.wrapping_mul(0x9e37_79b9_7f4a_7c15) ^ 0x2545_f491_4f6c_dd1d);
        for _ in 0..8 {
            dice.next();
        }
        dice
    }

    fn next(&mut self) -> u64 {
        if self.0 == 0 {
            self.0 = 88_172_645_463_325_252;
        }
        self.0 ^= self.0 << 13;
        self.0 ^= self.0 >> 7;
        self.0 ^= self.0 << 17;
        self.0
    }

    /// From 0 to n - 1.
    fn below(&mut self, n: u64) -> u64 {
        (self.next() >> 11) % n
    }

    fn between(&mut self, low: u64, high: u64) -> u64 {
        low + self.below(high - low + 1)
    }

    /// True in so many of a hundred.
    fn percent(&mut self, n: u64) -> bool {
        self.below(100) < n
    }

    fn one<'a>(&mut self, of: &[&'a str]) -> &'a str {
        of[self.below(of.len() as u64) as usize]
    }
}

/// What a day is like.
struct Mood {
    ladder: char,
    /// the price around which everything happens
    centre: i64,
    /// how many rungs away from it
    spread: i64,
    /// how far the two sides are apart, in rungs; below 0 they overlap
    gap: i64,
    /// the same for away quotes
    away: i64,
    absent: u64,
    exchanges: u64,
    routable: u64,
    market: u64,
    bad: u64,
    reused: u64,
    /// ids go round after so many
    pool: u64,
    sizes: u64,
    /// weights of quote, order, cancel, reply
    weights: [u64; 4],
    lines: u64,
}

fn mood(dice: &mut Dice) -> Mood {
    let spread = dice.between(1, 9) as i64;
    let mut mood = Mood {
        ladder: *['P', 'M', 'N'].get(dice.below(3) as usize).unwrap(),
        centre: match dice.below(10) {
            0 => dice.between(1, 12),
            1 => dice.between(20, 60),
            2 => dice.between(285, 315),
            3 => dice.between(99_900, 100_000),
            4 => dice.between(1_000, 1_400),
            5 => dice.between(1, 100_000),
            _ => dice.between(90, 140),
        } as i64,
        spread,
        gap: dice.between(0, 6) as i64 - 2,
        away: dice.between(1, spread as u64 + 2) as i64,
        absent: [5, 15, 40][dice.below(3) as usize],
        exchanges: [2, 4, 15][dice.below(3) as usize],
        routable: 40,
        market: 12,
        bad: [0, 3, 10][dice.below(3) as usize],
        reused: 20,
        pool: 999_999,
        sizes: [5, 30, 9_999][dice.below(3) as usize],
        weights: [25, 50, 12, 13],
        lines: dice.between(3, 60),
    };
    match dice.below(20) {
        // the book fills up: far apart, hardly a cancel
        0 => {
            mood.gap = 12;
            mood.spread = 4;
            mood.weights = [8, 90, 1, 1];
            mood.market = 1;
            mood.reused = 3;
            mood.lines = dice.between(70, 110);
            mood.bad = 1;
        }
        // slips go out and stay out
        1 => {
            mood.exchanges = 15;
            mood.absent = 5;
            mood.spread = 1;
            mood.gap = 0;
            mood.away = 1;
            mood.sizes = 30;
            mood.routable = 95;
            mood.weights = [45, 53, 1, 1];
            mood.reused = 3;
            mood.lines = dice.between(60, 140);
        }
        // bids are rare and prices are low
        2 => {
            mood.centre = dice.between(1, 16) as i64;
            mood.market = 45;
            mood.absent = 60;
        }
        // wide markets, and orders far from them
        3 => {
            mood.centre = dice.between(300, 2_000) as i64;
            mood.spread = 40;
            mood.gap = dice.between(20, 120) as i64;
            mood.away = mood.gap;
            mood.market = 40;
        }
        4 => {
            mood.lines = dice.between(200, 1_500);
            mood.pool = 100;
            mood.weights = [20, 40, 25, 15];
        }
        _ => {}
    }
    mood
}

/// The distance of rungs at a price.
fn step(ladder: char, price: i64) -> i64 {
    match (ladder, price < 300) {
        ('P', _) | ('M', true) => 1,
        ('N', false) => 10,
        _ => 5,
    }
}

/// So many rungs from the centre, on the ladder, and on it still at either end.
fn price(mood: &Mood, rungs: i64) -> i64 {
    let mut price = mood.centre.max(1);
    price -= price % step(mood.ladder, price);
    for _ in 0..rungs.abs() {
        price += if rungs > 0 { step(mood.ladder, price) } else { -step(mood.ladder, price - 1) };
    }
    let lowest = step(mood.ladder, 1);
    price.clamp(lowest, 100_000)
}

struct Day {
    mood: Mood,
    ids: u64,
    slips: u64,
}

impl Day {
    fn size(&self, dice: &mut Dice) -> u64 {
        let most = if dice.percent(80) { 12.min(self.mood.sizes) } else { self.mood.sizes };
        dice.between(1, most)
    }

    fn near(&self, dice: &mut Dice) -> i64 {
        dice.between(0, 2 * self.mood.spread as u64) as i64 - self.mood.spread
    }

    fn id(&self, dice: &mut Dice) -> u64 {
        let id = if self.ids == 0 || dice.percent(5) {
            dice.between(1, 40)
        } else {
            dice.between(self.ids.saturating_sub(60).max(1), self.ids)
        };
        (id - 1) % self.mood.pool + 1
    }

    fn quote(&mut self, dice: &mut Dice) -> Vec<String> {
        let mut fields = vec!["A".to_string(), dice.between(1, self.mood.exchanges).to_string()];
        for sign in [-1, 1] {
            if dice.percent(self.mood.absent) {
                fields.extend(["0".to_string(), "0".to_string()]);
            } else {
                let rungs = self.near(dice) / 2 + sign * self.mood.away / if dice.percent(10) { -1 } else { 1 };
                fields.push(price(&self.mood, rungs).to_string());
                let most = if dice.percent(3) { 99_999 } else { 15 };
                fields.push(dice.between(1, most).to_string());
            }
        }
        fields
    }

    fn order(&mut self, dice: &mut Dice) -> Vec<String> {
        let id = if dice.percent(self.mood.reused) {
            self.id(dice)
        } else {
            self.ids += 1;
            (self.ids - 1) % self.mood.pool + 1
        };
        let buy = dice.percent(50);
        let market = dice.percent(self.mood.market);
        let routable = dice.percent(self.mood.routable);
        let sign = if buy { -1 } else { 1 };
        let mut rungs = self.near(dice) + sign * self.mood.gap;
        if dice.percent(3) {
            rungs = dice.between(0, 600) as i64 - 300;
        }
        if routable {
            self.slips += 1;
        }
        let (origin, mark) = match routable {
            true => ("C", "R"),
            false => *[("C", "D"), ("N", "R"), ("N", "D")].get(dice.below(3) as usize).unwrap(),
        };
        vec![
            "O".to_string(),
            id.to_string(),
            dice.between(1, 20).to_string(),
            if buy { "B" } else { "S" }.to_string(),
            origin.to_string(),
            if market { "M" } else { "L" }.to_string(),
            mark.to_string(),
            if market { 0 } else { price(&self.mood, rungs) }.to_string(),
            self.size(dice).to_string(),
            match dice.below(10) {
                0..=3 => 0,
                9 => dice.between(0, 20),
                _ => dice.between(1, 3),
            }
            .to_string(),
        ]
    }

    fn reply(&mut self, dice: &mut Dice) -> Vec<String> {
        let made = self.slips / 2 + 1;
        let slip = dice.between(made.saturating_sub(40).max(1), made);
        let filled = match dice.below(10) {
            0..=2 => 0,
            9 => dice.between(0, self.mood.sizes),
            _ => dice.between(0, 6),
        };
        vec!["R".to_string(), slip.to_string(), filled.to_string()]
    }

    fn call(&mut self, dice: &mut Dice) -> Vec<String> {
        let [quotes, orders, cancels, replies] = self.mood.weights;
        let roll = dice.below(quotes + orders + cancels + replies);
        if roll < quotes {
            self.quote(dice)
        } else if roll < quotes + orders {
            self.order(dice)
        } else if roll < quotes + orders + cancels {
            vec!["X".to_string(), self.id(dice).to_string()]
        } else {
            self.reply(dice)
        }
    }

    /// A call with something wrong, or at the very edge of what is allowed.
    fn odd(&mut self, dice: &mut Dice) -> Vec<u8> {
        let mut fields = if dice.percent(10) { vec!["G".to_string()] } else { self.call(dice) };
        let at = dice.below(fields.len() as u64) as usize;
        match dice.below(16) {
            0 => return Vec::new(),
            1 => {
                let mut line = fields.join("\t").into_bytes();
                let length = dice.between(78, 90) as usize;
                line.resize(length.max(line.len()), b'7');
                return line;
            }
            2 => fields[0] = dice.one(&["", "o", "Z", "OO", "1", "A ", " A", "E", "S", "N"]).to_string(),
            3 => return dice.one(&["H\tP\t0", "H", "H\tN\t1", "H\tQ"]).as_bytes().to_vec(),
            4 => {
                fields.pop();
            }
            5 => fields.push(dice.one(&["1", "", "B"]).to_string()),
            6 | 7 => {
                fields[at] =
                    dice.one(&["", "007", "00", "123456789", "-1", "+5", "1.5", " 5", "5\r", "b", "BS", "B1", "5 ", "\u{e9}"]).to_string()
            }
            8 => fields[at] = dice.one(&["A", "M", "P", "Z", "C", "N", "I", "K", "L", "R", "D", "B", "S"]).to_string(),
            9 | 10 => {
                fields[at] = dice
                    .one(&["0", "1", "15", "16", "20", "21", "9999", "10000", "99999", "100000", "100001", "999999", "1000000", "15000000", "15000001", "99999999"])
                    .to_string()
            }
            11 if fields[0] == "A" => fields[[3, 5][dice.below(2) as usize]] = dice.one(&["0", "1", "99999", "100000"]).to_string(),
            12 if fields[0] == "A" => fields[[2, 4][dice.below(2) as usize]] = dice.one(&["0", "301", "302", "7", "305"]).to_string(),
            11 | 12 if fields[0] == "O" => fields[7] = dice.one(&["0", "301", "302", "7", "305"]).to_string(),
            13 if fields[0] == "O" => fields[5] = dice.one(&["I", "K", "M", "L", "Q"]).to_string(),
            14 => fields = vec!["G".to_string()],
            15 => {
                let mut line = fields.join("\t").into_bytes();
                let at = dice.below(line.len() as u64) as usize;
                line[at] = loop {
                    let byte = dice.below(256) as u8;
                    if byte != b'\n' {
                        break byte;
                    }
                };
                return line;
            }
            _ => {}
        }
        fields.join("\t").into_bytes()
    }
}

/// Line after line, with bad ones among them.
fn day(dice: &mut Dice) -> Vec<u8> {
    match dice.below(400) {
        0 => return Vec::new(),
        1 => return vec![b'\n'; dice.between(1, 3) as usize],
        2 => {
            let mut long = b"H\tP\t0\nG\n".to_vec();
            let length = dice.between(65_535, 65_538) as usize;
            while long.len() < length {
                long.extend(b"A\t15\t99999\t99999\t100000\t99999\n");
            }
            long.truncate(length);
            return long;
        }
        3 => return dice.one(&["A\t1\t0\t0\t0\t0\n", "H\tQ\t0\n", "H\tP\t2\nG\n", "H\tP\n", "h\tP\t0\n", "H\t1\t0", "H\tP\tP\n"]).as_bytes().to_vec(),
        _ => {}
    }
    let mood = mood(dice);
    let mut text = format!("H\t{}\t{}\n", mood.ladder, dice.below(2)).into_bytes();
    let lines = mood.lines;
    let open = if dice.percent(2) { lines + 1 } else { dice.below(lines.min(5)) };
    let mut day = Day { mood, ids: 0, slips: 0 };
    for line in 0..lines {
        let next = if line == open {
            b"G".to_vec()
        } else if line < open && dice.percent(85) {
            day.quote(dice).join("\t").into_bytes()
        } else if dice.percent(day.mood.bad) {
            day.odd(dice)
        } else {
            day.call(dice).join("\t").into_bytes()
        };
        text.extend(next);
        text.push(b'\n');
    }
    if dice.percent(10) {
        text.pop();
    }
    text
}

/// A day of well-formed calls, filled up. An order is cancelled about forty orders later, so that the book is neither empty nor full;
/// replies go to the latest slips.
fn full(dice: &mut Dice, bytes: usize) -> Vec<u8> {
    let mut mood = mood(dice);
    mood.ladder = 'P';
    mood.centre = 120;
    mood.spread = 4;
    mood.gap = -3;
    mood.away = 5;
    mood.pool = 999_999;
    mood.reused = 3;
    mood.absent = 15;
    mood.exchanges = 8;
    mood.sizes = 30;
    mood.market = 8;
    mood.routable = 25;
    mood.weights = [25, 55, 0, 20];
    let mut day = Day { mood, ids: 0, slips: 0 };
    let mut text = b"H\tP\t1\nG\n".to_vec();
    let mut cancelled = 0;
    loop {
        let line = if day.ids > cancelled + 40 {
            cancelled += 1;
            format!("X\t{cancelled}").into_bytes()
        } else {
            day.call(dice).join("\t").into_bytes()
        };
        if text.len() + line.len() + 1 > bytes {
            return text;
        }
        text.extend(line);
        text.push(b'\n');
    }
}

fn main() {
    let numbers: Vec<u64> = std::env::args().skip(1).filter_map(|a| a.parse().ok()).collect();
    let text = match numbers[..] {
        [seed] => day(&mut Dice::new(seed)),
        [seed, bytes] => full(&mut Dice::new(seed), bytes as usize),
        _ => {
            eprintln!("days SEED [BYTES]");
            std::process::exit(2);
        }
    };
    if std::io::stdout().lock().write_all(&text).is_err() {
        std::process::exit(1);
    }
}
