//! Random inputs for comparing two implementations: sheets of many styles,
//! their text and their lent lines, whole and damaged, and the sizes that are lent.

pub mod carrying;
pub mod carrying_series;
pub mod damage;
pub mod forecasting;
pub mod forecasting_series;
pub mod limits;
pub mod series;
pub mod sheets;
pub mod zeros;

use crate::Line;

/// A seeded generator of numbers (splitmix64).
pub struct Random(u64);

impl Random {
    pub fn new(seed: u64) -> Random {
        Random(seed)
    }

    /// A generator for one of many inputs of a run.
    pub fn of_input(seed: u64, index: u64) -> Random {
        Random(Random(seed).next_u64() ^ Random(!index).next_u64())
    }

    pub fn next_u64(&mut self) -> u64 {
        self.0 = self.0.wrapping_add(0x9e37_79b9_7f4a_7c15);
        let mut mixed = self.0;
        mixed = (mixed ^ (mixed >> 30)).wrapping_mul(0xbf58_476d_1ce4_e5b9);
        mixed = (mixed ^ (mixed >> 27)).wrapping_mul(0x94d0_49bb_1331_11eb);
        mixed ^ (mixed >> 31)
    }

    /// A number from 0 to `bound` - 1; 0 where the bound is 0.
    pub fn below(&mut self, bound: usize) -> usize {
        (((self.next_u64() >> 32) * bound as u64) >> 32) as usize
    }

    /// A number from `low` to `high`, both included.
    pub fn between(&mut self, low: usize, high: usize) -> usize {
        low + self.below(high - low + 1)
    }

    pub fn chance(&mut self, percent: usize) -> bool {
        self.below(100) < percent
    }

    pub fn pick<T: Copy>(&mut self, from: &[T]) -> T {
        from[self.below(from.len())]
    }

    pub fn shuffle<T>(&mut self, items: &mut [T]) {
        for last in (1..items.len()).rev() {
            items.swap(last, self.below(last + 1));
        }
    }

    pub fn bytes(&mut self, count: usize) -> Vec<u8> {
        let mut bytes = Vec::with_capacity(count + 8);
        while bytes.len() < count {
            bytes.extend_from_slice(&self.next_u64().to_le_bytes());
        }
        bytes.truncate(count);
        bytes
    }
}

/// What both implementations are given. Sizes are in bytes.
pub struct Input {
    pub style: &'static str,
    pub text: Vec<u8>,
    pub lent_lines: usize,
    pub lines: Vec<u8>,
    pub lent_text: usize,
    pub lent_steps: usize,
    pub lent_records: usize,
    pub fields: Vec<u8>,
}

const LINE: usize = 32;
const ALL_STEPS: usize = 40_960;
const ALL_RECORDS: usize = 131_072;

impl Input {
    pub fn new(random: &mut Random) -> Input {
        let (style, mut sheet) = match random.below(16) {
            0 | 1 => carrying::random(random),
            2 => forecasting::random(random),
            _ => sheets::random(random),
        };
        if random.chance(30) {
            zeros::scatter(random, &mut sheet);
        }
        let mut lines = sheet.lines();
        if random.chance(50) {
            damage::line_too_many(random, &mut lines);
        }
        let mut text = sheets::text_of(&lines);
        let lent_lines = lent(random, lines.len() * LINE, LINE);
        let lent_text = lent(random, text.len(), 1);
        let mut bytes = bytes_of(lines.as_flattened());
        if random.chance(55) {
            damage::text(random, &mut text);
        }
        if random.chance(30) {
            damage::lines(random, &mut bytes);
        }
        Input {
            style,
            text,
            lent_lines,
            lines: bytes,
            lent_text,
            lent_steps: lent_steps(random),
            lent_records: lent_records(random),
            fields: fields(random),
        }
    }

    /// Whole lines with enough lent for all but the records, for which so much is lent.
    pub fn of_lines(style: &'static str, lines: &[Line], lent_records: usize) -> Input {
        let text = sheets::text_of(lines);
        Input {
            style,
            lent_lines: lines.len() * LINE,
            lines: bytes_of(lines.as_flattened()),
            lent_text: text.len(),
            text,
            lent_steps: ALL_STEPS,
            lent_records,
            fields: bytes_of(&[7, 8, 7]),
        }
    }
}

/// Numbers as a host passes them: four bytes each, lowest first.
pub fn bytes_of(numbers: &[u32]) -> Vec<u8> {
    numbers.iter().flat_map(|n| n.to_le_bytes()).collect()
}

/// How much is lent where so much is needed, in units of `unit` bytes: mostly enough.
fn lent(random: &mut Random, needed: usize, unit: usize) -> usize {
    match random.below(20) {
        0 => needed.saturating_sub(1),
        1 => needed.saturating_sub(unit),
        2 => needed.saturating_sub(unit * random.between(1, 40)),
        3 => random.below(needed + 1),
        4 => needed + random.between(1, 31),
        5 => needed + unit * random.between(1, 40),
        6 => pick_much(random),
        _ => needed,
    }
}

/// Sizes around what the longest text, or the most lines, need.
fn pick_much(random: &mut Random) -> usize {
    random.pick(&[
        32_767, 32_768, 32_769, 52_416, 52_448, 60_007, 75_776, 75_808,
    ])
}

fn lent_steps(random: &mut Random) -> usize {
    match random.below(60) {
        0 => random.pick(&[0, 1, 2, 10]),
        1 => ALL_STEPS - random.pick(&[1, 2, 3, 4, 5, 10]),
        2 => random.below(ALL_STEPS),
        3..=6 => ALL_STEPS + random.between(1, 11),
        7 | 8 => ALL_STEPS + random.below(2_000),
        _ => ALL_STEPS,
    }
}

fn lent_records(random: &mut Random) -> usize {
    match random.below(60) {
        0 => random.pick(&[0, 1, 4, 32]),
        1 => ALL_RECORDS - random.pick(&[1, 2, 3, 4, 5, 31, 32, 33]),
        2 => random.below(ALL_RECORDS),
        3..=6 => ALL_RECORDS + random.between(1, 33),
        7 | 8 => ALL_RECORDS + random.below(2_000),
        _ => ALL_RECORDS,
    }
}

/// A record for the pattern function: mostly one to six values, few different, often with zeros.
fn fields(random: &mut Random) -> Vec<u8> {
    let count = if random.chance(90) {
        random.between(1, 6)
    } else {
        random.pick(&[0, 7, 8, 100])
    };
    let different = random.between(1, 7);
    let palette: Vec<u32> = (0..different).map(|_| value(random)).collect();
    let zeros = random.pick(&[0, 0, 20, 50]);
    let number = |_| match random.chance(zeros) {
        true => 0,
        false => random.pick(&palette),
    };
    let numbers: Vec<u32> = (0..count).map(number).collect();
    let mut bytes = bytes_of(&numbers);
    if random.chance(20) {
        let part = random.between(1, 3);
        bytes.extend(random.bytes(part));
    }
    bytes
}

fn value(random: &mut Random) -> u32 {
    match random.below(4) {
        0 => random.below(3) as u32,
        1 => u32::MAX - random.below(3) as u32,
        2 => 1 << random.below(32),
        _ => random.next_u64() as u32,
    }
}
