//! Sheets for carrying out: most settle and have many records, some exactly as
//! many as allowed or one more, some with numbers up to the largest or past it.

use super::sheets::{entry, row, some_kinds, Kind, Sheet};
use super::zeros::{self, raise_largest};
use super::Random;
use crate::Line;

const FRESH: u32 = 100;
const LARGEST: u32 = 99_999_999;

type Style = fn(&mut Random) -> Sheet;

/// How often each style is taken, its name and its maker.
const STYLES: [(usize, &str, Style); 6] = [
    (8, "spread", spread),
    (2, "closed", closed),
    (2, "wide", wide),
    (3, "full", full),
    (4, "top", top),
    (1, "over", over),
];

pub fn random(random: &mut Random) -> (&'static str, Sheet) {
    let total = STYLES.iter().map(|style| style.0).sum();
    let mut at = random.below(total);
    for (weight, name, make) in STYLES {
        if at < weight {
            return (name, make(random));
        }
        at -= weight;
    }
    unreachable!("the weights add up to the total")
}

/// A number from 1 to `most`, small ones as often as large ones.
pub(super) fn any_size(random: &mut Random, most: usize) -> usize {
    let high = (most + 1) >> random.below(11);
    random.between(1, high.clamp(1, most))
}

/// Rules make fresh numbers for later kinds alone, so that the sheet settles.
pub fn layers(random: &mut Random, kinds: Vec<Kind>, rules: usize, heads: usize) -> Sheet {
    let mut sheet = Sheet::new(kinds);
    let carry = random.pick(&[0, 30, 60, 80, 95]);
    let repeat = random.pick(&[0, 0, 0, 20]);
    for _ in 0..rules {
        let at = random.below(sheet.kinds.len());
        let kind = sheet.kinds[at];
        let mut body: Vec<u32> = (1..=kind.width as u32).collect();
        if random.chance(repeat) {
            let last = body.len() - 1;
            body[last] = body[0];
        }
        let mut rule = vec![entry(kind, &body)];
        for _ in 0..random.between(1, heads) {
            let to = sheet.kinds[random.between(at, sheet.kinds.len() - 1)];
            let carry = if to.kind == kind.kind { 100 } else { carry };
            let mark = |_| match random.chance(carry) {
                true => random.pick(&body),
                false => FRESH + random.below(6) as u32,
            };
            let marks: Vec<u32> = (0..to.width).map(mark).collect();
            rule.push(entry(to, &marks));
        }
        sheet.rules.push(rule);
    }
    sheet
}

/// So many rows, mostly of the first kinds; sometimes with repeats.
fn add_rows(random: &mut Random, sheet: &mut Sheet, count: usize) {
    let most = random.pick(&[3, 10, 100, 1_000, 0]);
    let first = random.between(1, sheet.kinds.len());
    for _ in 0..count {
        let kind = sheet.kinds[random.below(first)];
        let new = match sheet.rows.is_empty() || random.chance(95) {
            true => row(random, kind, most),
            false => again(random, &sheet.rows),
        };
        sheet.rows.push(new);
    }
}

fn again<T: Clone>(random: &mut Random, of: &[T]) -> T {
    of[random.below(of.len())].clone()
}

/// A rule once more, somewhere.
fn rule_twice(random: &mut Random, sheet: &mut Sheet) {
    if sheet.rules.is_empty() || sheet.rules.len() == 256 {
        return;
    }
    let rule = again(random, &sheet.rules);
    let at = random.below(sheet.rules.len() + 1);
    sheet.rules.insert(at, rule);
}

/// A few kinds and any number of rules and rows.
fn spread(random: &mut Random) -> Sheet {
    let count = random.between(2, 12);
    let high = random.between(1, 6);
    let kinds = some_kinds(random, count, 1, high);
    let (rules, heads) = (any_size(random, 60), random.between(1, 4));
    let mut sheet = layers(random, kinds, rules, heads);
    let rows = any_size(random, 900);
    add_rows(random, &mut sheet, rows);
    if random.chance(20) {
        rule_twice(random, &mut sheet);
    }
    sheet
}

/// One kind whose rules move its numbers about: what they make is soon there.
fn closed(random: &mut Random) -> Sheet {
    let width = random.between(2, 6);
    let kinds = some_kinds(random, 1, width, width);
    let rules = any_size(random, 256);
    let mut sheet = layers(random, kinds, rules, 2);
    let rows = random.between(1, 4);
    let most = random.between(2, 5);
    for _ in 0..rows {
        let new = row(random, sheet.kinds[0], most);
        sheet.rows.push(new);
    }
    sheet
}

/// Six fields, four H lines and up to twelve marks.
fn wide(random: &mut Random) -> Sheet {
    let count = random.between(2, 5);
    let kinds = some_kinds(random, count, 6, 6);
    let rules = random.between(1, 6);
    let mut sheet = layers(random, kinds, rules, 1);
    for rule in &mut sheet.rules {
        let last = sheet.kinds[count - 1];
        while rule.len() < 5 && rule[0].kind != last.kind {
            let marks: Vec<u32> = (0..6)
                .map(|_| match random.below(2) {
                    0 => random.pick(&rule[0].numbers),
                    _ => FRESH + random.below(6) as u32,
                })
                .collect();
            rule.push(entry(last, &marks));
        }
    }
    let rows = any_size(random, 400);
    add_rows(random, &mut sheet, rows);
    sheet
}

/// About 4,096 records, often exactly: each row of kind 1 has the same count of followers,
/// each of a kind of its own, and rows of another kind have none.
fn full(random: &mut Random) -> Sheet {
    let wanted = random.pick(&[4_095, 4_096, 4_096, 4_097, 4_097, 4_098]);
    exactly(random, wanted)
}

fn exactly(random: &mut Random, wanted: usize) -> Sheet {
    let followers = match wanted {
        4_096 => random.pick(&[3, 7, 15, 4, 5, 9, 20, 31, 60]),
        _ => random.pick(&[4, 5, 9, 20, 31, 60]),
    };
    let (start, other) = (Kind { kind: 1, width: 1 }, Kind { kind: 2, width: 1 });
    let follower = |kind| Kind {
        kind,
        width: random.between(1, 2),
    };
    let made: Vec<Kind> = (3..3 + followers as u32).map(follower).collect();
    let mut sheet = Sheet::new([&[start, other], &made[..]].concat());
    let fresh = random.pick(&[0, 0, 50, 100]);
    for heads in made.chunks(random.between(1, 4)) {
        let mut rule = vec![entry(start, &[1])];
        for (at, &kind) in heads.iter().enumerate() {
            let mut marks = vec![1; kind.width];
            if kind.width == 2 && random.chance(fresh) {
                marks[random.below(2)] = FRESH + at as u32;
            }
            rule.push(entry(kind, &marks));
        }
        sheet.rules.push(rule);
    }
    let rows = wanted / (1 + followers);
    let step = random.pick(&[1, 1, 4_096, 90_000]);
    sheet.rows = (1..=rows as u32)
        .map(|row| entry(start, &[row * step]))
        .collect();
    let rest = (1..=wanted % (1 + followers)).map(|row| entry(other, &[row as u32]));
    sheet.rows.extend(rest);
    // A value that stands once may as well be missing.
    let missing = random.pick(&[0, 0, 30, 100]);
    for row in &mut sheet.rows {
        zeros::put(random, row, missing);
    }
    if random.chance(50) {
        random.shuffle(&mut sheet.rows);
        random.shuffle(&mut sheet.rules);
    }
    repeat_rows(random, &mut sheet);
    sheet
}

/// Some rows once more, where there is room; not those with a 0, which would be further records.
fn repeat_rows(random: &mut Random, sheet: &mut Sheet) {
    let mut whole = sheet.rows.clone();
    whole.retain(|row| !row.numbers.contains(&0));
    if whole.is_empty() {
        return;
    }
    for _ in 0..random.below(20).min(1_024 - sheet.rows.len()) {
        sheet.rows.push(again(random, &whole));
    }
}

/// A small sheet, half the time with zeros, whose numbers end at the largest one or near it.
fn top(random: &mut Random) -> Sheet {
    let count = random.between(2, 6);
    let kinds = some_kinds(random, count, 1, 3);
    let rules = random.below(13);
    let mut sheet = layers(random, kinds, rules, 2);
    let rows = any_size(random, 60);
    let most = random.pick(&[3, 10, 100]);
    let missing = random.pick(&[0, 0, 10, 33]);
    for _ in 0..rows {
        let kind = sheet.kinds[random.below(2)];
        let mut new = row(random, kind, most);
        zeros::put(random, &mut new, missing);
        sheet.rows.push(new);
    }
    raise_largest(random, &mut sheet);
    sheet
}

/// Past more than one limit at once: endless, too many records, too large a number.
fn over(random: &mut Random) -> Sheet {
    let wanted = random.pick(&[4_000, 4_096, 4_097, 4_097]);
    let mut sheet = exactly(random, wanted);
    let start = sheet.kinds[0];
    let last = Kind { kind: 64, width: 2 };
    sheet.kinds.push(last);
    sheet
        .rules
        .push(vec![entry(start, &[1]), entry(start, &[1])]);
    let fresh = random.pick(&[1, 2]);
    let rule = vec![entry(last, &[1, 2]), entry(last, &[fresh, FRESH])];
    sheet.rules.push(rule);
    let at = random.below(sheet.rows.len());
    sheet.rows[at] = entry(last, &[random.pick(&[0, 7]), random.pick(&[8, LARGEST])]);
    sheet
}

/// A sheet at a limit of carrying out, with its refusal, 0 where it is carried out.
pub struct Limit {
    pub name: &'static str,
    pub lines: Vec<Line>,
    pub refusal: u32,
}

/// Room for records, in bytes: for 4,095 and for 4,096, and parts of numbers more.
pub const ROOMS: [usize; 10] = [
    0, 131_040, 131_043, 131_068, 131_071, 131_072, 131_073, 131_075, 131_103, 131_104,
];

/// P(1) → Q(1), T(1), U(1) and 1,024 rows make 4,096 records.
const FULL: &str = "K 1 1; K 2 1; K 3 1; K 4 1; K 5 1; K 6 2; B 1 1; H 2 1; H 3 1; H 4 1;";
const MIXING: &str = "B 1 1 2 3 4 5 6; H 1 2 1 3 4 5 6; H 1 2 3 4 5 6 1; H 1 1 1 3 4 5 6;";

/// Each limit of carrying out, at it and just past it, and what comes first past two.
pub fn limits() -> Vec<Limit> {
    let mut all = Vec::new();
    let mut add = |refusal, name, form: &str| {
        let lines = lines_of(form);
        all.push(Limit {
            name,
            lines,
            refusal,
        });
    };
    let full = |rule: &str, last: u32| {
        let rows: String = (1..1_024).map(|row| format!("R 1 {row};")).collect();
        format!("{FULL} {rule} {rows} R 1 {last}")
    };
    let fresh = |rows: &str| format!("K 1 1; K 2 2; B 1 1; H 2 2 1; H 2 2 3; {rows}");
    let more = "B 1 1; H 5 2;";
    let endless = "B 1 1; H 6 1 2; B 6 1 2; H 6 2 3;";
    let wide = "K 1 6; K 2 6; K 3 6; K 4 2; B 1 1 2 3 4 5 6; H 2 1 2 3 4 5 6; H 3 1 2 3 4 5 6;";
    add(0, "no lines", "");
    add(0, "no rows", "K 1 2; B 1 1 2; H 1 2 3");
    add(0, "4,096 records", &full("", 99_999_999));
    let twice = "B 1 1; H 2 1;";
    add(0, "4,096 records, a rule twice", &full(twice, 1_024));
    add(22, "4,097 records", &full(more, 1_024));
    add(22, "22 before 23", &full(more, 99_999_999));
    add(21, "21 before 22 and 23", &full(endless, 99_999_999));
    add(0, "the largest number", &fresh("R 1 99999995; R 1 1"));
    add(23, "one above it", &fresh("R 1 99999996; R 1 1"));
    add(
        23,
        "far above it",
        &fresh("R 1 99999999; R 1 1; R 1 7; R 1 7"),
    );
    add(21, "endless", "K 1 2; B 1 1 2; H 1 2 3; R 1 7 99999999");
    let shapes = format!("{wide} {MIXING} B 4 1 2; H 4 2 3; R 1 1 2 3 4 5 6; R 4 7 99999999");
    add(11, "11 before 21 and 23", &shapes);
    add(8, "a wrong line", "K 1 1; B 1 1; H 1 1; R 1 100000000");
    add(0, "repeats", &fresh("R 1 1; R 1 3; R 1 1; R 1 3"));
    let rule = "B 1 1; H 2 2;";
    let twice = format!("K 1 1; K 2 1; {rule} {rule} R 1 5; R 1 6");
    add(0, "a rule that carries nothing, twice", &twice);
    let marks = "B 1 1 2 3 4 5 6; H 2 7 8 9 10 11 12; H 2 12 11 10 9 8 7; H 2 6 12 5 11 4 10;";
    let rows = "H 2 1 2 3 4 5 6; R 1 1 2 3 4 5 6; R 1 6 5 4 3 2 1; R 1 0 0 0 0 0 0";
    add(0, "twelve marks", &format!("K 1 6; K 2 6; {marks} {rows}"));
    all.extend(limits_of_zeros());
    all
}

/// The limits again where labels are not given.
fn limits_of_zeros() -> Vec<Limit> {
    let fresh = |rows: &str| format!("K 1 1; K 2 2; B 1 1; H 2 2 1; H 2 2 3; {rows}");
    let pair = |row: &str| format!("K 1 2; R 1 {row}");
    let full = |rule: &str, last: u32| {
        let rows = "R 1 0;".repeat(1_023);
        format!("{FULL} {rule} {rows} R 1 {last}")
    };
    let six = |rows: usize, first: u32| {
        let rows = "R 1 0 0 0 0 0 0;".repeat(rows);
        format!("K 1 6; R 1 {first} 1 1 1 1 1; {rows}")
    };
    let more = "B 1 1; H 5 2;";
    let endless = "B 1 1; H 6 1 2; B 6 1 2; H 6 2 3;";
    let equal = "K 1 2; K 2 2; B 1 1 1; H 2 1 2; B 2 1 2; H 1 2 2;";
    let all = [
        (0, "zeros alone", "K 1 2; R 1 0 0; R 1 0 0".to_string()),
        (0, "a 0 is the largest number", pair("99999998 0")),
        (23, "a 0 is above it", pair("99999999 0")),
        (23, "a 0 before the largest number", pair("0 99999999")),
        (0, "repeats and zeros", fresh("R 1 0; R 1 3; R 1 0; R 1 3")),
        (0, "fresh after a 0", fresh("R 1 99999994; R 1 0")),
        (23, "one above it", fresh("R 1 99999995; R 1 0")),
        (0, "two zeros", fresh("R 1 99999991; R 1 0; R 1 0")),
        (23, "one above it", fresh("R 1 99999992; R 1 0; R 1 0")),
        (0, "4,096 records", full("", 99_998_976)),
        (23, "the same, one number more", full("", 99_998_977)),
        (22, "4,097 records", full(more, 1)),
        (22, "22 before 23", full(more, 99_999_999)),
        (21, "21 before 22 and 23", full(endless, 99_999_999)),
        (0, "6,138 zeros", six(1_023, 99_993_861)),
        (23, "one above it", six(1_023, 99_993_862)),
        (0, "endless if zeros were equal", format!("{equal} R 1 0 0")),
        (21, "endless", format!("{equal} R 1 0 0; R 1 7 7")),
        (0, "not given once", format!("{equal} R 1 7 0; R 1 0 7")),
        (21, "a 0 carried to two fields", format!("{equal} R 2 7 0")),
    ];
    let limit = |(refusal, name, form): (_, _, String)| Limit {
        name,
        lines: lines_of(&form),
        refusal,
    };
    all.map(limit).into_iter().collect()
}

/// Lent lines of a sheet written like "K 1 2; B 1 1 2; H 1 2 3; R 1 7 8".
pub(super) fn lines_of(form: &str) -> Vec<Line> {
    let line = |words: &str| {
        let (letter, rest) = words.split_at(1);
        let mut line = [0; 8];
        line[0] = u32::from(letter.as_bytes()[0]);
        for (number, word) in line[1..].iter_mut().zip(rest.split_whitespace()) {
            *number = word.parse().expect("a number");
        }
        line
    };
    let lines = form.split(';').map(str::trim);
    lines.filter(|line| !line.is_empty()).map(line).collect()
}
