//! Sheets for forecasting: with many values, kinds that are never used, rules that carry
//! nothing, no rows, or a figure at the limit or next to it.

use super::carrying::{any_size, layers, lines_of};
use super::series::{fresh_chain, End};
use super::sheets::{any_rule, entry, mixed, row, some_kinds, states, Entry, Kind, Mood, Sheet};
use super::{zeros, Random};
use crate::{Figure, Line};

const FRESH: u32 = 100;
const LIMIT: u64 = 4_294_967_295;
const MOST_ROWS: usize = 1_024;

type Style = fn(&mut Random) -> Sheet;

/// How often each style is taken, its name and its maker.
const STYLES: [(usize, &str, Style); 7] = [
    (4, "values", values),
    (3, "unused", unused),
    (2, "nothing", nothing),
    (1, "rowless", rowless),
    (2, "edge", |random| at_limit(random, values_at)),
    (2, "edge", |random| at_limit(random, records_at)),
    (2, "edge", |random| at_limit(random, pairs_at)),
];

pub fn random(random: &mut Random) -> (&'static str, Sheet) {
    let total = STYLES.iter().map(|style| style.0).sum();
    let mut at = random.below(total);
    for (weight, name, make) in STYLES {
        if at < weight {
            return (name, make(random));
        }
        at -= weight;
    }
    unreachable!("the weights add up to the total")
}

/// Rows of a kind that hold so many different values, multiples of a step, and no 0.
pub fn rows_of(kind: Kind, values: usize, step: u32) -> Vec<Entry> {
    let values: Vec<u32> = (1..=values as u32).map(|value| value * step).collect();
    let row = |part: &[u32]| {
        let mut numbers = part.to_vec();
        numbers.resize(kind.width, part[0]);
        entry(kind, &numbers)
    };
    values.chunks(kind.width).map(row).collect()
}

/// Up to 6,144 different values, and rules to later kinds.
fn values(random: &mut Random) -> Sheet {
    let count = random.between(1, 6);
    let kinds = some_kinds(random, count, 1, 6);
    let rules = any_size(random, 20);
    let mut sheet = layers(random, kinds, rules, 2);
    let rows = any_size(random, MOST_ROWS);
    let most = random.pick(&[0, 0, 100, 1_000, 10_000]);
    if random.chance(30) {
        let kind = random.pick(&sheet.kinds);
        let values = any_size(random, MOST_ROWS * kind.width);
        let step = random.pick(&[1, 4_096, 16_000]);
        sheet.rows = rows_of(kind, values, step);
        random.shuffle(&mut sheet.rows);
        return sheet;
    }
    for _ in 0..rows {
        let kind = random.pick(&sheet.kinds);
        sheet.rows.push(row(random, kind, most));
    }
    sheet
}

/// Many kinds, few of which stand in a rule or a row.
fn unused(random: &mut Random) -> Sheet {
    let (count, high) = (any_size(random, 64), random.between(1, 6));
    let all = some_kinds(random, count, 1, high);
    let share = random.pick(&[5, 20, 50]);
    let mut used = all.clone();
    used.retain(|_| random.chance(share));
    if used.is_empty() {
        return Sheet::new(all);
    }
    let rules = random.below(8);
    let mut sheet = layers(random, used, rules, 2);
    for _ in 0..random.below(8) {
        let kind = random.pick(&sheet.kinds);
        sheet.rows.push(row(random, kind, 6));
    }
    sheet.kinds = all;
    sheet
}

/// Rules that carry nothing, some among others that make no fresh number.
fn nothing(random: &mut Random) -> Sheet {
    let count = random.between(1, 6);
    let mut sheet = Sheet::new(some_kinds(random, count, 1, 4));
    let others = random.pick(&[0, 0, 50]);
    for _ in 0..any_size(random, 256) {
        let carry = if random.chance(others) { 100 } else { 0 };
        let mood = Mood {
            carry,
            ..Mood::new(random)
        };
        let rule = any_rule(random, &mood, &sheet.kinds);
        sheet.rules.push(rule);
    }
    for _ in 0..random.below(20) {
        let kind = random.pick(&sheet.kinds);
        sheet.rows.push(row(random, kind, 6));
    }
    sheet
}

fn rowless(random: &mut Random) -> Sheet {
    let count = random.between(1, 20);
    let kinds = some_kinds(random, count, 1, 6);
    let rules = random.below(30);
    mixed(random, kinds, rules, 0)
}

/// A sheet that has the limit as a figure, or a number next to it.
fn at_limit(random: &mut Random, make: fn(&mut Random, u64) -> Option<Sheet>) -> Sheet {
    loop {
        let wanted = LIMIT - 2 + random.pick(&[0, 1, 2, 2, 2, 3, 3, 3, 4]);
        if let Some(mut sheet) = make(random, wanted) {
            random.shuffle(&mut sheet.rules);
            random.shuffle(&mut sheet.rows);
            if random.chance(40) {
                leave_out(random, &mut sheet);
            }
            return sheet;
        }
    }
}

/// Makes some or all values 0 that stand once in their row and so once in the table: each 0 is
/// a value too.
fn leave_out(random: &mut Random, sheet: &mut Sheet) {
    let percent = random.pick(&[10, 33, 100]);
    for row in &mut sheet.rows {
        let mut values = row.numbers.clone();
        values.sort_unstable();
        if values.windows(2).all(|pair| pair[0] != pair[1]) {
            zeros::put(random, row, percent);
        }
    }
}

/// How often a number has each power of t, from 0 to 6: its digits to the base t.
fn powers(number: u64, t: u64) -> [u64; 7] {
    let mut times = [0; 7];
    let mut rest = number;
    for place in &mut times[..6] {
        *place = rest % t;
        rest /= t;
    }
    times[6] = rest;
    times
}

const ALL: [u32; 6] = [1, 2, 3, 4, 5, 6];

/// A rule from a kind of six fields that carries so many marks and makes so many fresh ones.
fn rule(from: Kind, to: Kind, carried: usize, fresh: u32) -> Vec<Entry> {
    let mut marks = ALL[..carried].to_vec();
    marks.extend((0..fresh).map(|mark| FRESH + mark));
    let mut rule = vec![entry(from, &ALL)];
    for part in marks.chunks(to.width) {
        let mut part = part.to_vec();
        part.resize(to.width, part[0]);
        rule.push(entry(to, &part));
    }
    rule
}

fn wide(kind: u32) -> Kind {
    Kind { kind, width: 6 }
}

/// So many values after one generation.
fn values_at(random: &mut Random, wanted: u64) -> Option<Sheet> {
    let t = random.between(20, 300);
    let fresh = powers(wanted - t as u64, t as u64);
    let (from, to) = (wide(1), wide(2));
    let mut sheet = Sheet::new(vec![from, to]);
    for (carried, mut fresh) in fresh.into_iter().enumerate() {
        while fresh > 0 && sheet.rules.len() <= 256 {
            let most = fresh.min(6) as usize;
            let part = most.min(random.pick(&[6, 6, 6, 5, 4, most]));
            sheet.rules.push(rule(from, to, carried, part as u32));
            fresh -= part as u64;
        }
    }
    sheet.rows = rows_of(from, t, 3);
    (sheet.rules.len() <= 256).then_some(sheet)
}

/// So many records, without any rule.
fn records_at(random: &mut Random, wanted: u64) -> Option<Sheet> {
    let fits = |&t: &u64| {
        let times = powers(wanted, t);
        let widest = (1..7).rev().find(|&width| times[width] > 0);
        let rows = widest.map_or(u64::MAX, |widest| t.div_ceil(widest as u64));
        times[0] == 0 && times.iter().sum::<u64>() <= 64 && rows <= MOST_ROWS as u64
    };
    let all: Vec<u64> = (2..=6_144).filter(fits).collect();
    if all.is_empty() {
        return None;
    }
    let t = random.pick(&all);
    let times = powers(wanted, t);
    let widths = (1..7).flat_map(|width| vec![width; times[width] as usize]);
    let mut widths: Vec<usize> = widths.collect();
    random.shuffle(&mut widths);
    let kinds = (1..).zip(widths).map(|(kind, width)| Kind { kind, width });
    let mut sheet = Sheet::new(kinds.collect());
    let widest = *sheet.kinds.iter().max_by_key(|kind| kind.width)?;
    sheet.rows = rows_of(widest, t as usize, 7);
    Some(sheet)
}

/// So many pairs, of rules none of which fires.
fn pairs_at(random: &mut Random, wanted: u64) -> Option<Sheet> {
    let t = random.between(30, 120);
    let times = powers(wanted, t as u64);
    if times.iter().sum::<u64>() > 256 {
        return None;
    }
    let kind = Kind { kind: 3, width: 1 };
    let (from, to) = (wide(1), wide(2));
    let mut sheet = Sheet::new(vec![from, to, kind]);
    for (carried, &times) in times.iter().enumerate() {
        for _ in 0..times {
            let least = u32::from(carried == 0);
            let fresh = random.between(least as usize, 6) as u32;
            sheet.rules.push(rule(from, to, carried, fresh));
        }
    }
    sheet.rows = rows_of(kind, t, 1);
    Some(sheet)
}

/// A sheet at a limit of forecasting, with its figures or its refusal and line.
pub struct Limit {
    pub name: &'static str,
    pub lines: Vec<Line>,
    pub wanted: Result<[Figure; 3], (u32, usize)>,
}

const PAIR: &str = "K 1 1; K 2 2; K 3 3; B 1 1; H 2 2 3; H 2 3 2; R 1 4; R 1 8";
const WIDE: &str = "K 1 6; K 2 6; K 3 6; B 1 1 2 3 4 5 6; H 2 1 2 3 4 5 6; H 3 1 2 3 4 5 6;
    B 1 1 2 3 4 5 6; H 1 2 1 3 4 5 6; H 1 2 3 4 5 6 1; H 1 1 1 3 4 5 6;";

/// The limits of forecasting, at each and just past it.
pub fn limits() -> Vec<Limit> {
    let mut all = written_limits();
    let mut add = |name, sheet: Sheet, wanted| {
        all.push(Limit {
            name,
            lines: sheet.lines(),
            wanted: Ok(wanted),
        });
    };
    let most = Some(u32::MAX);
    add(
        "255 values, the most records",
        fifteen(0),
        [Some(255), most, Some(0)],
    );
    add("a kind more", fifteen(1), [Some(255), None, Some(0)]);
    let mut fourth = Sheet::new(vec![Kind { kind: 1, width: 4 }]);
    fourth.rows = rows_of(fourth.kinds[0], 256, 1);
    add("a record more", fourth, [Some(256), None, Some(0)]);
    let mut random = Random::new(1);
    for past in 0..3 {
        let mut exact = |make: fn(&mut Random, u64) -> Option<Sheet>| {
            let all = std::iter::repeat_with(|| make(&mut random, LIMIT - 1 + past));
            all.flatten().next().expect("a sheet")
        };
        let wanted = figure(LIMIT - 1 + past);
        add(
            "values about the most",
            exact(values_at),
            [wanted, None, None],
        );
        let sheet = exact(pairs_at);
        let t = sheet.rows.len() as u64;
        let records = figure(2 * t.pow(6) + t);
        add("pairs about the most", sheet, [figure(t), records, wanted]);
    }
    let mut rows = Sheet::new(vec![wide(1)]);
    rows.rows = rows_of(wide(1), 6_144, 16_000);
    add("6,144 values", rows.clone(), [Some(6_144), None, Some(0)]);
    rows.rules = vec![rule(wide(1), wide(1), 6, 0), rule(wide(1), wide(1), 2, 0)];
    add("6,144 values, two rules", rows, [Some(6_144), None, None]);
    let mut missing = fifteen(0);
    missing.rows.iter_mut().for_each(|row| row.numbers.fill(0));
    add("255 zeros", missing, [Some(255), most, Some(0)]);
    let mut missing = fifteen(0);
    missing.rows.push(entry(missing.kinds[14], &[0]));
    add("255 values and a 0", missing, [Some(256), None, Some(0)]);
    let mut missing = Sheet::new(vec![wide(1)]);
    missing.rows = vec![entry(wide(1), &[0; 6]); MOST_ROWS];
    add("6,144 zeros", missing, [Some(6_144), None, Some(0)]);
    let chain = fresh_chain(&mut random, 64, false, End::Stops);
    add("63 generations", chain, [None, None, None]);
    let mut deep = std::iter::repeat_with(|| states(&mut random));
    let settles = |sheet: &Sheet| {
        let verdict = crate::judge(sheet.lines().as_flattened(), 20_480);
        verdict.is_ok_and(|verdict| verdict.deepest > 200)
    };
    let deep = deep.find(settles).expect("a deep sheet");
    add("over 200 generations", deep, [None, None, None]);
    let kinds: Vec<Kind> = (1..=64).map(|kind| Kind { kind, width: 1 }).collect();
    let mut most_lines = Sheet::new(kinds.clone());
    most_lines.rules = vec![vec![entry(kinds[0], &[1]); 5]; 256];
    most_lines.rows = rows_of(kinds[0], 1_024, 1);
    let figures = [Some(1_024), Some(64 * 1_024), Some(256 * 1_024)];
    add("2,368 lines", most_lines, figures);
    all
}

fn written_limits() -> Vec<Limit> {
    let figures = |values, records, pairs| Ok([values, records, pairs].map(Some));
    let refused = |number, line| Err((number, line));
    let shapes = format!("{WIDE} R 1 1 2 3 4 5 6");
    let both = format!("{WIDE} B 1 1 2 3 4 5 6; H 1 2 3 4 5 6 7; R 1 1 2 3 4 5 6");
    let all = [
        ("no lines", "", figures(0, 0, 0)),
        ("kinds alone", "K 1 6; K 64 6", figures(0, 0, 0)),
        ("a row alone", "K 1 2; R 1 7 7", figures(1, 1, 0)),
        ("a row of zeros alone", "K 1 2; R 1 0 0", figures(2, 4, 0)),
        (
            "zeros and a value",
            "K 1 2; B 1 1 1; H 1 2 1; R 1 0 0; R 1 0 0; R 1 7 7",
            figures(10, 100, 10),
        ),
        (
            "zeros alone: no rule fires",
            "K 1 2; B 1 1 1; H 1 2 1; R 1 0 0; R 1 0 0",
            figures(4, 16, 4),
        ),
        (
            "a 0 carried to two fields",
            "K 1 1; K 2 2; K 3 2; B 1 1; H 2 1 1; B 2 1 1; H 3 1 2; R 1 0",
            figures(2, 10, 4),
        ),
        ("no rows", "K 1 2; B 1 1 2; H 1 2 3", figures(0, 0, 0)),
        (
            "no rows, a rule that carries nothing",
            "K 1 1; B 1 1; H 1 2",
            figures(0, 0, 1),
        ),
        (
            "one row",
            "K 1 2; B 1 1 2; H 1 1 3; R 1 7 8",
            figures(4, 16, 4),
        ),
        (
            "two generations",
            "K 1 1; K 2 1; K 3 2; B 1 1; H 2 2; B 2 1; H 3 1 2; R 1 5",
            figures(5, 35, 6),
        ),
        (
            "a rule that carries nothing",
            &PAIR.replace("K 3 3;", ""),
            figures(4, 20, 1),
        ),
        ("a kind that is not used", PAIR, figures(4, 84, 1)),
        ("no line's letter", "K 1 1; X 1 1", refused(8, 2)),
        ("a B line last", "K 1 1; B 1 1", refused(8, 3)),
        (
            "a number too large",
            "K 1 2; B 1 1 2; H 1 2 3; R 1 7 8; R 1 100000000 1",
            refused(8, 5),
        ),
        ("over 512 shapes", &shapes, refused(11, 0)),
        ("over 512 shapes, endless", &both, refused(11, 0)),
        (
            "endless",
            "K 1 2; B 1 1 2; H 1 2 3; R 1 7 8",
            refused(21, 0),
        ),
    ];
    let limit = |(name, form, wanted): (_, &str, _)| Limit {
        name,
        lines: lines_of(form),
        wanted,
    };
    all.map(limit).into_iter().collect()
}

fn figure(number: u64) -> Figure {
    u32::try_from(number).ok()
}

/// 255 values in fifteen kinds, and so many kinds more.
fn fifteen(more: usize) -> Sheet {
    let widths = [4, 3, 3, 3, 3, 2, 2, 2, 2, 2, 2, 1, 1, 1, 1].into_iter();
    let widths = widths.chain(vec![1; more]);
    let kinds = (1..).zip(widths).map(|(kind, width)| Kind { kind, width });
    let mut sheet = Sheet::new(kinds.collect());
    sheet.rows = rows_of(sheet.kinds[14], 255, 1);
    sheet
}
