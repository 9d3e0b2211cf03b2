//! Random sheets in many styles and sizes, some at or just past the limits.

use super::{limits, zeros, Random};
use crate::Line;

/// A line with a kind: a record, or a B or H line whose marks have any labels.
#[derive(Clone)]
pub struct Entry {
    pub kind: u32,
    pub numbers: Vec<u32>,
}

#[derive(Clone, Copy)]
pub struct Kind {
    pub kind: u32,
    pub width: usize,
}

/// A rule is its B entry and then its H entries.
#[derive(Clone)]
pub struct Sheet {
    pub kinds: Vec<Kind>,
    pub rules: Vec<Vec<Entry>>,
    pub rows: Vec<Entry>,
    pub most_marks: u32,
}

impl Sheet {
    pub fn new(kinds: Vec<Kind>) -> Sheet {
        Sheet {
            kinds,
            rules: Vec::new(),
            rows: Vec::new(),
            most_marks: 12,
        }
    }

    pub fn lines(&self) -> Vec<Line> {
        let mut lines = Vec::new();
        for kind in &self.kinds {
            lines.push(line(b'K', kind.kind, &[kind.width as u32]));
        }
        for rule in &self.rules {
            let mut letter = b'B';
            for entry in numbered(rule, self.most_marks) {
                lines.push(line(letter, entry.kind, &entry.numbers));
                letter = b'H';
            }
        }
        for row in &self.rows {
            lines.push(line(b'R', row.kind, &row.numbers));
        }
        lines
    }
}

pub fn entry(kind: Kind, numbers: &[u32]) -> Entry {
    Entry {
        kind: kind.kind,
        numbers: numbers.to_vec(),
    }
}

fn line(letter: u8, kind: u32, numbers: &[u32]) -> Line {
    let mut line = [0; 8];
    line[0] = u32::from(letter);
    line[1] = kind;
    line[2..2 + numbers.len()].copy_from_slice(numbers);
    line
}

/// The same rule with its marks numbered by first appearance; past the most
/// marks, all further labels share the last one.
fn numbered(rule: &[Entry], most: u32) -> Vec<Entry> {
    let mut seen: Vec<u32> = Vec::new();
    let mut number = |label: &u32| {
        let at = seen.iter().position(|l| l == label).unwrap_or_else(|| {
            seen.push(*label);
            seen.len() - 1
        });
        most.min(at as u32 + 1)
    };
    rule.iter()
        .map(|entry| Entry {
            kind: entry.kind,
            numbers: entry.numbers.iter().map(&mut number).collect(),
        })
        .collect()
}

/// The text of lines: each has the columns that its kind's K line asks for, two
/// where the kind has none.
pub fn text_of(lines: &[Line]) -> Vec<u8> {
    let mut widths = [1; 128];
    let mut text = Vec::new();
    for line in lines {
        let mut columns = 2;
        if line[0] == u32::from(b'K') {
            widths[line[1] as usize % 128] = line[2] as usize;
        } else {
            columns = 1 + widths[line[1] as usize % 128];
        }
        text.push(line[0] as u8);
        for number in &line[1..=columns] {
            text.extend_from_slice(format!("{number:9}").as_bytes());
        }
        text.push(b'\n');
    }
    text
}

type Style = fn(&mut Random) -> Sheet;

/// How often each style is taken, its name and its maker.
const STYLES: [(usize, &str, Style); 15] = [
    (1, "empty", |_| Sheet::new(Vec::new())),
    (18, "few", few),
    (22, "knot", knot),
    (16, "some", some),
    (3, "many", many),
    (14, "patterned", patterned),
    (6, "hinge", hinge),
    (8, "chain", chain),
    (6, "rotor", rotor),
    (3, "ladder", ladder),
    (3, "states", states),
    (1, "merging", limits::merging),
    (2, "shapes", limits::shapes),
    (4, "limits", limits::limits),
    (1, "long", limits::long),
];

pub fn random(random: &mut Random) -> (&'static str, Sheet) {
    let total = STYLES.iter().map(|style| style.0).sum();
    let mut at = random.below(total);
    for (weight, name, make) in STYLES {
        if at < weight {
            return (name, make(random));
        }
        at -= weight;
    }
    unreachable!("the weights add up to the total")
}

/// So many kinds with rising numbers and widths from a range.
pub fn some_kinds(random: &mut Random, count: usize, low: usize, high: usize) -> Vec<Kind> {
    let mut numbers: Vec<u32> = (1..=64).collect();
    if random.chance(50) {
        random.shuffle(&mut numbers);
    }
    numbers.truncate(count);
    numbers.sort_unstable();
    let kind = |kind| Kind {
        kind,
        width: random.between(low, high),
    };
    numbers.into_iter().map(kind).collect()
}

/// Percentages that shape random rules.
pub struct Mood {
    pub repeat: usize,
    pub carry: usize,
    pub again: usize,
    pub forward: usize,
    pub heads: usize,
}

impl Mood {
    pub fn new(random: &mut Random) -> Mood {
        Mood {
            repeat: random.pick(&[0, 0, 10, 25, 50]),
            carry: random.pick(&[0, 30, 50, 60, 70, 80, 90, 100]),
            again: random.pick(&[0, 30, 80]),
            forward: random.pick(&[0, 0, 30, 60, 90]),
            heads: random.pick(&[1, 1, 2, 4]),
        }
    }
}

const FRESH: u32 = 100;

/// A rule between random kinds. Labels from 1 stand in B, from FRESH they are fresh.
pub fn any_rule(random: &mut Random, mood: &Mood, kinds: &[Kind]) -> Vec<Entry> {
    let at = random.below(kinds.len());
    let body = body(random, kinds[at], mood.repeat);
    let mut rule = vec![body];
    for _ in 0..random.between(1, mood.heads) {
        let later = at + 1 < kinds.len() && random.chance(mood.forward);
        let to = if later {
            random.between(at + 1, kinds.len() - 1)
        } else {
            random.below(kinds.len())
        };
        let head = head(random, mood, &rule, kinds[to]);
        rule.push(head);
    }
    rule
}

fn body(random: &mut Random, kind: Kind, repeat: usize) -> Entry {
    let mut numbers: Vec<u32> = Vec::new();
    for field in 0..kind.width {
        if field > 0 && random.chance(repeat) {
            numbers.push(random.pick(&numbers));
        } else {
            numbers.push(field as u32 + 1);
        }
    }
    entry(kind, &numbers)
}

fn head(random: &mut Random, mood: &Mood, rule: &[Entry], kind: Kind) -> Entry {
    let marks = rule.iter().flat_map(|entry| entry.numbers.iter().copied());
    let mut fresh: Vec<u32> = marks.filter(|&mark| mark >= FRESH).collect();
    let mut numbers = Vec::new();
    for _ in 0..kind.width {
        if random.chance(mood.carry) {
            numbers.push(random.pick(&rule[0].numbers));
        } else {
            if fresh.is_empty() || !random.chance(mood.again) {
                fresh.push(FRESH + fresh.len() as u32);
            }
            let mark = random.pick(&fresh);
            numbers.push(mark);
        }
    }
    entry(kind, &numbers)
}

/// A row of a kind, with values from 1 to `most` or, where that is 0, any.
pub fn row(random: &mut Random, kind: Kind, most: usize) -> Entry {
    let most = if most == 0 { 99_999_999 } else { most };
    let value = |_| random.between(1, most) as u32;
    let numbers: Vec<u32> = (0..kind.width).map(value).collect();
    entry(kind, &numbers)
}

fn add_rows(random: &mut Random, sheet: &mut Sheet, count: usize) {
    let most = random.pick(&[1, 2, 3, 6, 20, 0]);
    for _ in 0..count {
        let kind = random.pick(&sheet.kinds);
        sheet.rows.push(row(random, kind, most));
    }
}

pub fn mixed(random: &mut Random, kinds: Vec<Kind>, rules: usize, rows: usize) -> Sheet {
    let mood = Mood::new(random);
    let mut sheet = Sheet::new(kinds);
    for _ in 0..rules {
        let rule = any_rule(random, &mood, &sheet.kinds);
        sheet.rules.push(rule);
    }
    add_rows(random, &mut sheet, rows);
    sheet
}

pub fn few(random: &mut Random) -> Sheet {
    let count = random.between(1, 3);
    let kinds = some_kinds(random, count, 1, 3);
    let (rules, rows) = (random.below(7), random.pick(&[0, 1, 1, 2, 2, 3, 4, 5]));
    mixed(random, kinds, rules, rows)
}

/// Few kinds, and rules that both carry and make fresh numbers: mostly endless.
fn knot(random: &mut Random) -> Sheet {
    let count = random.between(1, 3);
    let kinds = some_kinds(random, count, 1, 4);
    let mood = Mood {
        carry: random.pick(&[30, 50, 70, 85]),
        forward: 0,
        ..Mood::new(random)
    };
    let mut sheet = Sheet::new(kinds);
    for _ in 0..random.between(2, 6) {
        let rule = any_rule(random, &mood, &sheet.kinds);
        sheet.rules.push(rule);
    }
    let rows = random.between(1, 5);
    add_rows(random, &mut sheet, rows);
    sheet
}

fn some(random: &mut Random) -> Sheet {
    let count = random.between(2, 12);
    let high = random.between(1, 6);
    let kinds = some_kinds(random, count, 1, high);
    let (rules, rows) = (random.between(1, 20), random.between(1, 12));
    mixed(random, kinds, rules, rows)
}

fn many(random: &mut Random) -> Sheet {
    let count = random.between(10, 40);
    let high = random.between(2, 6);
    let kinds = some_kinds(random, count, 1, high);
    let (rules, rows) = (random.between(20, 110), random.below(200));
    mixed(random, kinds, rules, rows)
}

/// One or two wide kinds, where equal fields decide what fires.
fn patterned(random: &mut Random) -> Sheet {
    let count = random.between(1, 2);
    let kinds = some_kinds(random, count, 2, 6);
    let mood = Mood {
        repeat: random.between(20, 70),
        carry: random.pick(&[50, 60, 75, 90]),
        ..Mood::new(random)
    };
    let mut sheet = Sheet::new(kinds);
    for _ in 0..random.between(1, 12) {
        let rule = any_rule(random, &mood, &sheet.kinds);
        sheet.rules.push(rule);
    }
    let rows = random.between(1, 5);
    add_rows(random, &mut sheet, rows);
    sheet
}

/// Rows of one kind, where equal fields, often zeros, decide whether the rules of the others
/// ever fire.
fn hinge(random: &mut Random) -> Sheet {
    let count = random.between(2, 4);
    let kinds = some_kinds(random, count, 2, 4);
    let (start, others) = (kinds[0], &kinds[1..]);
    let mood = Mood {
        carry: random.pick(&[30, 50, 70, 85]),
        forward: 0,
        ..Mood::new(random)
    };
    let mut rules = Vec::new();
    for _ in 0..random.between(1, 2) {
        let mut rule = vec![body(random, start, 60)];
        let to = random.pick(others);
        rule.push(head(random, &mood, &rule, to));
        rules.push(rule);
    }
    for _ in 0..random.between(2, 6) {
        rules.push(any_rule(random, &mood, others));
    }
    let mut sheet = Sheet::new(kinds);
    sheet.rules = rules;
    let missing = random.pick(&[0, 30, 60, 100]);
    for _ in 0..random.between(1, 3) {
        let mut row = row(random, start, 2);
        zeros::put(random, &mut row, missing);
        sheet.rows.push(row);
    }
    sheet
}

/// Mostly short, sometimes up to the most kinds.
fn length(random: &mut Random) -> usize {
    match random.below(10) {
        0 => random.between(30, 64),
        1 | 2 => random.between(8, 30),
        _ => random.between(2, 8),
    }
}

/// Kinds in a row, each leading to the next; sometimes back to an earlier one.
/// One field's number is followed all the way: carried or, so often, to a fresh one.
fn chain(random: &mut Random) -> Sheet {
    let count = length(random);
    let high = random.between(1, 6);
    let kinds = some_kinds(random, count, 1, high);
    let mut order = kinds.clone();
    if random.chance(60) {
        random.shuffle(&mut order);
    }
    let places: Vec<usize> = order.iter().map(|kind| random.below(kind.width)).collect();
    let fresh = random.pick(&[0, 3, 20, 60, 100]);
    let mut sheet = Sheet::new(kinds);
    for at in 1..count {
        let (from, to) = ((order[at - 1], places[at - 1]), (order[at], places[at]));
        sheet.rules.push(link(random, from, to, fresh));
    }
    if random.chance(50) {
        let back = if random.chance(60) {
            0
        } else {
            random.below(count)
        };
        let place = if random.chance(60) {
            places[back]
        } else {
            random.below(order[back].width)
        };
        let from = (order[count - 1], places[count - 1]);
        sheet
            .rules
            .push(link(random, from, (order[back], place), fresh));
    }
    finish_chain(random, &mut sheet, order[0]);
    sheet
}

/// A rule from a field of one kind to a field of another.
fn link(random: &mut Random, from: (Kind, usize), to: (Kind, usize), fresh: usize) -> Vec<Entry> {
    let mood = Mood {
        carry: random.pick(&[0, 20, 50]),
        ..Mood::new(random)
    };
    let mut rule = vec![body(random, from.0, 0)];
    let mut head = head(random, &mood, &rule, to.0);
    let followed = rule[0].numbers[from.1];
    if !random.chance(fresh) {
        head.numbers[to.1] = followed;
    } else {
        head.numbers[to.1] = 2 * FRESH;
        let mut carries = head.clone();
        let beside = (to.1 + 1) % to.0.width;
        carries.numbers[beside] = followed;
        rule.push(carries);
    }
    rule.insert(1, head);
    rule
}

/// Rules in any order, and a row at the start, sometimes after others.
fn finish_chain(random: &mut Random, sheet: &mut Sheet, start: Kind) {
    if random.chance(50) {
        random.shuffle(&mut sheet.rules);
    }
    if random.chance(30) {
        let rows = random.between(1, 5);
        add_rows(random, sheet, rows);
    }
    if random.chance(95) {
        sheet.rows.push(row(random, start, 0));
    }
}

/// Kinds in a row; a number turns through all fields of each but the last, and then a
/// fresh one follows it. A table value stands in the other fields.
fn rotor(random: &mut Random) -> Sheet {
    let count = length(random);
    let width = random.between(3, 6);
    let kinds = some_kinds(random, count, width, width);
    let mut order = kinds.clone();
    random.shuffle(&mut order);
    let mut sheet = Sheet::new(kinds);
    let body: Vec<u32> = (1..=width as u32).collect();
    let mut turned = body.clone();
    turned[..width - 1].rotate_right(1);
    let mut made = vec![width as u32; width];
    made[0] = FRESH;
    let mut carries = vec![width as u32; width];
    carries[width - 2] = width as u32 - 1;
    let start = order[0];
    let back = if random.chance(60) {
        start
    } else {
        random.pick(&order)
    };
    let closes = random.chance(50);
    for (at, &kind) in order.iter().enumerate() {
        let fires = entry(kind, &body);
        sheet.rules.push(vec![fires.clone(), entry(kind, &turned)]);
        let next = order.get(at + 1).copied();
        if let Some(next) = next.or(closes.then_some(back)) {
            sheet
                .rules
                .push(vec![fires, entry(next, &made), entry(kind, &carries)]);
        }
    }
    finish_chain(random, &mut sheet, start);
    let mut values = vec![8; width];
    values[0] = 7;
    sheet.rows.push(entry(start, &values));
    sheet
}

/// Kinds in a row; in each, a field's number leads to a fresh one in the field after it.
fn ladder(random: &mut Random) -> Sheet {
    let count = length(random);
    let width = random.between(2, 6);
    let kinds = some_kinds(random, count, width, width);
    let mut order = kinds.clone();
    random.shuffle(&mut order);
    let mut sheet = Sheet::new(kinds);
    let rungs = (width - 1).min(256 / count - 1);
    let body: Vec<u32> = (1..=width as u32).collect();
    let fresh = |from: u32| (from..=width as u32).map(|field| FRESH + field);
    for (at, &kind) in order.iter().enumerate() {
        for rung in 1..=rungs as u32 {
            let made: Vec<u32> = (1..=rung).chain(fresh(rung + 1)).collect();
            sheet
                .rules
                .push(vec![entry(kind, &body), entry(kind, &made)]);
        }
        if let Some(&next) = order.get(at + 1) {
            let made: Vec<u32> = [rungs as u32 + 1].into_iter().chain(fresh(2)).collect();
            sheet
                .rules
                .push(vec![entry(kind, &body), entry(next, &made)]);
        }
    }
    finish_chain(random, &mut sheet, order[0]);
    sheet
}

/// The ways in which two table values stand in the last four fields of a kind's records.
const WAYS: [[u32; 4]; 7] = [
    [3, 3, 3, 4],
    [3, 3, 4, 3],
    [3, 4, 3, 3],
    [3, 4, 4, 4],
    [3, 3, 4, 4],
    [3, 4, 3, 4],
    [3, 4, 4, 3],
];

fn state(kind: Kind, first: [u32; 2], way: [u32; 4]) -> Entry {
    entry(kind, &[&first[..], &way].concat())
}

/// Kinds in a row, each with seven ways one after the other; in each way a number leads
/// to a fresh one, and that to another in the next way.
pub fn states(random: &mut Random) -> Sheet {
    let count = length(random).min(32);
    let mut sheet = Sheet::new(some_kinds(random, count, 6, 6));
    let made = random.pick(&[[FRESH, 2], [FRESH, 2], [2, FRESH]]);
    let closes = random.chance(40);
    for at in 0..count {
        let kind = sheet.kinds[at];
        let mut add = |way, to, made, next| {
            let rule = vec![state(kind, [1, 2], way), state(to, made, next)];
            sheet.rules.push(rule);
        };
        let any = [3, 4, 5, 6];
        add(any, kind, [1, FRESH], any);
        for pair in WAYS.windows(2) {
            add(pair[0], kind, made, pair[1]);
        }
        let back = closes.then(|| random.pick(&sheet.kinds));
        if let Some(next) = sheet.kinds.get(at + 1).copied().or(back) {
            add(WAYS[6], next, made, WAYS[0]);
        }
    }
    let start = state(sheet.kinds[0], [7, 8], WAYS[0]);
    sheet.rows.push(start);
    sheet
}
