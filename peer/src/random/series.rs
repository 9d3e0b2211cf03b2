//! Sheets for timing: families of one size each, and layers that grow in shapes or rules.

use super::limits::{add_merges, patterns};
use super::sheets::{self, any_rule, entry, row, some_kinds, Kind, Mood, Sheet};
use super::{zeros, Random};

pub struct Family {
    pub name: &'static str,
    pub sheets: Vec<Sheet>,
}

/// The families of the benchmark's table.
pub fn families(random: &mut Random) -> Vec<Family> {
    let mut all = Vec::new();
    let mut add = |name, sheets| all.push(Family { name, sheets });
    let sheet = rules_and_rows(random, 100, 200);
    add("100 rules, 30 kinds, 200 rows", vec![sheet]);
    let sheet = all_patterns(random, 250);
    add("one kind, 250 rules, 203 shapes", vec![sheet]);
    let sheet = fresh_chain(random, 64, false, End::Stops);
    add("chain of 64 kinds, in order", vec![sheet]);
    let sheet = fresh_chain(random, 64, true, End::Stops);
    add("chain of 64 kinds, shuffled", vec![sheet]);
    let sheet = fresh_chain(random, 60, false, End::Returns);
    add("loop through 60 kinds", vec![sheet]);
    add("300 random sheets", good_sheets(random, 300));
    add("1,024 rows, 30 kinds, 40 rules", vec![most_rows(random)]);
    let sheet = fresh_chain(random, 64, false, End::FeedsItself);
    add("chain of 64 kinds, the last feeds itself", vec![sheet]);
    add("rings of carried numbers, 60 kinds", vec![rings()]);
    for (name, order, end) in LAYERS {
        add(name, vec![layers(random, 8, 256, order, end)]);
    }
    let mut sheet = most_rows(random);
    leave_out_a_third(&mut sheet);
    add("1,024 rows, a third of the values not given", vec![sheet]);
    all
}

/// Makes a third of the rows' values 0, the same ones each time.
pub fn leave_out_a_third(sheet: &mut Sheet) {
    let mut random = Random::new(3);
    for row in &mut sheet.rows {
        zeros::put(&mut random, row, 33);
    }
}

const LAYERS: [(&str, Order, End); 4] = [
    (
        "512 shapes in 64 layers, 256 rules, in order",
        Order::Along,
        End::Stops,
    ),
    ("the same, shuffled", Order::Shuffled, End::Stops),
    ("the same, reversed", Order::Against, End::Stops),
    (
        "the same, reversed, the last layer feeds itself",
        Order::Against,
        End::FeedsItself,
    ),
];

/// Random sheets that are read and judged without a refusal.
fn good_sheets(random: &mut Random, count: usize) -> Vec<Sheet> {
    let good = |sheet: &Sheet| {
        let lines = sheet.lines();
        let read = crate::read(&sheets::text_of(&lines), lines.len());
        read.is_ok() && crate::judge(lines.as_flattened(), 20_480).is_ok()
    };
    let all = std::iter::repeat_with(|| sheets::random(random).1);
    all.filter(good).take(count).collect()
}

/// So many rules over 30 kinds, and so many rows.
pub fn rules_and_rows(random: &mut Random, rules: usize, rows: usize) -> Sheet {
    let kinds = some_kinds(random, 30, 1, 4);
    ordinary(random, kinds, rules, rows, 20)
}

/// As many rows as allowed, over 30 kinds of one or two fields.
fn most_rows(random: &mut Random) -> Sheet {
    let kinds = some_kinds(random, 30, 1, 2);
    ordinary(random, kinds, 40, 1_024, 0)
}

/// Rules mostly to later kinds, and rows with so many values at most, or any where that is 0.
fn ordinary(
    random: &mut Random,
    kinds: Vec<Kind>,
    rules: usize,
    rows: usize,
    values: usize,
) -> Sheet {
    let mood = Mood {
        repeat: 10,
        carry: 60,
        again: 30,
        forward: 60,
        heads: 2,
    };
    let mut sheet = Sheet::new(kinds);
    for _ in 0..rules {
        let rule = any_rule(random, &mood, &sheet.kinds);
        sheet.rules.push(rule);
    }
    for _ in 0..rows {
        let kind = random.pick(&sheet.kinds);
        sheet.rows.push(row(random, kind, values));
    }
    sheet
}

/// One kind of six fields, all of whose patterns are reached from one row.
pub fn all_patterns(random: &mut Random, rules: usize) -> Sheet {
    let kind = Kind { kind: 1, width: 6 };
    let mut sheet = Sheet::new(vec![kind]);
    add_merges(&mut sheet, kind);
    let body: Vec<u32> = (1..=6).collect();
    while sheet.rules.len() < rules {
        let made: Vec<u32> = (0..6).map(|_| random.pick(&body)).collect();
        sheet
            .rules
            .push(vec![entry(kind, &body), entry(kind, &made)]);
    }
    sheet.rows.push(entry(kind, &[11, 12, 13, 14, 15, 16]));
    sheet
}

/// What the last kind of a chain leads to.
#[derive(Clone, Copy, PartialEq, Eq)]
pub enum End {
    /// Nothing: the chain settles.
    Stops,
    /// The first kind.
    Returns,
    /// The last kind itself.
    FeedsItself,
}

/// A chain of kinds, each with a fresh mark from the one before.
pub fn fresh_chain(random: &mut Random, count: usize, shuffled: bool, end: End) -> Sheet {
    let kind = |kind| Kind { kind, width: 2 };
    let mut order: Vec<Kind> = (1..=count as u32).map(kind).collect();
    let mut sheet = Sheet::new(order.clone());
    if shuffled {
        random.shuffle(&mut order);
    }
    sheet.rows.push(entry(order[0], &[7, 8]));
    match end {
        End::Stops => {}
        End::Returns => order.push(order[0]),
        End::FeedsItself => order.push(order[count - 1]),
    }
    for pair in order.windows(2) {
        let rule = vec![entry(pair[0], &[1, 2]), entry(pair[1], &[2, 3])];
        sheet.rules.push(rule);
    }
    if shuffled {
        random.shuffle(&mut sheet.rules);
    }
    sheet
}

const ALL: [u32; 6] = [1, 2, 3, 4, 5, 6];

/// 60 kinds, each of which hands its six fields on to the next, turned by one, and the last
/// to the first: six rings of carried numbers. Another kind puts fresh numbers into five of
/// them, and a fresh number follows one of these at the end. The rows stand against the order.
fn rings() -> Sheet {
    let kind = |kind| Kind { kind, width: 6 };
    let ring: Vec<Kind> = (1..=60).map(kind).collect();
    let (start, end) = (Kind { kind: 61, width: 1 }, Kind { kind: 62, width: 2 });
    let mut sheet = Sheet::new([&ring[..], &[start, end]].concat());
    for (at, &kind) in ring.iter().enumerate() {
        let next = ring[(at + 1) % ring.len()];
        let rule = vec![entry(kind, &ALL), entry(next, &[2, 3, 4, 5, 6, 1])];
        sheet.rules.push(rule);
    }
    let rule = vec![entry(start, &[1]), entry(ring[0], &ALL)];
    sheet.rules.push(rule);
    let rule = vec![entry(ring[59], &ALL), entry(end, &[1, 7])];
    sheet.rules.push(rule);
    for &kind in ring.iter().rev() {
        sheet.rows.push(entry(kind, &ALL));
    }
    sheet.rows.push(entry(start, &[7]));
    sheet
}

/// 64 kinds with so many shapes each, and 128 rules from kinds to later ones.
pub fn carried_patterns(random: &mut Random, each: usize) -> Sheet {
    let kind = |kind| Kind { kind, width: 6 };
    let mut sheet = Sheet::new((1..=64).map(kind).collect());
    for at in 0..128 {
        let from = if at < 63 { at } else { random.below(63) };
        let to = if at < 63 {
            at + 1
        } else {
            random.between(from + 1, 63)
        };
        let (from, to) = (sheet.kinds[from], sheet.kinds[to]);
        sheet.rules.push(vec![
            entry(from, &[1, 2, 3, 4, 5, 6]),
            entry(to, &[1, 2, 3, 4, 6, 7]),
        ]);
    }
    for pattern in patterns(4).into_iter().take(each) {
        for &kind in &sheet.kinds {
            let values = [pattern.as_slice(), &[8, 9]].concat();
            sheet.rows.push(entry(kind, &values));
        }
    }
    sheet
}

/// How the rows of layers stand to the way that numbers take.
#[derive(Clone, Copy, PartialEq, Eq)]
pub enum Order {
    Along,
    Shuffled,
    Against,
}

/// 64 kinds, the layers, with so many shapes each, at most 15, and so many rules with four H
/// lines, shared out among them. A rule carries five numbers to the next kind and makes a
/// fresh one there; those of the last kind make nothing new where the layers stop. So numbers
/// go from the first kind to the last; the rows list the kinds in the given order.
pub fn layers(random: &mut Random, each: usize, rules: usize, order: Order, end: End) -> Sheet {
    let kind = |kind| Kind { kind, width: 6 };
    let mut kinds: Vec<Kind> = (1..=64).map(kind).collect();
    let mut sheet = Sheet::new(kinds.clone());
    let on = [1, 2, 3, 4, 6, 7];
    for at in (0..rules).map(|rule| rule % 64) {
        let head = match (kinds.get(at + 1), end) {
            (Some(&next), _) => entry(next, &on),
            (None, End::Stops) => entry(kinds[at], &ALL),
            (None, End::Returns) => entry(kinds[0], &on),
            (None, End::FeedsItself) => entry(kinds[at], &on),
        };
        let body = entry(kinds[at], &ALL);
        sheet.rules.push([vec![body], vec![head; 4]].concat());
    }
    match order {
        Order::Along => {}
        Order::Against => kinds.reverse(),
        Order::Shuffled => {
            random.shuffle(&mut kinds);
            random.shuffle(&mut sheet.rules);
        }
    }
    for kind in kinds {
        for pattern in patterns(4).into_iter().take(each) {
            let values = [pattern.as_slice(), &[8, 9]].concat();
            sheet.rows.push(entry(kind, &values));
        }
    }
    sheet
}

/// How many links layers have, from a field of a row to one of a record that a rule makes of
/// it: one to each carried field, and to a fresh one as many as the rule carries numbers.
pub fn links(sheet: &Sheet) -> usize {
    let of_rule = |rule: &Vec<sheets::Entry>| {
        let carries = |mark: &&u32| rule[0].numbers.contains(mark);
        let of_head = |head: &sheets::Entry| {
            let carried = head.numbers.iter().filter(carries).count();
            carried + carried * (head.numbers.len() - carried)
        };
        let rows = sheet.rows.iter().filter(|row| row.kind == rule[0].kind);
        rows.count() * rule[1..].iter().map(of_head).sum::<usize>()
    };
    sheet.rules.iter().map(of_rule).sum()
}
