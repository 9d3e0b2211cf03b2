//! Sheets at or just past the limits: of shapes, of each count, and of the text's size.

use super::sheets::{
    any_rule, entry, few, mixed, row, some_kinds, text_of, Entry, Kind, Mood, Sheet,
};
use super::{zeros, Random};

/// Kinds whose rules make any two fields equal, so that all patterns are reached from one row.
pub fn merging(random: &mut Random) -> Sheet {
    let choices: [&[usize]; 7] = [
        &[6],
        &[6, 6],
        &[5, 5, 4],
        &[6, 6, 5, 5, 1],
        &[6, 6, 5, 5, 2],
        &[6, 6, 5, 5, 2, 1],
        &[6, 6, 6],
    ];
    let widths = random.pick(&choices);
    let mut kinds = some_kinds(random, widths.len(), 1, 1);
    for (kind, &width) in kinds.iter_mut().zip(widths) {
        kind.width = width;
    }
    let mut sheet = Sheet::new(kinds);
    for kind in sheet.kinds.clone() {
        add_merges(&mut sheet, kind);
        let values: Vec<u32> = (0..kind.width as u32).map(|field| 7 + 2 * field).collect();
        sheet.rows.push(entry(kind, &values));
    }
    if random.chance(50) {
        let mood = Mood::new(random);
        for _ in 0..random.between(1, 3) {
            let rule = any_rule(random, &mood, &sheet.kinds);
            sheet.rules.push(rule);
        }
    }
    random.shuffle(&mut sheet.rules);
    random.shuffle(&mut sheet.rows);
    sheet
}

/// For any two fields of a kind, a rule that gives the later one the earlier one's value.
pub fn add_merges(sheet: &mut Sheet, kind: Kind) {
    let body: Vec<u32> = (1..=kind.width as u32).collect();
    for later in 1..kind.width {
        for earlier in 0..later {
            let mut made = body.clone();
            made[later] = made[earlier];
            sheet
                .rules
                .push(vec![entry(kind, &body), entry(kind, &made)]);
        }
    }
}

/// All patterns of so many fields.
pub fn patterns(width: usize) -> Vec<Vec<u32>> {
    let mut found = vec![Vec::new()];
    for _ in 0..width {
        let mut longer = Vec::new();
        for pattern in &found {
            let top = pattern.iter().copied().max().unwrap_or(0);
            for digit in 1..=top + 1 {
                let mut next: Vec<u32> = pattern.clone();
                next.push(digit);
                longer.push(next);
            }
        }
        found = longer;
    }
    found
}

/// Rows of so many different shapes, often about 512; half the time with zeros.
pub fn shapes(random: &mut Random) -> Sheet {
    let wanted = random.pick(&[100, 400, 500, 511, 512, 512, 513, 513, 514, 520]);
    let high = random.between(4, 6);
    let mut kinds = some_kinds(random, 64, 3, high);
    let mut all = first_shapes(&mut kinds, wanted);
    random.shuffle(&mut all);
    all.truncate(wanted);
    let shift = random.pick(&[0, 1, 5, 99_999_900]);
    for number in all.iter_mut().flat_map(|row| row.numbers.iter_mut()) {
        *number = (*number * 3) % 7 + shift;
    }
    let missing = random.pick(&[0, 0, 30, 100]);
    for row in &mut all {
        zeros::put_alone(random, row, missing);
    }
    let mut sheet = Sheet::new(kinds);
    sheet.rows = all;
    if random.chance(40) {
        let mood = Mood::new(random);
        for _ in 0..random.between(1, 6) {
            let rule = any_rule(random, &mood, &sheet.kinds);
            sheet.rules.push(rule);
        }
    }
    for _ in 0..random.below(20) {
        let again = sheet.rows[random.below(wanted)].clone();
        sheet.rows.push(again);
    }
    sheet
}

/// How many patterns there are of so many fields.
const PATTERNS: [usize; 7] = [1, 1, 2, 5, 15, 52, 203];

/// A record of every shape of the first kinds, up to the one with which there are as many
/// as wanted; the kinds after it are dropped. Where all kinds together show too few, the
/// narrowest ones, first to last, get one field more until they show enough.
pub fn first_shapes(kinds: &mut Vec<Kind>, wanted: usize) -> Vec<Entry> {
    while kinds.iter().map(|kind| PATTERNS[kind.width]).sum::<usize>() < wanted {
        let narrowest = kinds.iter_mut().min_by_key(|kind| kind.width);
        narrowest.expect("a kind").width += 1;
    }
    let mut all = Vec::new();
    let mut used = 0;
    while all.len() < wanted {
        let kind = kinds[used];
        all.extend(
            patterns(kind.width)
                .iter()
                .map(|digits| entry(kind, digits)),
        );
        used += 1;
    }
    kinds.truncate(used);
    all
}

/// One count at its limit or just past it, or all at once.
pub fn limits(random: &mut Random) -> Sheet {
    let past = random.below(3);
    match random.below(7) {
        0 => most_kinds(random, past),
        1 => {
            let kinds = some_kinds(random, 3, 1, 2);
            mixed(random, kinds, 255 + past, 3)
        }
        2 => most_heads(random, past),
        3 => {
            let kinds = some_kinds(random, 5, 1, 2);
            mixed(random, kinds, 3, 1_023 + past)
        }
        4 => most_marks(random, past),
        5 => most_lines(random, past),
        _ => most_of_all(random, past),
    }
}

fn most_kinds(random: &mut Random, past: usize) -> Sheet {
    let kinds = some_kinds(random, 64, 1, 6);
    let mut sheet = mixed(random, kinds, 40, 30);
    for extra in 0..past.saturating_sub(1) {
        let (kind, width) = (65 + extra as u32, 1);
        sheet.kinds.push(Kind { kind, width });
    }
    sheet
}

fn most_heads(random: &mut Random, past: usize) -> Sheet {
    let mut sheet = few(random);
    let mood = Mood::new(random);
    let mut rule = any_rule(random, &mood, &sheet.kinds);
    while rule.len() < 4 + past {
        let again = rule[random.between(1, rule.len() - 1)].clone();
        rule.push(again);
    }
    let at = random.below(sheet.rules.len() + 1);
    sheet.rules.insert(at, rule);
    sheet
}

/// A rule with 11, 12 or 13 marks.
fn most_marks(random: &mut Random, past: usize) -> Sheet {
    let kinds = some_kinds(random, 3, 3, 6);
    let mut sheet = mixed(random, kinds, 2, 4);
    sheet.most_marks = 11 + past as u32;
    let mut rule = Vec::new();
    let mut label = 1;
    while label <= 11 + past as u32 || rule.len() < 2 {
        let kind = random.pick(&sheet.kinds);
        let next = label + kind.width as u32;
        rule.push(entry(kind, &(label..next).collect::<Vec<u32>>()));
        label = next;
    }
    let at = random.below(3);
    sheet.rules.insert(at, rule);
    sheet
}

/// The shortest lines, as many as a text can have, 1,638, or one less or more.
fn most_lines(random: &mut Random, past: usize) -> Sheet {
    let kinds = some_kinds(random, 64, 1, 1);
    let mut sheet = mixed(random, kinds, 110, 1_023 + past);
    fill_heads(random, &mut sheet);
    sheet.rows.truncate(1_024);
    if past == 2 {
        let rule = sheet.rules[0][..2].to_vec();
        sheet.rules.push(rule);
    }
    sheet
}

/// 64 kinds, 256 rules of four H lines, 1,024 rows and `past` more: longer as text than allowed.
fn most_of_all(random: &mut Random, past: usize) -> Sheet {
    let high = random.between(1, 2);
    let kinds = some_kinds(random, 64, 1, high);
    let mut sheet = mixed(random, kinds, 256, 1_024 + past);
    fill_heads(random, &mut sheet);
    sheet
}

/// Gives every rule four H lines.
fn fill_heads(random: &mut Random, sheet: &mut Sheet) {
    for rule in &mut sheet.rules {
        while rule.len() < 5 {
            let again = rule[random.between(1, rule.len() - 1)].clone();
            rule.push(again);
        }
    }
}

/// Text of just as many bytes as allowed, or a little less or more.
pub fn long(random: &mut Random) -> Sheet {
    let mut kinds = some_kinds(random, 7, 1, 6);
    for (at, kind) in kinds.iter_mut().take(6).enumerate() {
        kind.width = at + 1;
    }
    let rules = random.below(30);
    let mut sheet = mixed(random, kinds, rules, 0);
    let size = random.pick(&[32_766, 32_767, 32_768, 32_768, 32_769, 32_769, 32_770]);
    fill_text(random, &mut sheet, size);
    sheet
}

/// Adds rows until the text has so many bytes. A line has two bytes and nine for each column.
fn fill_text(random: &mut Random, sheet: &mut Sheet, size: usize) {
    let rest = size - text_of(&sheet.lines()).len();
    let fits = |&lines: &usize| {
        let columns = (rest - 2 * lines) / 9;
        (rest - 2 * lines).is_multiple_of(9) && 2 * lines <= columns && columns <= 7 * lines
    };
    let counts: Vec<usize> = (1..=1_024).filter(fits).collect();
    let lines = random.pick(&counts);
    let mut columns = (rest - 2 * lines) / 9;
    for left in (1..=lines).rev() {
        let share = columns / left;
        let kind = sheet.kinds[share - 2];
        columns -= share;
        sheet.rows.push(row(random, kind, 0));
    }
    random.shuffle(&mut sheet.rows);
}
