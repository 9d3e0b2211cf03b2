//! The sheets for timing are what their names say.

use crate::random::series::{families, layers, links, End, Order};
use crate::random::sheets::{text_of, Sheet};
use crate::random::zeros::count;
use crate::random::Random;
use crate::{judge, verify, Verdict};

fn judged(sheet: &Sheet) -> Verdict {
    let lines = sheet.lines();
    let verdict = judge(lines.as_flattened(), 20_480).expect("a sheet of at most 512 shapes");
    assert_eq!(verify(lines.as_flattened(), &verdict), Ok(()));
    verdict
}

/// Endless, deepest, shapes, fired, trail, loop.
fn figures(sheet: &Sheet) -> (bool, usize, usize, usize, usize, usize) {
    let v = judged(sheet);
    (v.endless, v.deepest, v.shapes, v.fired, v.trail, v.turns)
}

fn family(name: &str) -> Vec<Sheet> {
    let all = families(&mut Random::new(7));
    let found = all.into_iter().find(|family| family.name == name);
    found.expect("a family of that name").sheets
}

#[test]
fn every_family_is_judged_and_most_are_read() {
    let all = families(&mut Random::new(7));
    let sheets = || all.iter().flat_map(|family| &family.sheets);
    let too_long = sheets().filter(|sheet| text_of(&sheet.lines()).len() > 32_768);
    assert_eq!(
        (all.len(), sheets().count(), too_long.count()),
        (14, 313, 4)
    );
    sheets().for_each(|sheet| {
        judged(sheet);
    });
}

#[test]
fn chains() {
    let of = |name| figures(&family(name)[0]);
    let (in_order, shuffled) = (
        of("chain of 64 kinds, in order"),
        of("chain of 64 kinds, shuffled"),
    );
    assert_eq!(in_order, (false, 63, 64, 63, 63, 0));
    assert_eq!(shuffled, in_order);
    assert_eq!(of("loop through 60 kinds"), (true, 0, 60, 60, 0, 60));
    let fed = of("chain of 64 kinds, the last feeds itself");
    assert_eq!(fed, (true, 0, 64, 64, 63, 1));
}

#[test]
fn rings_of_carried_numbers() {
    let rings = &family("rings of carried numbers, 60 kinds")[0];
    // A fresh number comes in, goes 59 times on, and another follows it.
    assert_eq!(figures(rings), (false, 2, 62, 62, 61, 0));
    assert_eq!(rings.rows.len(), 61);
}

#[test]
fn a_sheet_of_1024_rows() {
    let sheet = &family("1,024 rows, 30 kinds, 40 rules")[0];
    let counts = (sheet.rows.len(), sheet.kinds.len(), sheet.rules.len());
    assert_eq!(counts, (1_024, 30, 40));
    judged(sheet);
}

#[test]
fn a_sheet_with_a_third_of_its_values_not_given() {
    let sheet = &family("1,024 rows, a third of the values not given")[0];
    let values: usize = sheet.rows.iter().map(|row| row.numbers.len()).sum();
    let zeros = count(&sheet.lines());
    assert!(sheet.rows.len() == 1_024 && (30..=36).contains(&(100 * zeros / values)));
    judged(sheet);
}

const ORDERS: [Order; 3] = [Order::Along, Order::Shuffled, Order::Against];

#[test]
fn layers_of_all_sizes() {
    let mut random = Random::new(1);
    for order in ORDERS {
        for each in 1..=8 {
            let sheet = layers(&mut random, each, 256, order, End::Stops);
            assert_eq!(figures(&sheet), (false, 63, 64 * each, 256, 63, 0));
            assert_eq!(links(&sheet), each * (63 * 160 + 96));
        }
        for rules in [16, 32, 64, 96, 256] {
            let sheet = layers(&mut random, 8, rules, order, End::Stops);
            let deepest = rules.min(63);
            assert_eq!(figures(&sheet), (false, deepest, 512, rules, deepest, 0));
        }
        let round = layers(&mut random, 8, 256, order, End::Returns);
        assert!(judged(&round).turns >= 64);
        let fed = layers(&mut random, 8, 256, order, End::FeedsItself);
        assert!(judged(&fed).endless && judged(&fed).shapes == 512);
    }
}

#[test]
fn rows_stand_in_the_order_asked_for() {
    let kinds = |order| {
        let sheet = layers(&mut Random::new(1), 2, 64, order, End::Stops);
        let mut kinds: Vec<u32> = sheet.rows.iter().map(|row| row.kind).collect();
        kinds.dedup();
        kinds
    };
    assert!(kinds(Order::Along).is_sorted());
    assert!(kinds(Order::Against).iter().rev().is_sorted());
    assert!(!kinds(Order::Shuffled).is_sorted());
    assert!(ORDERS.iter().all(|&order| kinds(order).len() == 64));
}
