//! The generator of inputs: it makes every one it is asked for, and what each style promises.

use crate::random::limits::{first_shapes, patterns, shapes};
use crate::random::sheets::{Entry, Kind};
use crate::random::{Input, Random};
use std::collections::HashSet;

fn different_shapes(rows: &[Entry]) -> usize {
    let shape = |row: &Entry| (row.kind, crate::pattern(&row.numbers).ok());
    rows.iter().map(shape).collect::<HashSet<_>>().len()
}

#[test]
fn shapes_are_as_many_as_wanted() {
    // The 64 kinds that seed 5,266 draws are too narrow together.
    let mut met = [0; 521];
    for seed in 0..6_000 {
        met[different_shapes(&shapes(&mut Random::new(seed)).rows)] += 1;
    }
    let wanted: Vec<usize> = (0..=520).filter(|&count| met[count] > 0).collect();
    assert_eq!(wanted, [100, 400, 500, 511, 512, 513, 514, 520]);
}

#[test]
fn narrow_kinds_are_widened_until_they_show_enough() {
    let narrow = |kind| Kind { kind, width: 3 };
    let shown = |wanted| {
        let mut kinds: Vec<Kind> = (1..=64).map(narrow).collect();
        let rows = first_shapes(&mut kinds, wanted);
        assert!(rows.len() >= wanted && different_shapes(&rows) == rows.len());
        let wider = kinds.iter().filter(|kind| kind.width == 4).count();
        (kinds.len(), wider, rows.len())
    };
    assert_eq!(shown(100), (20, 0, 100));
    assert_eq!(shown(320), (64, 0, 320));
    assert_eq!(shown(321), (63, 1, 325));
    assert_eq!(shown(520), (64, 20, 520));
    assert_eq!(shown(960), (64, 64, 960));
}

#[test]
fn patterns_are_counted_right() {
    let counts = [1, 2, 3, 4, 5, 6].map(|width| patterns(width).len());
    assert_eq!(counts, [1, 2, 5, 15, 52, 203]);
}

#[test]
fn every_input_is_made() {
    for seed in 0..10 {
        for index in 0..500 {
            let input = Input::new(&mut Random::of_input(seed, index));
            let size = input.lines.len() + input.text.len();
            assert!(size < 300_000, "{}: {size}", input.style);
        }
    }
}
