//! Labels that are not given: the generator meets every sort of them, and each 0 is as good as
//! a number that stands nowhere else.

use super::common::{lent, refused};
use crate::random::{zeros, Input, Random};
use crate::{carry, forecast, judge, verify, Line, Verdict};
use std::collections::HashSet;

const STEPS: usize = 20_480;
const ROOM: usize = 8 * 4_096;

fn lines_of(numbers: &[u32]) -> Vec<Line> {
    numbers.as_chunks::<8>().0.to_vec()
}

fn rows(lines: &[Line]) -> Vec<&Line> {
    let is_row = |line: &&Line| line[0] == u32::from(b'R');
    lines.iter().filter(is_row).collect()
}

/// How many values the rows have, equal ones as often as they stand there.
fn values(lines: &[Line]) -> usize {
    let width = |row: &&Line| {
        let declares = |line: &&Line| line[0] == u32::from(b'K') && line[1] == row[1];
        lines.iter().find(declares).expect("a K line")[2] as usize
    };
    rows(lines).iter().map(width).sum()
}

/// The lines of random inputs that are good sheets.
fn good_sheets() -> impl Iterator<Item = Vec<Line>> {
    let inputs = (0..4_000).map(|index| Input::new(&mut Random::of_input(1, index)));
    let lines = inputs.map(|input| {
        let numbers = input.lines.as_chunks::<4>().0.iter();
        let numbers: Vec<u32> = numbers.map(|&bytes| u32::from_le_bytes(bytes)).collect();
        lines_of(&numbers)
    });
    lines.filter(|lines| judge(lines.as_flattened(), STEPS).is_ok())
}

fn judged(lines: &[Line]) -> Verdict {
    judge(lines.as_flattened(), STEPS).expect("a good sheet")
}

#[test]
fn zeros_of_every_sort_are_met() {
    let (mut sheets, mut with_zeros, mut many) = (0, 0, 0);
    let (mut alone, mut again, mut decide) = (0, 0, 0);
    for lines in good_sheets() {
        sheets += 1;
        let count = zeros::count(&lines);
        if count == 0 {
            continue;
        }
        with_zeros += 1;
        many += usize::from(4 * count > values(&lines));
        alone += usize::from(count == values(&lines));
        let different = |lines: &[Line]| rows(lines).into_iter().collect::<HashSet<_>>().len();
        let given = zeros::all_different(&mut Random::new(1), &lines);
        again += usize::from(different(&lines) < different(&given));
        let equal = judge(zeros::all_the_same(&lines).as_flattened(), STEPS);
        decide += usize::from(equal.is_ok_and(|equal| equal.endless != judged(&lines).endless));
    }
    assert!(4 * with_zeros > sheets && 2 * with_zeros < sheets);
    let met = [many, alone, again, decide];
    assert!(
        many > 300 && alone > 50 && again > 100 && decide > 10,
        "{met:?}"
    );
}

#[test]
fn a_0_is_as_good_as_a_number_that_stands_nowhere_else() {
    let mut random = Random::new(4);
    let mut carried = [0; 24];
    for lines in good_sheets().filter(|lines| zeros::count(lines) > 0) {
        let given = zeros::all_different(&mut random, &lines);
        let (one, other) = (judged(&lines), judged(&given));
        let figures = |v: &Verdict| (v.endless, v.deepest, v.shapes, v.fired, v.share);
        assert_eq!(figures(&one), figures(&other), "{lines:?}");
        assert_eq!(verify(given.as_flattened(), &one), Ok(()), "{lines:?}");
        assert_eq!(verify(lines.as_flattened(), &other), Ok(()), "{lines:?}");
        let foretold = |lines: &[Line]| forecast(lines.as_flattened());
        assert_eq!(foretold(&lines), foretold(&given), "{lines:?}");
        let run = |lines: &[Line]| carry(lines.as_flattened(), ROOM);
        carried[refused(run(&lines)).0 as usize] += 1;
        match zeros::numbered(&lines) {
            Some(numbered) => assert_eq!(run(&lines), run(&numbered), "{lines:?}"),
            None => assert!([21, 22, 23].contains(&refused(run(&lines)).0)),
        }
    }
    assert!(
        [0, 21, 22, 23].iter().all(|&number| carried[number] > 20),
        "{carried:?}"
    );
}

#[test]
fn numbers_in_the_place_of_zeros() {
    let rules = "K 1 2; K 2 1; B 1 1 2; H 2 3;";
    let sheet = |rows: &str| lines_of(&lent(&format!("{rules} {rows}")));
    let lines = sheet("R 1 0 7; R 2 0; R 1 1 0; R 1 7 7; R 1 0 0");
    assert_eq!(zeros::count(&lines), 5);
    let numbered = sheet("R 1 8 7; R 2 9; R 1 1 10; R 1 7 7; R 1 11 12");
    assert_eq!(zeros::numbered(&lines), Some(numbered));
    let same = sheet("R 1 2 7; R 2 2; R 1 1 2; R 1 7 7; R 1 2 2");
    assert_eq!(zeros::all_the_same(&lines), same);
    assert!(zeros::numbered(&sheet("R 1 99999998 0")).is_some());
    assert!(zeros::numbered(&sheet("R 1 99999999 0")).is_none());
    for seed in 0..100 {
        let given = zeros::all_different(&mut Random::new(seed), &lines);
        let numbers = rows(&given).into_iter().flat_map(|row| row[2..].to_vec());
        let numbers: HashSet<u32> = numbers.collect();
        // 1 and 7, the 0 of unused places, and five more.
        assert_eq!((zeros::count(&given), numbers.len()), (0, 3 + 5));
        assert!(numbers.iter().all(|&number| number <= 99_999_999));
        let both = lines.as_flattened().iter().zip(given.as_flattened());
        assert_eq!(both.filter(|(old, new)| old != new).count(), 5);
    }
}
