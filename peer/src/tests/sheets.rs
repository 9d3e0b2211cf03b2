//! The sheets that the scope document names, with its figures.

use super::common::{judge, lent, refused, text};

/// Verdict (endless), deepest, shapes, fired, share, trail, loop.
fn figures(sheet: &str) -> (bool, usize, usize, usize, usize, usize, usize) {
    let v = judge(sheet);
    assert_eq!(crate::verify(&lent(sheet), &v), Ok(()));
    assert_eq!(v.steps.len(), v.trail + v.turns);
    let t = text(sheet);
    let lines = crate::read(&t, 10_000).unwrap();
    assert_eq!(lines.concat(), lent(sheet));
    assert_eq!(crate::write(&lent(sheet), 40_000).unwrap(), t);
    (
        v.endless, v.deepest, v.shapes, v.fired, v.share, v.trail, v.turns,
    )
}

#[test]
fn the_programs_example() {
    let sheet = "K 1 2; B 1 1 2; H 1 2 3; R 1 7 8";
    assert_eq!(figures(sheet), (true, 0, 1, 1, 100, 0, 1));
    let verdict = judge(sheet);
    assert_eq!(verdict.row, 1);
    assert_eq!(verdict.steps, [[1, 1, 2, 2, 1]]);
    let as_text = "K        1        2\nB        1        1        2\n\
                   H        1        2        3\nR        1        7        8\n";
    assert_eq!(text(sheet), as_text.as_bytes());
}

#[test]
fn empty_text_and_no_row() {
    assert_eq!(figures(""), (false, 0, 0, 0, 0, 0, 0));
    let without_row = "K 1 2; B 1 1 2; H 1 2 3";
    assert_eq!(figures(without_row), (false, 0, 0, 0, 0, 0, 0));
}

#[test]
fn settling_ones() {
    let one = "K 1 1; B 1 1; H 1 2; R 1 5";
    assert_eq!(figures(one), (false, 1, 1, 1, 100, 1, 0));
    assert_eq!(judge(one).steps, [[1, 1, 0, 1, 1]]);
    let kept = "K 1 2; B 1 1 2; H 1 1 3; R 1 7 8";
    assert_eq!(figures(kept), (false, 1, 1, 1, 100, 1, 0));
    let differ = "K 1 2; B 1 1 1; H 1 2 1; R 1 7 8";
    assert_eq!(figures(differ), (false, 0, 1, 0, 0, 0, 0));
    let equal = "K 1 2; B 1 1 1; H 1 2 1; R 1 7 7";
    assert_eq!(figures(equal), (false, 1, 2, 1, 100, 1, 0));
    let example_4_3 = "K 1 4; K 2 2; B 1 1 2 1 3; H 2 1 4; B 2 1 2; H 1 1 1 2 2; R 1 5 6 5 7";
    assert_eq!(figures(example_4_3), (false, 1, 3, 2, 100, 1, 0));
    let two = "K 1 1; K 2 1; K 3 2; B 1 1; H 2 2; B 2 1; H 3 1 2; R 1 5";
    assert_eq!(figures(two), (false, 2, 3, 2, 100, 2, 0));
    assert_eq!(judge(two).steps, [[1, 1, 0, 1, 1], [2, 1, 1, 2, 1]]);
}

#[test]
fn endless_ones() {
    let example_1_1 = "K 1 2; B 1 1 2; H 1 3 1; R 1 7 7";
    assert_eq!(figures(example_1_1), (true, 0, 2, 1, 100, 1, 1));
    let round = "K 1 1; K 2 2; B 1 1; H 2 1 2; B 2 1 2; H 1 2; R 1 5";
    assert_eq!(figures(round), (true, 0, 2, 2, 100, 0, 2));
}

#[test]
fn patterns() {
    let number = |numbers: &[u32]| crate::pattern(numbers).unwrap();
    assert_eq!(number(&[7, 7]), 2);
    assert_eq!(number(&[9]), 1);
    assert_eq!(number(&[1, 2]), 3);
    assert_eq!(number(&[7, 4, 7, 9]), 16);
    assert_eq!(number(&[6, 5, 4, 3, 2, u32::MAX]), 278);
    let mut all: Vec<u32> = digit_strings().iter().map(|d| number(d)).collect();
    all.sort_unstable();
    all.dedup();
    assert_eq!(all, (1..=278).collect::<Vec<u32>>());
}

#[test]
fn patterns_with_zeros() {
    let number = |numbers: &[u32]| crate::pattern(numbers).unwrap();
    assert_eq!(number(&[0]), 1);
    assert_eq!(number(&[0, 0]), 3);
    assert_eq!(number(&[1, 0]), 3);
    assert_eq!(number(&[0, 7, 7]), number(&[1, 2, 2]));
    assert_eq!(number(&[7, 0, 7, 0]), 16);
    assert_eq!(number(&[0; 6]), 278);
    // Each 0 is as good as a number that stands nowhere else.
    for digits in digit_strings() {
        for zeros in 0..1 << digits.len() {
            let is_zero = |field: usize| zeros >> field & 1 == 1;
            let fields = || digits.iter().enumerate();
            let with = |of: fn(usize) -> u32| {
                let field = |(at, &digit)| if is_zero(at) { of(at) } else { digit };
                fields().map(field).collect::<Vec<u32>>()
            };
            let (with_zeros, with_others) = (with(|_| 0), with(|at| 10 + at as u32));
            assert_eq!(number(&with_zeros), number(&with_others), "{with_zeros:?}");
        }
    }
}

#[test]
fn two_zeros_are_not_the_same() {
    // Endless only if two zeros were equal: rule 1 does not fire.
    let rules = "K 1 2; K 2 2; B 1 1 1; H 2 1 2; B 2 1 2; H 1 2 2;";
    let of = |rows: &str| figures(&format!("{rules} {rows}"));
    assert_eq!(of("R 1 0 0"), (false, 0, 1, 0, 0, 0, 0));
    assert_eq!(of("R 1 0 0; R 1 0 0; R 1 0 7"), (false, 0, 1, 0, 0, 0, 0));
    assert_eq!(of("R 1 7 7"), (true, 0, 2, 2, 100, 0, 2));
    assert_eq!(of("R 1 0 0; R 1 7 7"), (true, 0, 3, 2, 100, 0, 2));
    // Rule 2 carries the 0 to two fields, where it is the same.
    assert!(of("R 2 7 0").0);
    let differ = "K 1 2; B 1 1 1; H 1 2 1; R 1 0 0";
    assert_eq!(figures(differ), (false, 0, 1, 0, 0, 0, 0));
    let both = "K 1 2; B 1 1 1; H 1 2 1; R 1 0 0; R 1 0 0; R 1 7 7";
    assert_eq!(figures(both), (false, 1, 2, 1, 100, 1, 0));
    assert_eq!(judge(both).row, 3);
}

#[test]
fn a_carried_0_is_the_same() {
    let sheet = "K 1 1; K 2 2; K 3 2; B 1 1; H 2 1 1; B 2 1 1; H 3 1 2; R 1 0";
    assert_eq!(figures(sheet), (false, 1, 3, 2, 100, 2, 0));
    // From either field of the record in between.
    let verdict = judge(sheet);
    assert_eq!(verdict.steps[0], [1, 1, 0, 0, 0]);
    for from in [1, 2] {
        let mut other = verdict.clone();
        other.steps[1][2] = from;
        assert_eq!(crate::verify(&lent(sheet), &other), Ok(()));
    }
}

/// All records of one to six fields over six values.
fn digit_strings() -> Vec<Vec<u32>> {
    let mut all: Vec<Vec<u32>> = vec![vec![]];
    let mut start = 0;
    for _ in 0..6 {
        let end = all.len();
        for at in start..end {
            for digit in 1..=6 {
                let longer = [&all[at][..], &[digit]].concat();
                all.push(longer);
            }
        }
        start = end;
    }
    all.split_off(1)
}

#[test]
fn patterns_rise_with_length_and_digits() {
    // First-appearance strings, shorter first, then by digits.
    let mut strings: Vec<Vec<u32>> = digit_strings()
        .into_iter()
        .filter(|s| (0..s.len()).all(|i| s[i] <= s[..i].iter().max().map_or(1, |m| m + 1)))
        .collect();
    strings.sort_by_key(|s| (s.len(), s.clone()));
    for (index, string) in strings.iter().enumerate() {
        assert_eq!(crate::pattern(string), Ok(index as u32 + 1));
    }
}

/// So many rules fire, and so many there are.
fn rules_fired(fired: usize, rules: usize) -> String {
    let mut sheet = "K 1 1; K 2 1;".to_string();
    sheet.push_str(&"B 1 1; H 1 1;".repeat(fired));
    sheet.push_str(&"B 2 1; H 2 1;".repeat(rules - fired));
    sheet.push_str("R 1 5");
    sheet
}

#[test]
fn shares_at_a_half() {
    assert_eq!(figures(&rules_fired(1, 8)), (false, 0, 1, 1, 12, 0, 0));
    assert_eq!(figures(&rules_fired(3, 8)), (false, 0, 1, 3, 38, 0, 0));
    let share = |fired, rules| figures(&rules_fired(fired, rules)).4;
    assert_eq!([5, 7].map(|fired| share(fired, 8)), [62, 88]);
    assert_eq!([1, 3, 5, 7].map(|fired| share(fired, 40)), [2, 8, 12, 18]);
    assert_eq!([1, 3, 5].map(|fired| share(fired, 200)), [0, 2, 2]);
}

#[test]
fn other_shares() {
    let share = |fired, rules| figures(&rules_fired(fired, rules)).4;
    assert_eq!([1, 2, 3].map(|fired| share(fired, 3)), [33, 67, 100]);
    assert_eq!([0, 1, 2].map(|fired| share(fired, 201)), [0, 0, 1]);
    assert_eq!([0, 1, 2].map(|fired| share(fired, 199)), [0, 1, 1]);
    assert_eq!([0, 8].map(|fired| share(fired, 8)), [0, 100]);
}

/// 64 kinds of width six, and rows of as many different shapes as asked for.
fn many_shapes(count: usize) -> Vec<u32> {
    let mut numbers: Vec<u32> = (1..=64)
        .flat_map(|kind| [u32::from(b'K'), kind, 6, 0, 0, 0, 0, 0])
        .collect();
    let strings = digit_strings();
    let patterns = strings
        .iter()
        .filter(|s| s.len() == 6)
        .filter(|s| (0..6).all(|i| s[i] <= s[..i].iter().max().map_or(1, |m| m + 1)));
    let rows = (1..=64).flat_map(|kind| {
        let row = move |s: &Vec<u32>| [&[u32::from(b'R'), kind][..], s].concat();
        patterns.clone().map(row)
    });
    numbers.extend(rows.take(count).flatten());
    numbers
}

#[test]
fn shapes_up_to_512() {
    let verdict = crate::judge(&many_shapes(512), 20_480).unwrap();
    assert_eq!((verdict.shapes, verdict.deepest, verdict.row), (512, 0, 0));
    assert_eq!(crate::verify(&many_shapes(512), &verdict), Ok(()));
    assert_eq!(refused(crate::judge(&many_shapes(513), 20_480)), (11, 0));
}

/// A good sheet whose text has exactly so many bytes: six kinds, then rows.
fn sized(bytes: usize) -> String {
    // A line of c columns has 2 + 9c bytes.
    let lines = (520..).find(|n| (bytes - 2 * n).is_multiple_of(9)).unwrap();
    let mut columns = (bytes - 2 * lines) / 9 - 12;
    let mut sheet: String = (1..=6).map(|kind| format!("K {kind} {kind};")).collect();
    for left in (0..lines - 6).rev() {
        let count = 7.min(columns - 2 * left);
        columns -= count;
        sheet.push_str(&format!("R {}{};", count - 1, " 5".repeat(count - 1)));
    }
    sheet
}

#[test]
fn bytes_up_to_32768() {
    let (full, over) = (sized(32_768), sized(32_769));
    assert_eq!(text(&full).len(), 32_768);
    assert_eq!(text(&over).len(), 32_769);
    assert_eq!(figures(&full), (false, 0, 3, 0, 0, 0, 0));
    assert_eq!(refused(crate::read(&text(&over), 2_000)), (1, 0));
    assert_eq!(refused(crate::write(&lent(&over), 40_000)), (1, 0));
    assert!(!judge(&over).endless);
}

#[test]
fn rules_up_to_256() {
    let sheet = |rules| format!("K 1 1; {}", "B 1 1; H 1 1;".repeat(rules));
    let verdict = judge(&format!("{}R 1 1", sheet(256)));
    assert_eq!((verdict.fired, verdict.share), (256, 100));
    assert_eq!(refused(crate::read(&text(&sheet(256)), 513)), (0, 0));
    assert_eq!(refused(crate::read(&text(&sheet(257)), 513)), (6, 514));
    assert_eq!(refused(crate::judge(&lent(&sheet(257)), 20_480)), (8, 514));
}

#[test]
fn steps_from_4096() {
    assert_eq!(refused(crate::judge(&[], 4_096 * 5)), (0, 0));
    assert_eq!(refused(crate::judge(&[], 4_095 * 5)), (12, 0));
    assert_eq!(refused(crate::judge(&[], 4_096 * 5 - 1)), (12, 0));
}
