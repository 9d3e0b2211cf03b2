//! Forecasting: computed examples, numbers of any size, each refusal, and runs that keep to it.

use super::common::{lent, refused, Random};
use crate::forecast::Big;
use crate::layout::Sheet;
use crate::random;
use crate::verify_forecast::Course;
use crate::{carry, forecast, judge, verify_forecast, Figure, Forecast, Left};

const ROOM: usize = 8 * 4_096;

fn figures(numbers: &[u32]) -> [Figure; 3] {
    let forecast = forecast(numbers).unwrap();
    [forecast.values, forecast.records, forecast.pairs]
}

fn check(sheet: &str, wanted: [u32; 3]) {
    assert_eq!(figures(&lent(sheet)), wanted.map(Some), "{sheet}");
}

#[test]
fn computed_examples() {
    check("K 1 2; B 1 1 2; H 1 1 3; R 1 7 8", [4, 16, 4]);
    let two = "K 1 1; K 2 1; K 3 2; B 1 1; H 2 2; B 2 1; H 3 1 2; R 1 5";
    check(two, [5, 35, 6]);
    let pair = "B 1 1; H 2 2 3; H 2 3 2; R 1 4; R 1 8";
    check(&format!("K 1 1; K 2 2; {pair}"), [4, 20, 1]);
    // A kind of width 3 that is not used counts all the same.
    check(&format!("K 1 1; K 2 2; K 3 3; {pair}"), [4, 84, 1]);
}

#[test]
fn nothing_and_no_rows() {
    check("", [0, 0, 0]);
    check("K 1 6; K 2 1", [0, 0, 0]);
    check("K 1 2; R 1 7 7; R 1 7 7", [1, 1, 0]);
    // The power 0 of 0 is 1, its other powers are 0.
    check("K 1 1; B 1 1; H 1 2", [0, 0, 1]);
    check(
        "K 1 2; B 1 1 2; H 1 1 3; B 1 1 2; H 1 3 4; B 1 1 1; H 1 1 1",
        [0, 0, 1],
    );
}

#[test]
fn each_0_is_a_value() {
    let rule = "B 1 1 1; H 1 2 1;";
    check(
        &format!("K 1 2; {rule} R 1 0 0; R 1 0 0; R 1 7 7"),
        [10, 100, 10],
    );
    // No rule fires: the deepest generation is 0.
    check(&format!("K 1 2; {rule} R 1 0 0; R 1 0 0"), [4, 16, 4]);
    check("K 1 1; R 1 0", [1, 1, 0]);
    check("K 1 1; R 1 3; R 1 0; R 1 3; R 1 0", [3, 3, 0]);
    let carried = "K 1 1; K 2 2; K 3 2; B 1 1; H 2 1 1; B 2 1 1; H 3 1 2; R 1 0";
    check(carried, [2, 2 + 4 + 4, 4]);
}

#[test]
fn different_marks_are_counted_once() {
    // Mark 1 is carried twice, mark 3 is made twice; mark 2 is neither.
    let sheet = "K 1 3; K 2 2; B 1 1 2 1; H 2 3 1; H 2 1 3; R 1 5 6 5";
    // t is 2, then 2 + 2.
    check(sheet, [4, 64 + 16, 4]);
    let most =
        "K 1 6; K 2 6; B 1 1 2 3 4 5 6; H 2 7 8 9 10 11 12; H 2 1 2 3 4 5 6; R 1 1 1 1 1 1 1";
    // 1 + 6 × 1.
    check(most, [7, 2 * 117_649, 117_649]);
    // A rule that is never fired counts, and one that stands twice counts twice.
    let fires = "B 1 1; H 2 2;";
    let sheet = format!("K 1 1; K 2 1; K 3 1; {fires} {fires} B 3 1; H 3 2; B 3 1; H 2 1; R 1 5");
    check(&sheet, [4, 12, 1 + 1 + 1 + 4]);
}

#[test]
fn limits_have_the_figures_that_they_say() {
    for limit in random::forecasting::limits() {
        let numbers = limit.lines.as_flattened();
        let answer = forecast(numbers);
        let found = answer.map(|_| figures(numbers));
        let found = found.map_err(|refusal| (refusal.number, refusal.line));
        assert_eq!(found, limit.wanted, "{}", limit.name);
    }
}

#[test]
fn refusals_in_order() {
    let code = |sheet: &str| refused(forecast(&lent(sheet)));
    let endless = "K 1 2; B 1 1 2; H 1 2 3; R 1 7 8";
    assert_eq!(code(endless), (21, 0));
    assert_eq!(code(&format!("{endless}; R 1 7 100000000")), (8, 5));
    assert_eq!(code(&format!("{endless}; K 1 2")), (8, 5));
    assert_eq!(refused(forecast(&lent("K 1 1; R 1 1")[..9])), (8, 2));
    let wide = "K 1 6; K 2 6; K 3 6; K 4 2; B 1 1 2 3 4 5 6; H 1 2 1 3 4 5 6; H 1 2 3 4 5 6 1;
                H 1 1 1 3 4 5 6; B 1 1 2 3 4 5 6; H 2 1 2 3 4 5 6; H 3 1 2 3 4 5 6;
                B 4 1 2; H 4 2 3; R 1 1 2 3 4 5 6; R 4 1 1";
    assert_eq!(code(wide), (11, 0));
    assert_eq!(code(&format!("{wide}; R 4 1 100000000")), (8, 16));
    assert_eq!(code(&wide.replace("R 1 1 2 3 4 5 6;", "")), (21, 0));
}

/// Limbs, lowest first, without zeros at the end.
fn limbs(number: u128) -> Vec<u32> {
    let limbs = (0..4).map(|at| (number >> (32 * at)) as u32);
    let mut limbs: Vec<u32> = limbs.collect();
    while limbs.last() == Some(&0) {
        limbs.pop();
    }
    limbs
}

#[test]
fn big_numbers_are_those_of_128_bits() {
    let mut random = random::Random::new(5);
    for _ in 0..2_000 {
        let (mut big, mut number) = (Big::default(), 0u128);
        loop {
            let [by, add] = [0; 2].map(|_| random_number(&mut random));
            let product = number.checked_mul(u128::from(by));
            let Some(next) = product.and_then(|n| n.checked_add(u128::from(add))) else {
                break;
            };
            // No endless round of zeros.
            if next == number && random.chance(50) {
                break;
            }
            number = next;
            big.multiply(by);
            big.add(add);
            assert_eq!(big.limbs(), limbs(number));
            assert_eq!(big.figure(), u32::try_from(number).ok());
        }
    }
    let mut big = Big::default();
    big.add(u32::MAX);
    assert_eq!(big.figure(), Some(u32::MAX));
    big.add(1);
    assert_eq!((big.figure(), big.limbs()), (None, &[0, 1][..]));
    (0..5).for_each(|_| big.multiply(u32::MAX));
    // (2^32 - 1)^5 × 2^32 has six limbs.
    assert_eq!(big.limbs().len(), 6);
    big.clear();
    assert_eq!(big.figure(), Some(0));
}

fn random_number(random: &mut random::Random) -> u32 {
    match random.below(4) {
        0 => random.pick(&[0, 1, 2, 4_096, 65_536, u32::MAX]),
        _ => random.next_u64() as u32 >> random.below(32),
    }
}

/// The figures once more, rule by rule and kind by kind, held at a cap in 128 bits.
fn capped(sheet: &Sheet, deepest: usize) -> [Figure; 3] {
    const CAP: u128 = 1 << 33;
    let capped = |number: u128| number.min(CAP);
    let power = |t: u128, by: usize| (0..by).fold(1, |power, _| capped(power * t));
    let mut values: Vec<u32> = Vec::new();
    for row in &sheet.rows {
        for value in row.values() {
            if !values.contains(value) {
                values.push(*value);
            }
        }
    }
    let counts = sheet.rules.iter().map(|rule| {
        let made = |mark: &u8| rule.heads().iter().any(|head| head.marks().contains(mark));
        let made: Vec<u8> = (1..=12).filter(made).collect();
        let carried = made.iter().filter(|mark| rule.body.marks().contains(mark));
        let carried = carried.count();
        (carried, (made.len() - carried) as u128)
    });
    let counts: Vec<(usize, u128)> = counts.collect();
    let first = values.len() as u128;
    let mut t = first;
    for _ in 0..deepest {
        let made = counts
            .iter()
            .map(|&(carried, fresh)| fresh * power(t, carried));
        t = capped(first + made.sum::<u128>());
    }
    let records = sheet
        .kinds
        .iter()
        .map(|&(_, width)| power(t, width as usize));
    let pairs = counts.iter().map(|&(carried, _)| power(t, carried));
    [t, records.sum(), pairs.sum()].map(|figure| u32::try_from(figure).ok())
}

fn random_sheets() -> impl Iterator<Item = Vec<u32>> {
    let mut small = Random(21);
    let mut large = random::Random::new(2);
    (0..3_000).map(move |index| match index % 3 {
        0 => small.sheet(),
        1 => small.layered(),
        _ => random::forecasting::random(&mut large).1.lines().concat(),
    })
}

#[test]
fn random_sheets_held_against_a_plain_sum() {
    let mut met = [0; 24];
    let (mut beyond, mut within) = ([0; 3], [0; 3]);
    for numbers in random_sheets() {
        let answer = forecast(&numbers);
        let judged = judge(&numbers, 20_480);
        met[refused(answer).0 as usize] += 1;
        let (Ok(_), Ok(verdict)) = (answer, &judged) else {
            let endless = judged.as_ref().is_ok_and(|verdict| verdict.endless);
            let wanted = if endless { (21, 0) } else { refused(judged) };
            assert_eq!(refused(answer), wanted);
            continue;
        };
        let sheet = Sheet::new(&numbers).unwrap();
        let wanted = capped(&sheet, verdict.deepest);
        assert_eq!(figures(&numbers), wanted, "{numbers:?}");
        for (at, figure) in wanted.iter().enumerate() {
            beyond[at] += usize::from(figure.is_none());
            within[at] += usize::from(figure.is_some());
        }
    }
    assert!(met[0] > 1_000 && met[21] > 100, "{met:?}");
    assert!(
        beyond.iter().chain(&within).all(|&count| count > 100),
        "{beyond:?} {within:?}"
    );
}

/// Of all three figures, how many a run to the end meets.
fn met(forecast: &Forecast, left: &Left) -> usize {
    let met = |figure: Figure, count: usize| figure == u32::try_from(count).ok();
    let all = [
        met(forecast.values, left.values),
        met(forecast.records, left.records),
        met(forecast.pairs, left.pairs),
    ];
    all.iter().filter(|&&met| met).count()
}

#[test]
fn random_sheets_held_against_runs() {
    let mut random = random::Random::new(9);
    let (mut ends, mut exact) = (0, 0);
    for numbers in random_sheets() {
        let Ok(forecast) = forecast(&numbers) else {
            continue;
        };
        let left = verify_forecast(&numbers, &forecast, &mut random);
        let Some(left) = left.unwrap_or_else(|error| panic!("{error} {numbers:?}")) else {
            continue;
        };
        ends += 1;
        exact += met(&forecast, &left);
        if left.records < 200 {
            let sheet = Sheet::new(&numbers).unwrap();
            let mut course = Course::new(&sheet);
            assert!(course.run_on(200));
            assert_eq!(course.left(), left, "{numbers:?}");
        }
    }
    assert!(ends > 800 && exact > 500, "{ends} {exact}");
}

#[test]
fn figures_too_small_are_rejected() {
    // Runs that meet their figures: each figure less by one is passed.
    let sheets = [
        ("K 1 1; R 1 3; R 1 4", [2, 2, 0]),
        ("K 1 1; B 1 1; H 1 2; B 1 1; H 1 2; R 1 5", [3, 3, 2]),
        (
            "K 1 1; K 2 1; B 1 1; H 2 1; B 2 1; H 1 1; R 1 5; R 1 6",
            [2, 4, 4],
        ),
    ];
    for (sheet, figures) in sheets {
        check(sheet, figures);
        let numbers = lent(sheet);
        let run = carry(&numbers, ROOM).unwrap();
        assert_eq!(
            [run.records.len(), run.firings],
            [figures[1], figures[2]].map(|n| n as usize)
        );
        let good = forecast(&numbers).unwrap();
        let verified = |forecast: &Forecast| {
            let mut random = random::Random::new(1);
            verify_forecast(&numbers, forecast, &mut random)
        };
        assert!(verified(&good).is_ok_and(|left| left.is_some()));
        let less = |figure: Figure| figure.and_then(|figure| figure.checked_sub(1));
        let bad = [
            Forecast {
                values: less(good.values),
                ..good
            },
            Forecast {
                records: less(good.records),
                ..good
            },
            Forecast {
                pairs: less(good.pairs),
                ..good
            },
        ];
        for bad in bad {
            // A figure of 0 has none below it and is beyond instead.
            let beyond = [bad.values, bad.records, bad.pairs].contains(&None);
            assert_eq!(verified(&bad).is_ok(), beyond, "{sheet} {bad:?}");
        }
    }
}

#[test]
fn firings_at_random_are_held_to_a_forecast() {
    // Carrying out is refused with 23, so that the firings at random alone see it.
    let numbers = lent("K 1 1; K 2 1; B 1 1; H 2 1; H 2 2; R 1 99999999");
    let good = forecast(&numbers).unwrap();
    assert_eq!(figures(&numbers), [Some(2), Some(4), Some(2)]);
    let bad = Forecast {
        values: Some(1),
        ..good
    };
    let verified = |forecast, seed| {
        let mut random = random::Random::new(seed);
        verify_forecast(&numbers, forecast, &mut random)
    };
    assert!((0..100).all(|seed| verified(&good, seed) == Ok(None)));
    assert!(
        (0..100)
            .filter(|&seed| verified(&bad, seed).is_err())
            .count()
            > 90
    );
}
