//! The sheets for carrying out, random ones and those for timing, are what their names say.

use crate::random::carrying;
use crate::random::carrying_series::{colliding, families, in_order};
use crate::random::series::{Family, Order};
use crate::random::sheets::Sheet;
use crate::random::zeros::count;
use crate::random::Random;
use crate::{carry, verify_run, Refusal, Run};

const ROOM: usize = 8 * 4_096;

fn carried(sheet: &Sheet) -> Result<Run, Refusal> {
    carry(sheet.lines().as_flattened(), ROOM)
}

fn counts(sheet: &Sheet) -> (usize, usize) {
    let run = carried(sheet).expect("a sheet that is carried out");
    let verified = verify_run(sheet.lines().as_flattened(), &run);
    assert_eq!(verified, Ok(()));
    (run.records.len(), run.firings)
}

#[test]
fn random_sheets_meet_every_limit() {
    let mut random = Random::new(3);
    let mut met = [0; 24];
    let mut with_zeros = [0; 24];
    let (mut full, mut large) = (0, 0);
    // Without zeros and with them.
    let mut ends = [0; 2];
    for _ in 0..2_000 {
        let (_, sheet) = carrying::random(&mut random);
        let result = carried(&sheet);
        let refusal = result.as_ref().map_or_else(|refusal| refusal.number, |_| 0);
        met[refusal as usize] += 1;
        let zeros = usize::from(count(&sheet.lines()) > 0);
        with_zeros[refusal as usize] += zeros;
        if let Ok(run) = result {
            full += usize::from(run.records.len() == 4_096);
            large += usize::from(run.records.len() >= 1_000);
            let numbers = run.records.iter().flat_map(|line| &line[2..]);
            ends[zeros] += usize::from(numbers.max() == Some(&99_999_999));
        }
    }
    assert!(met[0] > 1_000 && full > 50 && large > 200);
    assert!(ends.iter().all(|&ends| ends > 20), "{ends:?}");
    assert!(met[21] > 10 && met[22] > 100 && met[23] > 20, "{met:?}");
    assert!(with_zeros[22] > 20 && with_zeros[23] > 20, "{with_zeros:?}");
    assert_eq!(met.iter().sum::<usize>(), 2_000);
    let known = met[0] + met[11] + met[21] + met[22] + met[23];
    assert_eq!(known, 2_000, "each is a sheet: {met:?}");
}

#[test]
fn limits_are_refused_as_they_say() {
    for limit in carrying::limits() {
        let result = carry(limit.lines.as_flattened(), ROOM);
        let refusal = result.as_ref().map_or_else(|refusal| refusal.number, |_| 0);
        assert_eq!(refusal, limit.refusal, "{}", limit.name);
        if let Ok(run) = result {
            let verified = verify_run(limit.lines.as_flattened(), &run);
            assert_eq!(verified, Ok(()), "{}", limit.name);
        }
    }
}

#[test]
fn every_family_is_carried_out_in_every_order() {
    let mut random = Random::new(7);
    let all = families(&mut random);
    assert_eq!(all.len(), 11);
    for Family { name, sheets } in all {
        for sheet in sheets {
            let along = counts(&sheet);
            for order in [Order::Against, Order::Shuffled] {
                let again = in_order(&mut random, sheet.clone(), order);
                assert_eq!(counts(&again), along, "{name}");
            }
        }
    }
}

#[test]
fn families_have_the_records_that_they_promise() {
    let all = families(&mut Random::new(7));
    let of = |at: usize| all[at].sheets.iter().map(counts).collect::<Vec<_>>();
    let bank = of(0)[0];
    assert!(bank.0 >= 1_000 && all[0].sheets[0].rules.len() == 100);
    assert_eq!(of(1), [(4_096, 1_024)]);
    let one_kind = of(2)[0];
    assert!(one_kind.0 == 4_096 && one_kind.1 > 100_000);
    assert_eq!(of(3), [(4_096, 4_032)]);
    assert_eq!(of(4), [(1_024 + 256, 256)]);
    assert_eq!(of(5), [(1_024, 64 * 1_024)]);
    assert_eq!(of(6), [(3 * 1_024 + 32, 1_024), (4_096, 1_024)]);
    assert_eq!(of(7), [(3 * 1_024 + 32, 1_024)]);
    assert_eq!(of(8), [(3 * 1_024 + 32, 1_024), (4_096, 1_024)]);
    assert_eq!(of(9).len(), 3);
    let missing = of(10);
    let zeros = |at: usize| count(&all[10].sheets[at].lines());
    // A third of 2,048 values and of 1,024.
    assert!((600..=760).contains(&zeros(0)) && (300..=380).contains(&zeros(1)));
    assert!(missing[0].0 > 3 * 1_024 + 200 && missing[1] == (4_096, 1_024));
}

#[test]
fn colliding_values_have_one_place() {
    let values = colliding();
    let place = |value: &u32| value.wrapping_mul(2_654_435_761) >> 20;
    assert!(values.len() == 1_024 && values.iter().all(|value| place(value) == 1_234));
    assert!(values.iter().all(|&value| value <= 99_999_999));
}
