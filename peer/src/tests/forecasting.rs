//! The sheets for forecasting, random ones and those for timing, are what their names say.

use crate::random::forecasting;
use crate::random::forecasting_series::{families, smallest};
use crate::random::sheets::Sheet;
use crate::random::Random;
use crate::{forecast, judge, Forecast, Refusal};

fn foretold(sheet: &Sheet) -> Result<Forecast, Refusal> {
    forecast(sheet.lines().as_flattened())
}

#[test]
fn random_sheets_meet_every_limit() {
    let mut random = Random::new(3);
    let mut refused = [0; 24];
    // Beyond, exactly the most, and one less: for values, records and pairs.
    let mut met = [[0; 3]; 3];
    let (mut rowless, mut unused, mut bare, mut many) = (0, 0, 0, 0);
    for _ in 0..2_000 {
        let (style, sheet) = forecasting::random(&mut random);
        rowless += usize::from(sheet.rows.is_empty());
        unused += usize::from(style == "unused");
        match foretold(&sheet) {
            Err(refusal) => refused[refusal.number as usize] += 1,
            Ok(forecast) => {
                refused[0] += 1;
                let figures = [forecast.values, forecast.records, forecast.pairs];
                let wanted = [None, Some(u32::MAX), Some(u32::MAX - 1)];
                for (met, figure) in met.iter_mut().zip(figures) {
                    for (met, wanted) in met.iter_mut().zip(wanted) {
                        *met += usize::from(figure == wanted);
                    }
                }
                bare += usize::from(forecast.pairs == Some(sheet.rules.len() as u32));
                many += usize::from(forecast.values.is_some_and(|values| values > 3_000));
            }
        }
    }
    // 4,294,967,294 records need a count of values that divides it, and 2 are too few.
    met[1][2] = met[1][1];
    assert!(met.as_flattened().iter().all(|&met| met > 10), "{met:?}");
    assert!(
        rowless > 50 && unused > 200 && bare > 100 && many > 50,
        "{many}"
    );
    assert_eq!(refused[0] + refused[11] + refused[21], 2_000, "{refused:?}");
    assert!(refused[0] > 1_800, "{refused:?}");
}

#[test]
fn families_have_the_values_that_they_promise() {
    let mut all: Vec<Sheet> = families().into_iter().flat_map(|f| f.sheets).collect();
    all.push(smallest());
    let values = all.iter().map(|sheet| {
        let verdict = judge(sheet.lines().as_flattened(), 20_480).unwrap();
        // The first t: where a rule fires, without it.
        let mut bare = sheet.clone();
        bare.rules.clear();
        assert_eq!(verdict.deepest, sheet.rules.len());
        (sheet.rows.len(), foretold(&bare).unwrap().values)
    });
    let of = |rows, values| (rows, Some(values));
    let wanted = [
        of(1_024, 6_144),
        of(1_024, 6_144),
        of(1_024, 6_144),
        of(1_024, 95),
        of(1_024, 1_024),
        of(1_024, 6_144),
        of(1, 6),
    ];
    assert_eq!(values.collect::<Vec<_>>(), wanted);
}
