//! Answers held against the chase and against the checker.

use super::common::{judge, lent, Random};
use crate::{chase, verify, Verdict};

/// Sheets in which every number of every step is forced.
const FORCED: [&str; 6] = [
    "K 1 2; B 1 1 2; H 1 2 3; R 1 7 8",
    "K 1 2; B 1 1 2; H 1 3 1; R 1 7 7",
    "K 1 1; K 2 2; B 1 1; H 2 1 2; B 2 1 2; H 1 2; R 1 5",
    "K 1 1; K 2 1; K 3 2; B 1 1; H 2 2; B 2 1; H 3 1 2; R 1 5",
    "K 1 1; K 2 2; K 3 2; B 1 1; H 2 1 2; B 2 1 2; H 3 2 3; R 1 5",
    "K 1 1; K 2 1; K 3 1; K 4 2; B 1 1; H 2 1; B 2 1; H 3 2; B 3 1; H 4 1 2; R 1 5",
];

#[test]
fn a_changed_step_is_rejected() {
    for sheet in FORCED {
        let numbers = lent(sheet);
        let good = judge(sheet);
        assert_eq!(verify(&numbers, &good), Ok(()));
        for at in 0..good.steps.len() {
            for place in 0..5 {
                for value in (0..9).chain([u16::MAX]) {
                    let mut bad = good.clone();
                    bad.steps[at][place] = value;
                    let same = value == good.steps[at][place];
                    let verdict = verify(&numbers, &bad);
                    assert_eq!(verdict.is_ok(), same, "{sheet}: {bad:?}");
                }
            }
        }
    }
}

#[test]
fn a_dropped_or_added_step_is_rejected() {
    for sheet in FORCED {
        let numbers = lent(sheet);
        let good = judge(sheet);
        for at in 0..good.steps.len() {
            let mut bad = good.clone();
            bad.steps.remove(at);
            assert!(verify(&numbers, &bad).is_err());
            if at < good.trail {
                bad.trail -= 1;
            } else {
                bad.turns -= 1;
            }
            assert!(verify(&numbers, &bad).is_err());
            let mut bad = good.clone();
            bad.steps.insert(at, good.steps[at]);
            assert!(verify(&numbers, &bad).is_err());
            bad.trail += 1;
            assert!(verify(&numbers, &bad).is_err());
        }
    }
}

/// The verdict turned round, the figures changed one at a time.
fn damaged(good: &Verdict) -> Vec<Verdict> {
    let nothing = Verdict {
        endless: false,
        deepest: 0,
        row: 0,
        trail: 0,
        turns: 0,
        steps: Vec::new(),
        ..*good
    };
    let turned = Verdict {
        endless: !good.endless,
        ..good.clone()
    };
    let deeper = |deepest| Verdict {
        deepest,
        ..good.clone()
    };
    let mut all = vec![turned, deeper(good.deepest + 1), deeper(usize::MAX)];
    if good.deepest > 0 {
        all.push(deeper(good.deepest - 1));
    }
    all.push(Verdict {
        deepest: usize::MAX,
        ..nothing.clone()
    });
    if *good != nothing {
        all.push(nothing);
    }
    let mut change = |change: fn(&mut Verdict)| {
        let mut bad = good.clone();
        change(&mut bad);
        all.push(bad);
    };
    change(|bad| bad.shapes += 1);
    change(|bad| bad.fired += 1);
    change(|bad| bad.share += 1);
    change(|bad| bad.row += 1);
    change(|bad| bad.row = usize::MAX);
    change(|bad| bad.trail += 1);
    change(|bad| bad.turns += 1);
    change(|bad| bad.turns = usize::MAX);
    all
}

#[test]
fn a_turned_verdict_or_changed_figure_is_rejected() {
    let settled = ["", "K 1 2; B 1 1 1; H 1 2 1; R 1 7 8"];
    for sheet in FORCED.into_iter().chain(settled) {
        let numbers = lent(sheet);
        for bad in damaged(&judge(sheet)) {
            assert!(verify(&numbers, &bad).is_err(), "{sheet}: {bad:?}");
        }
    }
}

#[test]
fn a_loop_shown_twice_is_rejected() {
    for sheet in &FORCED[..3] {
        let mut bad = judge(sheet);
        let again = bad.steps[bad.trail..].to_vec();
        bad.turns += again.len();
        bad.steps.extend(again);
        let error = verify(&lent(sheet), &bad).unwrap_err();
        assert!(error.contains("no pair of shape and field twice"));
    }
}

#[test]
fn a_step_beside_the_line_is_rejected() {
    let sheet = "K 1 1; K 2 2; K 3 3; B 1 1; H 2 2 3; B 2 1 2; H 3 1 2 3; R 1 5";
    let mut verdict = judge(sheet);
    for (made, followed) in [(1, 1), (1, 2), (2, 1), (2, 2)] {
        verdict.steps = vec![[1, 1, 0, made, 1], [2, 1, followed, 3, 1]];
        let accepted = verify(&lent(sheet), &verdict).is_ok();
        assert_eq!(accepted, made == followed);
    }
}

#[test]
fn a_number_carried_on_after_it_was_made_is_rejected() {
    let sheet = "K 1 1; K 2 1; B 1 1; H 1 2; B 1 1; H 2 1; R 1 5";
    let good = judge(sheet);
    assert_eq!((good.deepest, good.trail), (1, 1));
    let mut bad = good.clone();
    bad.steps.push([2, 1, 1, 1, 0]);
    bad.trail = 2;
    assert!(verify(&lent(sheet), &bad).is_err());
}

/// Kinds 1 to 62 in a ring; going round it once ends with the given marks.
fn ring(back: &str) -> String {
    let mut sheet: String = (1..=62).map(|kind| format!("K {kind} 6;")).collect();
    sheet.push_str("K 63 1; K 64 2;");
    for kind in 1..62 {
        sheet.push_str(&format!(
            "B {kind} 1 2 3 4 5 6; H {} 1 2 3 4 5 6;",
            kind + 1
        ));
    }
    sheet + &format!("B 62 1 2 3 4 5 6; H 1 {back};")
}

#[test]
fn a_long_line() {
    // The number made in field 6 has to come to field 1: five times round.
    let sheet = ring("2 3 4 5 6 1") + "B 63 1; H 1 1 1 1 1 1 2; B 62 1 2 3 4 5 6; H 64 1 7; R 63 5";
    let verdict = judge(&sheet);
    assert_eq!((verdict.deepest, verdict.trail), (2, 1 + 5 * 62 + 61 + 1));
    assert_eq!(verify(&lent(&sheet), &verdict), Ok(()));
    let chased = chase(&lent(&sheet), 2_000);
    assert!(chased.complete && chased.deepest == 2 && chased.shapes == verdict.shapes);
}

#[test]
fn a_long_loop() {
    let sheet = ring("2 3 4 5 6 7") + "R 62 1 2 3 4 5 6";
    let verdict = judge(&sheet);
    assert!(verdict.endless && verdict.turns >= 62);
    assert_eq!(verify(&lent(&sheet), &verdict), Ok(()));
}

#[test]
fn random_sheets_agree_with_the_chase() {
    let mut random = Random(0x2545_f491_4f6c_dd1d);
    let (mut settled, mut deep, mut endless) = (0, 0, 0);
    for _ in 0..20_000 {
        let numbers = random.sheet();
        let Ok(verdict) = crate::judge(&numbers, 20_480) else {
            continue;
        };
        assert_eq!(verify(&numbers, &verdict), Ok(()));
        let chased = chase(&numbers, 2_000);
        assert!(chased.shapes <= verdict.shapes && chased.fired <= verdict.fired);
        if verdict.endless {
            assert!(!chased.complete, "{numbers:?}");
            endless += 1;
        } else {
            assert!(chased.deepest <= verdict.deepest);
        }
        if chased.complete {
            let figures = (chased.deepest, chased.shapes, chased.fired);
            let judged = (verdict.deepest, verdict.shapes, verdict.fired);
            assert_eq!(figures, judged, "{numbers:?}");
            settled += 1;
            deep += usize::from(verdict.deepest > 1);
        }
    }
    assert!(settled > 2_000 && deep > 200 && endless > 2_000);
}

#[test]
fn layered_sheets_agree_with_the_chase() {
    let mut random = Random(0x1234_5678_9abc_def1);
    let (mut settled, mut deep, mut complete) = (0, 0, 0);
    for _ in 0..3_000 {
        let numbers = random.layered();
        let Ok(verdict) = crate::judge(&numbers, 20_480) else {
            continue;
        };
        assert_eq!(verify(&numbers, &verdict), Ok(()));
        assert!(!verdict.endless);
        settled += 1;
        deep += usize::from(verdict.deepest > 3);
        let chased = chase(&numbers, 2_000);
        if chased.complete {
            let figures = (chased.deepest, chased.shapes, chased.fired);
            let judged = (verdict.deepest, verdict.shapes, verdict.fired);
            assert_eq!(figures, judged, "{numbers:?}");
            complete += 1;
        }
    }
    assert!(settled > 1_000 && deep > 50 && complete > 1_000);
}

#[test]
fn random_sheets_are_read_as_written() {
    let mut random = Random(77);
    for _ in 0..2_000 {
        let numbers = random.sheet();
        let text = crate::write(&numbers, 32_768).unwrap();
        assert_eq!(crate::read(&text, 999).unwrap().concat(), numbers);
    }
}

#[test]
fn damaged_random_answers_are_rejected() {
    let mut random = Random(99);
    for _ in 0..3_000 {
        let numbers = random.sheet();
        let Ok(verdict) = crate::judge(&numbers, 20_480) else {
            continue;
        };
        // Another row may serve as well.
        let bad = damaged(&verdict)
            .into_iter()
            .filter(|bad| bad.row == verdict.row);
        for bad in bad {
            assert!(verify(&numbers, &bad).is_err(), "{numbers:?}: {bad:?}");
        }
    }
}
