//! Carrying out: computed examples, the limits, each refusal, and damaged results.

use super::common::{lent, refused, Random};
use crate::{carry, chase, judge, verify_run, Refusal, Run};

/// As many numbers as 4,096 records have.
const ROOM: usize = 8 * 4_096;

fn run(sheet: &str) -> Run {
    let run = carry(&lent(sheet), ROOM).unwrap();
    assert_eq!(verify_run(&lent(sheet), &run), Ok(()), "{sheet}");
    run
}

/// The records written like those of a sheet, and the count of firings.
fn check(sheet: &str, records: &str, firings: usize) {
    let run = run(sheet);
    assert_eq!(run.records.concat(), lent(records), "{sheet}");
    assert_eq!(run.firings, firings, "{sheet}");
}

fn refusal(sheet: &str) -> (u32, usize) {
    refused(carry(&lent(sheet), ROOM))
}

#[test]
fn computed_examples() {
    check("K 1 2; B 1 1 2; H 1 1 3; R 1 7 8", "R 1 7 8; R 1 7 9", 1);
    check(
        "K 1 1; K 2 2; B 1 1; H 2 2 3; H 2 3 2; R 1 4; R 1 8",
        "R 1 4; R 1 8; R 2 9 10; R 2 10 9",
        1,
    );
    check(
        "K 1 1; K 2 2; K 3 3; B 1 1; H 2 1 2; B 2 1 2; H 3 2 1 3; H 1 1; R 1 5; R 1 9; R 1 5",
        "R 1 5; R 1 9; R 2 5 10; R 2 9 11; R 3 10 5 12; R 3 11 9 13",
        4,
    );
    check(
        "K 1 1; K 2 1; B 1 1; H 2 2; B 1 1; H 2 2; R 1 5; R 1 6",
        "R 1 5; R 1 6; R 2 7; R 2 8",
        2,
    );
}

#[test]
fn nothing_and_no_rules() {
    check("", "", 0);
    check("K 1 2; B 1 1 2; H 1 2 3", "", 0);
    check("K 1 1; R 1 3; R 1 4; R 1 3; R 1 4", "R 1 3; R 1 4", 0);
}

#[test]
fn zeros_are_numbered_first() {
    check(
        "K 1 2; B 1 1 1; H 1 2 1; R 1 0 0; R 1 0 0; R 1 7 7",
        "R 1 8 9; R 1 10 11; R 1 7 7; R 1 12 7",
        1,
    );
    check(
        "K 1 2; K 2 2; B 1 1 2; H 2 2 3; R 1 0 4; R 1 3 4; R 1 0 4; R 1 3 4",
        "R 1 5 4; R 1 3 4; R 1 6 4; R 2 4 7",
        1,
    );
    // Of equal rows, those that hold a 0 stay; the others are one record.
    let rows = "R 1 3; R 1 0; R 1 3; R 1 0";
    check(&format!("K 1 1; {rows}"), "R 1 3; R 1 4; R 1 5", 0);
    // A table of zeros alone numbers from 1.
    check("K 1 2; R 1 0 0; R 1 0 0", "R 1 1 2; R 1 3 4", 0);
    check("K 1 1; K 2 1; B 1 1; H 2 2; R 1 0", "R 1 1; R 2 2", 1);
    // By row and then by field, whatever the kinds; the largest may come last.
    check(
        "K 1 3; K 2 1; R 2 0; R 1 0 5 0; R 2 5; R 1 9 0 9",
        "R 2 10; R 1 11 5 12; R 2 5; R 1 9 13 9",
        0,
    );
}

#[test]
fn zeros_are_never_the_same_but_a_carried_one_is() {
    // Two zeros of a row do not fit equal marks, nor do zeros of two rows carry the same value.
    let sheet = "K 1 2; K 2 2; B 1 1 1; H 2 1 2; R 1 0 0; R 1 7 0; R 1 0 7";
    check(sheet, "R 1 8 9; R 1 7 10; R 1 11 7", 0);
    let sheet = "K 1 1; K 2 2; B 1 1; H 2 1 2; R 1 0; R 1 0; R 1 7; R 1 7";
    let made = "R 2 8 10; R 2 9 11; R 2 7 12";
    check(sheet, &format!("R 1 8; R 1 9; R 1 7; {made}"), 3);
    // A 0 that a rule carries to two fields fits equal marks there.
    let sheet = "K 1 1; K 2 2; K 3 2; B 1 1; H 2 1 1; B 2 1 1; H 3 1 2; R 1 0";
    check(sheet, "R 1 1; R 2 1 1; R 3 1 2", 2);
    // A rule that does not carry the 0 fires once for both rows.
    let sheet = "K 1 2; K 2 2; B 1 1 2; H 2 2 3; R 1 0 7; R 1 0 7";
    check(sheet, "R 1 8 7; R 1 9 7; R 2 7 10", 1);
}

#[test]
fn numbers_of_zeros_up_to_99999999() {
    let pair = |row: &str| format!("K 1 2; R 1 {row}");
    check(&pair("99999998 0"), "R 1 99999998 99999999", 0);
    check(&pair("0 99999998"), "R 1 99999999 99999998", 0);
    assert_eq!(refusal(&pair("99999999 0")), (23, 0));
    assert_eq!(refusal(&pair("0 99999999")), (23, 0));
    // Fresh numbers come after those of the zeros.
    let sheet = |row| format!("K 1 2; K 2 1; B 1 1 2; H 2 3; R 1 0 {row}; R 1 0 {row}");
    let made = "R 1 99999997 99999996; R 1 99999998 99999996; R 2 99999999";
    check(&sheet(99_999_996), made, 1);
    assert_eq!(refusal(&sheet(99_999_997)), (23, 0));
    // 22 is before 23, and 21 before both.
    let zeros = |more: &str| full(more).replace("R 1 1;", "R 1 0;");
    let largest = |sheet: String| sheet.replace("R 1 1023;", "R 1 99999999;");
    assert_eq!(refusal(&largest(zeros(""))), (23, 0));
    assert_eq!(refusal(&largest(zeros("B 1 1; H 5 2;"))), (22, 0));
    let endless = "B 1 1; H 6 1 2; B 6 1 2; H 6 2 3;";
    let kinds = |sheet: String| sheet.replace("K 5 1;", "K 5 1; K 6 2;");
    assert_eq!(refusal(&kinds(largest(zeros(endless)))), (21, 0));
    let all = full("").replace("R 1 1;", "R 1 0;");
    assert_eq!(run(&all).records.len(), 4_096);
}

#[test]
fn a_rule_fires_where_equal_marks_are_equal_values() {
    let rows = "R 1 7 8; R 1 8 8; R 1 7 7";
    let sheet = format!("K 1 2; K 2 2; B 1 1 1; H 2 1 2; {rows}");
    check(&sheet, &format!("{rows}; R 2 8 9; R 2 7 10"), 2);
    // Mark 2 is not carried: the second row fires nothing.
    let sheet = "K 1 2; K 2 1; B 1 1 2; H 2 1; R 1 5 6; R 1 5 7; R 1 4 6";
    check(sheet, "R 1 5 6; R 1 5 7; R 1 4 6; R 2 5; R 2 4", 2);
}

#[test]
fn made_records_are_visited_after_the_rows_and_rules_in_order() {
    // Rule 2 fires on the first record before rule 1 fires on the second.
    let rules = "B 1 1; H 2 1 2; B 1 1; H 3 1 2";
    let kinds = "K 1 1; K 2 2; K 3 2";
    let rows = "R 1 1; R 1 2";
    check(
        &format!("{kinds}; {rules}; {rows}"),
        &format!("{rows}; R 2 1 3; R 3 1 4; R 2 2 5; R 3 2 6"),
        4,
    );
    // A made record that is a row is not added again; its numbers count all the same.
    let sheet = "K 1 1; K 2 1; K 3 1; B 1 1; H 2 1; H 3 2; H 2 1; H 3 3; R 1 5; R 2 5";
    check(sheet, "R 1 5; R 2 5; R 3 6; R 3 7", 1);
}

#[test]
fn six_fields_four_heads_twelve_marks() {
    let sheet = "K 1 6; K 2 6; B 1 1 2 3 4 5 6; H 2 7 8 9 10 11 12; H 2 12 11 10 9 8 7;
                 H 2 1 2 3 4 5 6; H 2 6 12 5 11 4 10; R 1 1 2 3 4 5 6; R 1 6 5 4 3 2 1";
    let made = "R 2 7 8 9 10 11 12; R 2 12 11 10 9 8 7; R 2 1 2 3 4 5 6; R 2 6 12 5 11 4 10;
                R 2 13 14 15 16 17 18; R 2 18 17 16 15 14 13; R 2 6 5 4 3 2 1; R 2 1 18 2 17 3 16";
    check(
        sheet,
        &format!("R 1 1 2 3 4 5 6; R 1 6 5 4 3 2 1; {made}"),
        2,
    );
}

/// 1,024 rows of P with P(1) → Q(1), T(1), U(1), and further lines before the rows.
fn full(more: &str) -> String {
    let rows: String = (1..=1_024).map(|row| format!("R 1 {row};")).collect();
    format!("K 1 1; K 2 1; K 3 1; K 4 1; K 5 1; B 1 1; H 2 1; H 3 1; H 4 1; {more} {rows}")
}

#[test]
fn records_up_to_4096() {
    let most = run(&full(""));
    assert_eq!((most.records.len(), most.firings), (4_096, 1_024));
    assert_eq!(refusal(&full("B 1 1; H 5 2;")), (22, 0));
    let none_new = run(&full("B 4 1; H 2 1; H 3 1; H 1 1;"));
    assert_eq!((none_new.records.len(), none_new.firings), (4_096, 2_048));
}

#[test]
fn numbers_up_to_99999999() {
    let sheet = |row| format!("K 1 1; K 2 1; B 1 1; H 2 2; R 1 {row}");
    check(&sheet(99_999_998), "R 1 99999998; R 2 99999999", 1);
    assert_eq!(refusal(&sheet(99_999_999)), (23, 0));
    // A rule that makes no fresh number needs none.
    let copied = "K 1 1; K 2 1; B 1 1; H 2 1; R 1 99999999";
    check(copied, "R 1 99999999; R 2 99999999", 1);
    let two = |row| format!("K 1 1; K 2 2; B 1 1; H 2 2 3; R 1 {row}");
    check(&two(99_999_997), "R 1 99999997; R 2 99999998 99999999", 1);
    assert_eq!(refusal(&two(99_999_998)), (23, 0));
}

#[test]
fn refusals_in_order() {
    let endless = "K 1 2; B 1 1 2; H 1 2 3; R 1 7 99999999";
    let code = |numbers: &[u32], room| refused(carry(numbers, room));
    assert_eq!(code(&lent("X 1 1"), ROOM - 1), (12, 0));
    assert_eq!(code(&lent("K 1 1; R 1 100000000"), ROOM), (8, 2));
    assert_eq!(code(&lent("K 1 1; R 1 1")[..9], ROOM), (8, 2));
    assert_eq!(code(&lent("K 1 1; R 1 1"), ROOM + 1), (0, 0));
    // 11 where more than 512 shapes are reached, also by an endless sheet.
    let wide = "K 1 6; K 2 6; K 3 6; K 4 2; B 1 1 2 3 4 5 6; H 1 2 1 3 4 5 6; H 1 2 3 4 5 6 1;
                H 1 1 1 3 4 5 6; B 1 1 2 3 4 5 6; H 2 1 2 3 4 5 6; H 3 1 2 3 4 5 6;
                B 4 1 2; H 4 2 3; R 1 1 2 3 4 5 6; R 4 1 1";
    assert_eq!(refusal(wide), (11, 0));
    assert_eq!(refusal(endless), (21, 0));
    // An endless sheet whose other rules make far over 4,096 records.
    let rows: String = (1..=1_000).map(|row| format!("R 2 {row};")).collect();
    let made = "B 2 1; H 2 1; H 3 1 2; B 2 1; H 3 1 2; H 3 1 3; H 3 1 4; H 3 1 5;";
    let both = |rule: &str| format!("K 1 2; K 2 1; K 3 2; {rule} {made} R 1 7 99999999; {rows}");
    assert_eq!(refusal(&both("B 1 1 2; H 1 2 3;")), (21, 0));
    assert_eq!(refusal(&both("B 1 1 2; H 1 1 3;")), (22, 0));
    assert_eq!(
        refusal(&full("B 1 1; H 5 2;").replace("R 1 1024;", "R 1 99999999;")),
        (22, 0)
    );
}

/// Every change of a number, a line or a count is seen.
#[test]
fn damaged_results_are_rejected() {
    let sheets = [
        "K 1 2; B 1 1 2; H 1 1 3; R 1 7 8",
        "K 1 1; K 2 2; B 1 1; H 2 2 3; H 2 3 2; R 1 4; R 1 8",
        "K 1 1; K 2 2; K 3 3; B 1 1; H 2 1 2; B 2 1 2; H 3 2 1 3; H 1 1; R 1 5; R 1 9; R 1 5",
        "K 1 1; K 2 1; B 1 1; H 2 2; B 1 1; H 2 2; R 1 5; R 1 6",
        "K 1 2; B 1 1 1; H 1 2 1; R 1 0 0; R 1 0 0; R 1 7 7",
        "K 1 2; K 2 2; B 1 1 2; H 2 2 3; R 1 0 4; R 1 3 4; R 1 0 4; R 1 3 4",
    ];
    for sheet in sheets {
        let good = run(sheet);
        let rejected = |bad: &Run| assert!(verify_run(&lent(sheet), bad).is_err(), "{bad:?}");
        for at in 0..good.records.len() {
            for place in 0..8 {
                for value in (0..15).chain([82, u32::MAX]) {
                    let mut bad = good.clone();
                    bad.records[at][place] = value;
                    if bad != good {
                        rejected(&bad);
                    }
                }
            }
            let mut bad = good.clone();
            bad.records.remove(at);
            rejected(&bad);
            let mut bad = good.clone();
            bad.records.push(good.records[at]);
            rejected(&bad);
        }
        for firings in [0, good.firings - 1, good.firings + 1] {
            let mut bad = good.clone();
            bad.firings = firings;
            if bad != good {
                rejected(&bad);
            }
        }
    }
}

#[test]
fn records_that_only_make_each_other_are_rejected() {
    let sheet = lent("K 1 1; K 2 1; B 1 1; H 2 1; B 2 1; H 1 1; R 1 5; R 1 9");
    let mut run = carry(&sheet, ROOM).unwrap();
    assert_eq!((run.records.len(), run.firings), (4, 4));
    run.records
        .extend([[82, 1, 7, 0, 0, 0, 0, 0], [82, 2, 7, 0, 0, 0, 0, 0]]);
    run.firings += 4;
    assert!(verify_run(&sheet, &run).is_err());
}

/// The chase has as many records; judging says which sheets are refused with 11 and 21.
#[test]
fn random_sheets_held_against_the_chase() {
    let mut random = Random(21);
    let mut met = [0; 24];
    for index in 0..2_000 {
        let sheet = if index % 2 == 0 {
            random.sheet()
        } else {
            random.layered()
        };
        let result = carry(&sheet, ROOM);
        met[refused(result.clone()).0 as usize] += 1;
        let judged = judge(&sheet, 20_480);
        let chased = |cap| chase(&sheet, cap);
        match (result, judged) {
            (Ok(run), Ok(verdict)) => {
                assert!(!verdict.endless);
                assert_eq!(verify_run(&sheet, &run), Ok(()), "{sheet:?}");
                let count = run.records.len();
                assert!(chased(count).complete && (count == 0 || !chased(count - 1).complete));
            }
            (Err(Refusal { number: 21, .. }), judged) => assert!(judged.unwrap().endless),
            (Err(Refusal { number: 22, .. }), judged) => {
                assert!(!judged.unwrap().endless && !chased(4_096).complete);
            }
            (result, judged) => assert_eq!(refused(result), refused(judged)),
        }
    }
    assert!(met[0] > 1_000 && met[21] > 100 && met[22] > 50, "{met:?}");
}
