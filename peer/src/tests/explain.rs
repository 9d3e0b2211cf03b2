//! Explaining: sentences as they stand, each refusal, rooms that just fit, and texts read back,
//! whole and damaged.

use super::common::{judge, lent, refused, Random};
use crate::random;
use crate::random::series::{fresh_chain, End};
use crate::{explain, read_back, text_of_steps, Refusal, MOST_EXPLAINED};

/// A text in lent memory that has so many bytes; checks that the rest is as it was.
fn explained(numbers: &[u32], room: usize) -> Result<Vec<u8>, Refusal> {
    let before = random::Random::new(room as u64).bytes(room);
    let mut text = before.clone();
    let answer = explain(numbers, &mut text);
    let count = answer.unwrap_or(0);
    assert_eq!(text[count..], before[count..]);
    answer.map(|count| text[..count].to_vec())
}

fn check(sheet: &str, wanted: &str) {
    let text = explained(&lent(sheet), MOST_EXPLAINED).unwrap();
    assert_eq!(str::from_utf8(&text), Ok(wanted), "{sheet}");
    let verdict = judge(sheet);
    let told = read_back(&text).unwrap();
    assert_eq!((told.steps, told.trail), (verdict.steps, verdict.trail));
}

#[test]
fn sentences_as_they_stand() {
    check(
        "K 1 2; B 1 1 2; H 1 3 1; R 1 7 7",
        "Rule 1, H line 1: kind 1 field 0 to kind 1 field 0, reaching, trail.\n\
         Rule 1, H line 1: kind 1 field 1 to kind 1 field 1, fresh, loop.\n",
    );
    check(
        "K 1 2; B 1 1 2; H 1 2 3; R 1 7 8",
        "Rule 1, H line 1: kind 1 field 2 to kind 1 field 2, fresh, loop.\n",
    );
    check(
        "K 1 2; K 3 1; B 1 1 2; H 3 3; B 1 1 2; H 3 2; H 3 3; B 3 1; H 1 2 1; R 1 7 8",
        "Rule 2, H line 2: kind 1 field 2 to kind 3 field 1, fresh, loop.\n\
         Rule 3, H line 1: kind 3 field 1 to kind 1 field 2, carried, loop.\n",
    );
}

#[test]
fn a_sentence_of_each_sort() {
    let numbers = lent("K 1 2; K 3 1; B 1 1 2; H 3 3; B 1 1 2; H 3 2; H 3 3; R 1 7 8");
    let steps = [
        [1, 1, 0, 1, 1],
        [1, 1, 2, 0, 1],
        [2, 1, 0, 0, 0],
        [2, 2, 0, 0, 1],
        [2, 1, 2, 1, 0],
        [2, 1, 0, 6, 0],
        [2, 2, 6, 0, 0],
    ];
    let text = text_of_steps(&numbers, 3, &steps).unwrap();
    let wanted = "Rule 1, H line 1: kind 1 field 0 to kind 3 field 1, fresh, trail.\n\
                  Rule 1, H line 1: kind 1 field 2 to kind 3 field 0, fresh, trail.\n\
                  Rule 2, H line 1: kind 1 field 0 to kind 3 field 0, reaching, trail.\n\
                  Rule 2, H line 2: kind 1 field 0 to kind 3 field 0, fresh, loop.\n\
                  Rule 2, H line 1: kind 1 field 2 to kind 3 field 1, carried, loop.\n\
                  Rule 2, H line 1: kind 1 field 0 to kind 3 field 6, carried, loop.\n\
                  Rule 2, H line 2: kind 1 field 6 to kind 3 field 0, carried, loop.\n";
    assert_eq!(str::from_utf8(&text), Ok(wanted));
    let told = read_back(&text).unwrap();
    assert_eq!((told.steps, told.trail), (steps.to_vec(), 3));
    assert_eq!(told.kinds, [[1, 3]; 7]);
    for trail in [0, 7] {
        let text = text_of_steps(&numbers, trail, &steps).unwrap();
        assert_eq!(read_back(&text).unwrap().trail, trail);
    }
}

/// Of a sheet with one rule of two H lines.
#[test]
fn steps_that_are_not_there_have_no_text() {
    let numbers = lent("K 1 2; B 1 1 2; H 1 2 3; H 1 2 1; R 1 7 8");
    let there = |step| text_of_steps(&numbers, 0, &[step]).is_some();
    assert!(there([1, 1, 2, 2, 1]) && there([1, 2, 6, 6, 0]));
    let absent = [
        [0, 1, 2, 2, 1],
        [2, 1, 2, 2, 1],
        [1, 0, 2, 2, 1],
        [1, 3, 2, 2, 1],
        [1, 1, 7, 2, 1],
        [1, 1, 2, 7, 1],
        [1, 1, 2, 2, 2],
        [u16::MAX; 5],
    ];
    assert!(!absent.into_iter().any(there));
    assert_eq!(text_of_steps(&numbers[..31], 0, &[]), None);
    assert_eq!(text_of_steps(&numbers, 0, &[]), Some(Vec::new()));
}

/// Rules that never fire, and among them those whose numbers are given.
fn rules_at(places: &[(usize, &str)]) -> String {
    let rule = |number| {
        let found = places.iter().find(|place| place.0 == number);
        found.map_or("B 60 1; H 60 1;", |place| place.1)
    };
    (1..=256).map(rule).collect()
}

#[test]
fn numbers_of_one_to_three_digits() {
    let kinds = [1, 2, 3, 9, 10, 60, 61, 64].map(|kind| format!("K {kind} 1;"));
    let rules = rules_at(&[
        (9, "B 1 1; H 9 1;"),
        (10, "B 9 1; H 10 1;"),
        (11, "B 3 1; H 2 1;"),
        (99, "B 10 1; H 64 1;"),
        (100, "B 64 1; H 2 1;"),
        (256, "B 2 1; H 61 1; H 61 1; H 61 1; H 1 2;"),
    ]);
    check(
        &format!("{} {rules} R 3 5", kinds.concat()),
        "Rule 11, H line 1: kind 3 field 0 to kind 2 field 0, reaching, trail.\n\
         Rule 256, H line 4: kind 2 field 1 to kind 1 field 1, fresh, loop.\n\
         Rule 9, H line 1: kind 1 field 1 to kind 9 field 1, carried, loop.\n\
         Rule 10, H line 1: kind 9 field 1 to kind 10 field 1, carried, loop.\n\
         Rule 99, H line 1: kind 10 field 1 to kind 64 field 1, carried, loop.\n\
         Rule 100, H line 1: kind 64 field 1 to kind 2 field 1, carried, loop.\n",
    );
}

#[test]
fn the_longest_text() {
    let rules = rules_at(&[(256, "B 64 1; H 64 1; H 64 1; H 64 1; H 64 1;")]);
    let numbers = lent(&format!("K 60 1; K 64 1; {rules}"));
    let steps = [[256, 4, 0, 0, 0]; 4_096];
    let text = text_of_steps(&numbers, 4_096, &steps).unwrap();
    assert_eq!(text.len(), MOST_EXPLAINED);
    let sentence = b"Rule 256, H line 4: kind 64 field 0 to kind 64 field 0, reaching, trail.\n";
    assert!(text.chunks(73).all(|part| part == sentence));
}

const ENDLESS: &str = "K 1 2; B 1 1 2; H 1 3 1; R 1 7 7";

#[test]
fn refusals_in_order() {
    let code = |sheet: &str, room| refused(explained(&lent(sheet), room));
    let wide = "K 1 6; K 2 6; K 3 6; K 4 2; B 1 1 2 3 4 5 6; H 1 2 1 3 4 5 6; H 1 2 3 4 5 6 1;
                H 1 1 1 3 4 5 6; B 1 1 2 3 4 5 6; H 2 1 2 3 4 5 6; H 3 1 2 3 4 5 6;";
    let feeds_itself = "B 4 1 2; H 4 2 3;";
    let row = "R 1 1 2 3 4 5 6;";
    for room in [0, 1, MOST_EXPLAINED] {
        // 8 before all others.
        assert_eq!(code(&format!("{ENDLESS}; R 1 7 100000000"), room), (8, 5));
        assert_eq!(code("K 1 1; R 1 5; K 2 1", room), (8, 3));
        assert_eq!(code(&format!("{wide} {row} R 4 1 2 3"), room), (8, 13));
        let part = &lent(ENDLESS)[..31];
        assert_eq!(refused(explained(part, room)), (8, 4));
        // 11 where the sheet is endless too, and where it is not.
        let both = format!("{wide} {feeds_itself} {row} R 4 1 1");
        assert_eq!(code(&both, room), (11, 0));
        assert_eq!(code(&format!("{wide} {row}"), room), (11, 0));
        // 24 before 25.
        assert_eq!(code("", room), (24, 0));
        assert_eq!(code("K 1 2; B 1 1 2; H 1 2 3", room), (24, 0));
        assert_eq!(code("K 1 2; B 1 1 1; H 1 2 1; R 1 7 8", room), (24, 0));
        assert_eq!(code(wide, room), (24, 0));
    }
    let endless = format!("{wide} {feeds_itself} R 4 1 2");
    for sheet in [ENDLESS, &endless] {
        assert_eq!(code(sheet, 0), (25, 0));
        assert_eq!(code(sheet, 1), (25, 0));
        assert_eq!(code(sheet, MOST_EXPLAINED), (0, 0));
    }
}

/// Explains in a room that just fits, in a longer one and in shorter ones; gives the text.
fn in_all_rooms(numbers: &[u32]) -> Vec<u8> {
    let text = explained(numbers, MOST_EXPLAINED).unwrap();
    let size = text.len();
    for room in [size, size + 1, size + 100] {
        assert_eq!(explained(numbers, room).as_ref(), Ok(&text));
    }
    for room in [0, size / 2, size - 1] {
        assert_eq!(refused(explained(numbers, room)), (25, 0));
    }
    text
}

#[test]
fn rooms_that_just_fit() {
    assert_eq!(in_all_rooms(&lent(ENDLESS)).len(), 69 + 65);
}

/// Small sheets, and such as are compared with the library.
fn random_sheets() -> impl Iterator<Item = Vec<u32>> {
    let mut small = Random(31);
    let mut large = random::Random::new(4);
    (0..3_000).map(move |index| match index % 3 {
        0 => random::sheets::random(&mut large).1.lines().concat(),
        _ => small.sheet(),
    })
}

#[test]
fn random_sheets_are_read_back() {
    let mut met = [0; 26];
    let mut longest = 0;
    for numbers in random_sheets() {
        let answer = explained(&numbers, MOST_EXPLAINED);
        met[refused(answer).0 as usize] += 1;
        let verdict = match crate::judge(&numbers, 20_480) {
            Ok(verdict) if verdict.endless => verdict,
            judged => {
                let wanted = refused(judged.and(Err::<(), _>(Refusal {
                    number: 24,
                    line: 0,
                })));
                assert_eq!(refused(explained(&numbers, 0)), wanted);
                continue;
            }
        };
        let text = in_all_rooms(&numbers);
        longest = longest.max(text.len());
        let again = text_of_steps(&numbers, verdict.trail, &verdict.steps);
        assert_eq!(again.as_ref(), Some(&text));
        let told = read_back(&text).unwrap();
        assert_eq!(told.text(), text);
        assert_eq!((told.steps, told.trail), (verdict.steps, verdict.trail));
    }
    assert!(met[0] > 500 && met[24] > 500 && longest > 5_000, "{met:?}");
}

#[test]
fn a_loop_through_60_kinds() {
    let sheet = fresh_chain(&mut random::Random::new(1), 60, false, End::Returns);
    let told = read_back(&in_all_rooms(&sheet.lines().concat())).unwrap();
    assert_eq!((told.trail, told.steps.len()), (0, 60));
    let fresh = told.steps.iter().filter(|step| step[4] == 1).count();
    assert!(told.kinds[0] == [1, 2] && told.kinds[59] == [60, 1] && fresh == 60);
}

/// What no list of steps gives.
const WRONG: [&str; 37] = [
    "\n",
    "Rule 1, H line 1: kind 1 field 1 to kind 1 field 1, fresh, loop.",
    "Rule 1, H line 1: kind 1 field 1 to kind 1 field 1, fresh, loop.\n\n",
    "Rule 1, H line 1: kind 1 field 1 to kind 1 field 1, fresh, loop.\n ",
    "Rule 1, H line 1: kind 1 field 1 to kind 1 field 1, fresh, loop.\nRule",
    "Rule 1, H line 1: kind 1 field 1 to kind 1 field 1, fresh, loop.\r\n",
    "Rule 1, H line 1: kind 1 field 1 to kind 1 field 1, fresh, loop. \n",
    "Rule 1, H line 1: kind 1 field 1 to kind 1 field 1, fresh, loop\n",
    "Rule 1, H line 1: kind 1 field 1 to kind 1 field 1, fresh, trial.\n",
    "Rule 1, H line 1: kind 1 field 1 to kind 1 field 1, fresh.\n",
    "Rule 1, H line 1: kind 1 field 1 to kind 1 field 1, loop.\n",
    "Rule 1, H line 1: kind 1 field 1 to kind 1 field 1, Fresh, loop.\n",
    "Rule 1, H line 1: kind 1 field 1 to kind 1 field 1, made, loop.\n",
    "Rule 1, H line 1: kind 1 field 1 to kind 1 field 1 fresh, loop.\n",
    "Rule 1, H line 1: kind 1 field 0 to kind 1 field 0, carried, loop.\n",
    "Rule 1, H line 1: kind 1 field 1 to kind 1 field 1, reaching, trail.\n",
    "Rule 1, H line 1: kind 1 field 0 to kind 1 field 1, reaching, trail.\n",
    "Rule 1, H line 1: kind 1 field 1 to kind 1 field 0, reaching, trail.\n",
    "Rule 01, H line 1: kind 1 field 1 to kind 1 field 1, fresh, loop.\n",
    "Rule 1, H line 01: kind 1 field 1 to kind 1 field 1, fresh, loop.\n",
    "Rule 1, H line 1: kind 01 field 1 to kind 1 field 1, fresh, loop.\n",
    "Rule 1, H line 1: kind 1 field 00 to kind 1 field 1, fresh, loop.\n",
    "Rule 1, H line 1: kind 1 field 1 to kind 1 field 01, fresh, loop.\n",
    "Rule 0, H line 1: kind 1 field 1 to kind 1 field 1, fresh, loop.\n",
    "Rule 257, H line 1: kind 1 field 1 to kind 1 field 1, fresh, loop.\n",
    "Rule 65537, H line 1: kind 1 field 1 to kind 1 field 1, fresh, loop.\n",
    "Rule , H line 1: kind 1 field 1 to kind 1 field 1, fresh, loop.\n",
    "Rule -1, H line 1: kind 1 field 1 to kind 1 field 1, fresh, loop.\n",
    "Rule  1, H line 1: kind 1 field 1 to kind 1 field 1, fresh, loop.\n",
    "Rule 1, H line 0: kind 1 field 1 to kind 1 field 1, fresh, loop.\n",
    "Rule 1, H line 5: kind 1 field 1 to kind 1 field 1, fresh, loop.\n",
    "Rule 1, H line 1: kind 0 field 1 to kind 1 field 1, fresh, loop.\n",
    "Rule 1, H line 1: kind 1 field 1 to kind 65 field 1, fresh, loop.\n",
    "Rule 1, H line 1: kind 1 field 7 to kind 1 field 1, fresh, loop.\n",
    "Rule 1, H line 1: kind 1 field 1 to kind 1 field 7, fresh, loop.\n",
    "rule 1, H line 1: kind 1 field 1 to kind 1 field 1, fresh, loop.\n",
    "Rule 1, B line 1: kind 1 field 1 to kind 1 field 1, fresh, loop.\n",
];

#[test]
fn what_no_list_gives_is_refused() {
    let good = "Rule 1, H line 1: kind 1 field 1 to kind 1 field 1, fresh, loop.\n";
    assert_eq!(read_back(good.as_bytes()).unwrap().text(), good.as_bytes());
    assert_eq!(read_back(b"").unwrap().steps.len(), 0);
    for wrong in WRONG {
        assert!(read_back(wrong.as_bytes()).is_err(), "{wrong}");
        // Also after a good sentence.
        let (sheet, steps) = (lent(ENDLESS), [[1, 1, 0, 0, 0]]);
        let mut text = text_of_steps(&sheet, 1, &steps).unwrap();
        text.extend_from_slice(wrong.as_bytes());
        assert!(read_back(&text).is_err(), "{wrong}");
    }
    for end in 1..good.len() {
        assert!(read_back(&good.as_bytes()[..end]).is_err(), "{end}");
        assert!(read_back(&good.as_bytes()[end..]).is_err(), "{end}");
    }
}

#[test]
fn sentences_that_do_not_go_together_are_refused() {
    let text = |sentences: &[&str]| {
        let whole = sentences
            .iter()
            .map(|sentence| format!("Rule {sentence}.\n"));
        whole.collect::<String>().into_bytes()
    };
    let error = |sentences: &[&str]| read_back(&text(sentences)).unwrap_err();
    let turn = "1, H line 1: kind 1 field 1 to kind 2 field 1, fresh, loop";
    let before = "1, H line 1: kind 1 field 0 to kind 2 field 0, reaching, trail";
    assert!(read_back(&text(&[before, before, turn, turn])).is_ok());
    // A sentence of the trail after one of the loop.
    assert!(error(&[before, turn, before]).starts_with("sentence 3: "));
    assert!(error(&[turn, before, turn]).starts_with("sentence 2: "));
    // Other kinds of the same rule or H line.
    let other_body = "1, H line 2: kind 3 field 1 to kind 2 field 1, fresh, loop";
    let other_head = "1, H line 1: kind 1 field 1 to kind 3 field 1, fresh, loop";
    let another = "1, H line 2: kind 1 field 1 to kind 3 field 1, fresh, loop";
    assert!(error(&[turn, other_body]).starts_with("sentence 2 "));
    assert!(error(&[turn, other_head]).starts_with("sentence 2 "));
    assert!(read_back(&text(&[turn, another])).is_ok());
}

/// One byte changed, left out or put in.
fn damaged(random: &mut random::Random, text: &[u8]) -> Vec<u8> {
    let mut bad = text.to_vec();
    let at = random.below(text.len());
    let byte = match random.below(3) {
        0 => random.below(256) as u8,
        1 => b'0' + random.below(10) as u8,
        _ => random.pick(text),
    };
    match random.below(4) {
        0 => bad.insert(at, byte),
        1 => drop(bad.remove(at)),
        _ => bad[at] = byte,
    }
    bad
}

#[test]
fn damaged_texts_are_refused_or_tell_something_else() {
    let mut random = random::Random::new(6);
    let (mut refusals, mut others) = (0, 0);
    for numbers in random_sheets() {
        let Ok(text) = explained(&numbers, MOST_EXPLAINED) else {
            continue;
        };
        let told = read_back(&text).unwrap();
        for _ in 0..40 {
            let bad = damaged(&mut random, &text);
            match read_back(&bad) {
                _ if bad == text => {}
                Err(_) => refusals += 1,
                Ok(other) => {
                    assert_ne!(other, told);
                    assert_eq!(other.text(), bad);
                    others += 1;
                }
            }
        }
    }
    assert!(refusals > 10_000 && others > 500, "{refusals} {others}");
}
