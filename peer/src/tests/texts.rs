//! Texts walked line by line, and judged without lent lines.

use super::common::{lent, refused, text, Random};
use crate::{judge, judge_text, line_span, read, write};

#[test]
fn a_span_has_its_byte_10() {
    let sheet = b"K        1        1\nR        1        5\n";
    assert_eq!(line_span(sheet, 1), (0, 20));
    assert_eq!(line_span(sheet, 2), (20, 40));
    assert_eq!(line_span(b"\n\nab\n", 1), (0, 1));
    assert_eq!(line_span(b"\n\nab\n", 2), (1, 2));
    assert_eq!(line_span(b"\n\nab\n", 3), (2, 5));
}

#[test]
fn where_there_is_no_line_the_walker_stays() {
    for number in [0, 1, 2, usize::MAX] {
        assert_eq!(line_span(b"", number), (0, 0));
        assert_eq!(line_span(b"K        1        1", number), (0, 0));
    }
    let unended = b"a\nbc\nd";
    assert_eq!(line_span(unended, 0), (0, 0));
    assert_eq!(line_span(unended, 2), (2, 5));
    for number in [3, 4, 99, usize::MAX] {
        assert_eq!(line_span(unended, number), (5, 5));
        assert_eq!(line_span(b"a\nbc\n", number), (5, 5));
    }
}

/// A walker of its own: keeps the next offset, and moves past a line that has a byte 10.
fn walked(text: &[u8], number: usize) -> (usize, usize) {
    let (mut start, mut next) = (0, 0);
    for _ in 0..number {
        start = next;
        let length = text[next..].iter().position(|&byte| byte == b'\n');
        next += length.map_or(0, |length| length + 1);
    }
    (start, next)
}

#[test]
fn spans_are_those_of_a_walker() {
    let mut random = Random(41);
    for _ in 0..2_000 {
        let size = random.below(30);
        let any: Vec<u8> = (0..size)
            .map(|_| b"\n\nab"[random.below(4) as usize])
            .collect();
        for number in 0..35 {
            assert_eq!(line_span(&any, number), walked(&any, number), "{any:?}");
        }
    }
}

#[test]
fn spans_of_a_sheet_are_its_lines() {
    let mut random = Random(42);
    for _ in 0..200 {
        let numbers = random.sheet();
        let text = write(&numbers, 32_768).unwrap();
        let mut end = 0;
        for number in 1..=numbers.len() / 8 {
            let (start, next) = line_span(&text, number);
            assert!(start == end && next > start);
            assert_eq!(text[start] as u32, numbers[8 * (number - 1)]);
            end = next;
        }
        assert_eq!(end, text.len());
        assert_eq!(line_span(&text, numbers.len() / 8 + 1), (end, end));
    }
}

#[test]
fn refusals_of_a_judged_text() {
    let of = |sheet: &str, steps| refused(judge_text(&text(sheet), steps));
    let long = vec![b'\n'; 32_769];
    assert_eq!(refused(judge_text(&long, 20_479)), (12, 0));
    assert_eq!(refused(judge_text(&long, 20_480)), (1, 0));
    assert_eq!(refused(judge_text(&long[1..], 20_480)), (2, 1));
    assert_eq!(of("X 1 1", 20_479), (12, 0));
    assert_eq!(of("X 1 1", 20_480), (2, 1));
    assert_eq!(of("K 1 1; B 1 1", 20_480), (3, 3));
    assert_eq!(of("K 1 1; R 2 1", 20_480), (4, 2));
    assert_eq!(of("K 1 1; B 1 2", 20_480), (5, 2));
    let rows = format!("K 1 1; {}", "R 1 1;".repeat(1_025));
    assert_eq!(of(&rows, 20_480), (6, 1_026));
    assert_eq!(of("", 0), (12, 0));
    assert_eq!(of("", 20_480), (0, 0));
}

/// 35 kinds of four fields, each with all its 15 patterns: 525 shapes.
fn many_shapes(rows: usize) -> String {
    let kinds = (1..=35).map(|kind| format!("K {kind} 4;"));
    let rows = (1..=35)
        .flat_map(|kind| {
            let row = move |digits: &Vec<u32>| {
                let values: Vec<String> = digits.iter().map(u32::to_string).collect();
                format!("R {kind} {};", values.join(" "))
            };
            let all = crate::random::limits::patterns(4);
            all.iter().map(row).collect::<Vec<String>>()
        })
        .take(rows);
    kinds.chain(rows).collect()
}

#[test]
fn refusal_11_comes_last() {
    let of = |sheet: &str| refused(judge_text(&text(sheet), 20_480));
    assert_eq!(of(&many_shapes(512)), (0, 0));
    assert_eq!(of(&many_shapes(513)), (11, 0));
    assert_eq!(of(&(many_shapes(513) + "R 64 1")), (4, 35 + 513 + 1));
}

#[test]
fn a_text_is_judged_as_its_lines_are() {
    let example = "K 1 2; B 1 1 2; H 1 2 3; R 1 7 8";
    assert_eq!(
        judge_text(&text(example), 20_480),
        judge(&lent(example), 20_480)
    );
    let mut random = Random(43);
    for _ in 0..2_000 {
        let numbers = random.sheet();
        let text = write(&numbers, 32_768).unwrap();
        assert_eq!(judge_text(&text, 20_480), judge(&numbers, 20_480));
    }
}

#[test]
fn a_damaged_text_is_refused_as_by_read() {
    let mut random = Random(44);
    let mut refusals = 0;
    for _ in 0..2_000 {
        let mut text = write(&random.sheet(), 32_768).unwrap();
        let at = random.below(text.len() as u32) as usize;
        text[at] = b"0123 \nKBHR"[random.below(10) as usize];
        if let Err(refusal) = read(&text, 32_768) {
            assert_eq!(judge_text(&text, 20_480), Err(refusal));
            refusals += 1;
        }
    }
    assert!(refusals > 500);
}
