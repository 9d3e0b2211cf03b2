//! Each refusal by two inputs or more, and the order of the tests.

use super::common::{lent, refused, text};

fn read(sheet: &str) -> (u32, usize) {
    refused(crate::read(&text(sheet), 10_000))
}

fn write(sheet: &str) -> (u32, usize) {
    refused(crate::write(&lent(sheet), 40_000))
}

fn judge(sheet: &str) -> (u32, usize) {
    refused(crate::judge(&lent(sheet), 20_480))
}

/// Read's refusal; Write and Judge give 8 at the same line.
fn check(sheet: &str, number: u32, line: usize) {
    assert_eq!(read(sheet), (number, line), "{sheet}");
    assert_eq!(write(sheet), (8, line), "{sheet}");
    assert_eq!(judge(sheet), (8, line), "{sheet}");
}

#[test]
fn refusal_1() {
    assert_eq!(refused(crate::read(&[b'\n'; 32_769], 9)), (1, 0));
    assert_eq!(refused(crate::read(&[b'\n'; 32_768], 9)), (2, 1));
    let rows = |count| format!("K 1 6; {}", "R 1 1 2 3 4 5 6;".repeat(count));
    assert_eq!(write(&rows(503)), (0, 0));
    assert_eq!(write(&rows(504)), (1, 0));
    assert_eq!(refused(crate::write(&lent(&rows(504)), 0)), (1, 0));
    assert_eq!(judge(&rows(504)), (0, 0));
}

#[test]
fn refusal_2() {
    let bad: [&[u8]; 18] = [
        b"K        1        2",
        b"\n",
        b"K\n",
        b"K        1\n",
        b"K        1        2        3\n",
        b"k        1        2\n",
        b"X        1        2\n",
        b" K       1        2\n",
        b"K        1        2 \n",
        b"K        1        2\r\n",
        b"K       1         2\n",
        b"K       01        2\n",
        b"K       00        2\n",
        b"K                 2\n",
        b"K       +1        2\n",
        b"K100000000        2\n",
        b"K      1 1        2\n",
        b"B        1        1        1        1        1        1        1        1\n",
    ];
    for text in bad {
        assert_eq!(refused(crate::read(text, 9)), (2, 1), "{text:?}");
    }
    let second = b"K        1        1\nR        1";
    assert_eq!(refused(crate::read(second, 9)), (2, 2));
    let unended = b"K        1        1\nR        1        1";
    assert_eq!(refused(crate::read(unended, 9)), (2, 2));
    let good = b"K        1        1\nR        1 99999999\nR        1        0\n";
    assert_eq!(refused(crate::read(good, 9)), (0, 0));
    assert_eq!(read("R 1"), (2, 1));
}

#[test]
fn refusal_3() {
    check("H 1 1", 3, 1);
    check("K 1 1; H 1 1", 3, 2);
    check("K 1 1; R 1 1; K 2 1", 3, 3);
    check("K 1 1; B 1 1; K 2 1", 3, 3);
    check("K 1 1; B 1 1; B 1 1", 3, 3);
    check("K 1 1; B 1 1; R 1 1", 3, 3);
    check("K 1 1; B 1 1; H 1 1; K 2 1", 3, 4);
    check("K 1 1; R 1 1; B 1 1", 3, 3);
    check("K 1 1; R 1 1; H 1 1", 3, 3);
    check("K 1 1; B 1 1", 3, 3);
    check("K 1 1; B 1 1; H 1 1; B 1 1", 3, 5);
}

#[test]
fn refusal_4() {
    check("K 0 1", 4, 1);
    check("K 65 1", 4, 1);
    check("K 99999999 1", 4, 1);
    check("K 1 0", 4, 1);
    check("K 1 7", 4, 1);
    check("K 2 1; K 2 1", 4, 2);
    check("K 2 1; K 1 1", 4, 2);
    check("R 1 1", 4, 1);
    check("B 1 1", 4, 1);
    check("K 1 1; R 0 1", 4, 2);
    check("K 1 1; R 65 1", 4, 2);
    check("K 1 1; B 1 1; H 2 1", 4, 3);
    // Too many columns or too few: lent lines show the latter as number 0.
    check("K 1 1; R 1 1 2", 4, 2);
    check("K 1 1; B 1 1 2", 4, 2);
    assert_eq!(read("K 1 2; R 1 1"), (4, 2));
    assert_eq!(write("K 1 2; R 1 1"), (0, 0));
    check("K 1 2; B 1 1", 4, 2);
}

#[test]
fn refusal_5() {
    check("K 1 1; B 1 0", 5, 2);
    check("K 1 1; B 1 2", 5, 2);
    check("K 1 2; B 1 1 3", 5, 2);
    check("K 1 1; B 1 1; H 1 3", 5, 3);
    check("K 1 1; B 1 1; H 1 2; H 1 4", 5, 4);
    check("K 1 1; B 1 1; H 1 2; B 1 2", 5, 4);
    let thirteenth = "K 1 6; B 1 1 2 3 4 5 6; H 1 7 8 9 10 11 12; H 1 1 1 1 1 1 13";
    check(thirteenth, 5, 4);
    let twelve = "K 1 6; B 1 1 2 3 4 5 6; H 1 7 8 9 10 11 12";
    assert_eq!((read(twelve), judge(twelve)), ((0, 0), (0, 0)));
}

#[test]
fn refusal_6() {
    let five = "K 1 1; B 1 1; H 1 1; H 1 1; H 1 1; H 1 1; H 1 1";
    check(five, 6, 7);
    let rules = format!("K 1 1; {}", "B 1 1; H 1 1;".repeat(257));
    check(&rules, 6, 514);
    let rows = |count| format!("K 1 1; {}", "R 1 1;".repeat(count));
    check(&rows(1_025), 6, 1_026);
    assert_eq!(read(&rows(1_024)), (0, 0));
}

#[test]
fn refusal_7() {
    let sheet = text("K 1 1; R 1 1; R 1 1");
    assert_eq!(refused(crate::read(&sheet, 3)), (0, 0));
    assert_eq!(refused(crate::read(&sheet, 2)), (7, 3));
    assert_eq!(refused(crate::read(&sheet, 0)), (7, 1));
    let open = text("K 1 1; R 1 1; R 1 1; B 1 1");
    assert_eq!(refused(crate::read(&open, 0)), (3, 4));
    let open = text("K 1 1; B 1 1");
    assert_eq!(refused(crate::read(&open, 0)), (3, 3));
}

#[test]
fn refusal_8() {
    let part = |sheet: &str, count| {
        let numbers = &lent(sheet)[..count];
        (
            refused(crate::write(numbers, 9_999)),
            refused(crate::judge(numbers, 20_480)),
        )
    };
    assert_eq!(part("K 1 1; R 1 1", 15), ((8, 2), (8, 2)));
    assert_eq!(part("K 1 1; R 1 1", 1), ((8, 1), (8, 1)));
    assert_eq!(part("K 1 1; B 1 1; H 1 1", 20), ((8, 3), (8, 3)));
    assert_eq!(part("K 1 0; B 1 1; H 1 1", 20), ((8, 1), (8, 1)));
    for bad in [
        "K 1 1 1",
        "K 1 1 0 0 0 0 5",
        "X 1 1",
        "k 1 1",
        "K 1 1; R 1 100000000",
    ] {
        let line = bad.split(';').count();
        assert_eq!((write(bad), judge(bad)), ((8, line), (8, line)), "{bad}");
    }
    assert_eq!(write("K 1 1; R 1 4294967295"), (8, 2));
    assert_eq!(write("K 1 1; R 1 1 0 0 0 0 7"), (8, 2));
    let mut numbers = lent("K 1 1");
    numbers[0] += 256;
    assert_eq!(refused(crate::write(&numbers, 99)), (8, 1));
}

#[test]
fn refusal_9() {
    let numbers = lent("K 1 1; R 1 1");
    assert_eq!(refused(crate::write(&numbers, 40)), (0, 0));
    assert_eq!(refused(crate::write(&numbers, 39)), (9, 0));
    assert_eq!(refused(crate::write(&numbers, 0)), (9, 0));
    assert_eq!(refused(crate::write(&numbers[..9], 0)), (8, 2));
    assert_eq!(refused(crate::write(&[], 0)), (0, 0));
}

#[test]
fn refusal_10() {
    assert_eq!(refused(crate::pattern(&[])), (10, 0));
    assert_eq!(refused(crate::pattern(&[1; 7])), (10, 0));
    assert_eq!(refused(crate::pattern(&[1; 6])), (0, 0));
}

#[test]
fn refusal_11() {
    // Width six has 203 patterns: three kinds of them are 609 shapes.
    let spread = "B 1 1 2 3 4 5 6;".to_string();
    let all = |from: &str| {
        // Equal fields in turn, so that every pattern is reached.
        let swap = format!("B {from} 1 2 3 4 5 6; H {from} 2 1 3 4 5 6; H {from} 2 3 4 5 6 1;");
        let join = format!("B {from} 1 2 3 4 5 6; H {from} 1 1 3 4 5 6;");
        swap + &join
    };
    let kinds = "K 1 6; K 2 6; K 3 6;";
    let next = "H 2 1 2 3 4 5 6; H 3 1 2 3 4 5 6;";
    let two = format!(
        "{kinds} {} {} R 1 1 2 3 4 5 6; R 2 1 2 3 4 5 6",
        all("1"),
        all("2")
    );
    assert_eq!(judge(&two), (0, 0));
    assert_eq!(crate::judge(&lent(&two), 20_480).unwrap().shapes, 406);
    let three = format!("{kinds} {} {spread} {next} R 1 1 2 3 4 5 6", all("1"));
    assert_eq!(judge(&three), (11, 0));
    let rows = "R 1 1 2 3 4 5 6; R 2 1 2 3 4 5 6; R 3 1 2 3 4 5 6";
    let rowed = format!("{kinds} {} {} {} {rows}", all("1"), all("2"), all("3"));
    assert_eq!(judge(&rowed), (11, 0));
}

#[test]
fn refusal_12() {
    assert_eq!(refused(crate::judge(&lent("K 1 1"), 20_479)), (12, 0));
    assert_eq!(refused(crate::judge(&lent("X 1 1"), 0)), (12, 0));
    assert_eq!(refused(crate::judge(&lent("X 1 1"), 20_480)), (8, 1));
}

#[test]
fn order_within_a_line() {
    // Out of place before an undeclared kind, that before marks, those before counts.
    assert_eq!(read("K 1 1; R 1 1; H 9 0"), (3, 3));
    assert_eq!(read("K 1 1; B 9 0"), (4, 2));
    assert_eq!(
        read("K 1 1; B 1 1; H 1 1; H 1 1; H 1 1; H 1 1; H 1 0"),
        (5, 7)
    );
    assert_eq!(
        read("K 1 1; B 1 1; H 1 1; H 1 1; H 1 1; H 1 1; H 9 1"),
        (4, 7)
    );
    // The first wrong line decides, whatever its number.
    assert_eq!(read("K 1 1; B 1 0; X 1 1"), (5, 2));
    let mut bytes = text("K 1 9");
    bytes.extend(b"K  ");
    assert_eq!(refused(crate::read(&bytes, 0)), (4, 1));
}
