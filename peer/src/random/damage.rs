//! Ways to spoil a sheet: its text by bytes, columns and lines; its lent lines
//! by numbers, letters, lines and lengths. A spoiled sheet is sometimes still good.

use super::Random;
use crate::Line;

const COLUMN: usize = 9;
const LINE: usize = 32;

/// Gives the first rule, H line or row too many, where there is one, another kind or mark.
pub fn line_too_many(random: &mut Random, lines: &mut [Line]) {
    let Some(at) = first_too_many(lines) else {
        return;
    };
    if random.chance(60) {
        lines[at][1] = random.below(67) as u32;
    }
    if random.chance(60) {
        lines[at][2] = random.pick(&[0, 1, 2, 12, 13, 14]);
    }
}

fn first_too_many(lines: &[Line]) -> Option<usize> {
    let (mut rules, mut heads, mut rows) = (0, 0, 0);
    lines.iter().position(|line| {
        match line[0] as u8 {
            b'B' => (rules, heads) = (rules + 1, 0),
            b'H' => heads += 1,
            b'R' => rows += 1,
            _ => {}
        }
        rules > 256 || heads > 4 || rows > 1_024
    })
}

/// Spoils a text once, sometimes a few times.
pub fn text(random: &mut Random, text: &mut Vec<u8>) {
    let times = random.pick(&[1, 1, 1, 2, 3]);
    for _ in 0..times {
        match random.below(16) {
            0 => change_byte(random, text),
            1 => cut_or_extend(random, text),
            2 => lengthen(random, text),
            3..=6 => change_text_lines(random, text),
            _ => change_column(random, text),
        }
    }
}

/// A byte that stands in sheets, or any other.
fn byte(random: &mut Random) -> u8 {
    match random.below(8) {
        0 => random.next_u64() as u8,
        1 => b'\n',
        2 => b' ',
        3 => b'0',
        4 => random.pick(b"KBHRkbhrSVN"),
        5 => random.pick(b"-+.,:/\t\r\0"),
        _ => b'0' + random.below(10) as u8,
    }
}

fn change_byte(random: &mut Random, text: &mut Vec<u8>) {
    let at = random.below(text.len() + 1);
    let new = byte(random);
    match random.below(4) {
        0 => text.insert(at, new),
        1 if at < text.len() => {
            text.remove(at);
        }
        2 if at < text.len() => text[at] ^= 1 << random.below(8),
        _ if at < text.len() => text[at] = new,
        _ => text.push(new),
    }
}

fn cut_or_extend(random: &mut Random, text: &mut Vec<u8>) {
    match random.below(4) {
        0 => text.truncate(text.len().saturating_sub(1)),
        1 => text.truncate(random.below(text.len() + 1)),
        2 => text.extend(b"\n"),
        _ => {
            let more = random.between(1, 30);
            let bytes: Vec<u8> = (0..more).map(|_| byte(random)).collect();
            text.extend(bytes);
        }
    }
}

/// Brings a text to about the most bytes, by lines of its own or by others.
fn lengthen(random: &mut Random, text: &mut Vec<u8>) {
    if !random.chance(10) {
        return change_byte(random, text);
    }
    let size = 32_767 + random.below(4);
    let filling: &[u8] = random.pick(&[b" " as &[u8], b"\n", b"R        1        1\n"]);
    while text.len() < size {
        text.extend_from_slice(filling);
    }
    text.truncate(size);
}

fn change_text_lines(random: &mut Random, text: &mut Vec<u8>) {
    let mut lines: Vec<Vec<u8>> = text
        .split_inclusive(|&b| b == b'\n')
        .map(<[u8]>::to_vec)
        .collect();
    if lines.is_empty() {
        return;
    }
    if random.chance(25) {
        let at = some_line(random, lines.len());
        lines[at][0] = random.pick(b"KBHRKBHRkX \n");
    } else {
        rearrange(random, &mut lines);
    }
    *text = lines.concat();
}

/// Drops, repeats, moves or swaps lines, or drops all after one.
fn rearrange<T: Clone>(random: &mut Random, lines: &mut Vec<T>) {
    if lines.is_empty() {
        return;
    }
    let (at, to) = (random.below(lines.len()), random.below(lines.len()));
    match random.below(6) {
        0 => {
            lines.remove(at);
        }
        1 => lines.insert(at, lines[at].clone()),
        2 => lines.insert(to, lines[at].clone()),
        3 => lines.swap(at, to),
        4 => lines.truncate(at + 1),
        _ => {
            let line = lines.remove(at);
            lines.insert(to, line);
        }
    }
}

/// Any line, or one near the end.
fn some_line(random: &mut Random, lines: usize) -> usize {
    if random.chance(25) {
        return lines - 1 - random.below(lines.min(8));
    }
    random.below(lines)
}

/// Changes a column of a line; sometimes another of the same line too.
fn change_column(random: &mut Random, text: &mut Vec<u8>) {
    let mut lines: Vec<Vec<u8>> = text
        .split_inclusive(|&b| b == b'\n')
        .map(<[u8]>::to_vec)
        .collect();
    if lines.is_empty() {
        return;
    }
    let at = some_line(random, lines.len());
    let line = &mut lines[at];
    for _ in 0..random.pick(&[1, 1, 2]) {
        let columns = line.len() / COLUMN;
        if columns == 0 {
            break;
        }
        let start = 1 + COLUMN * random.below(columns);
        let end = (start + COLUMN).min(line.len());
        let new = column(random, &line[start..end]);
        line.splice(start..end, new);
    }
    *text = lines.concat();
}

/// What stands in the place of a column: none, two, one out of form, or another number.
fn column(random: &mut Random, old: &[u8]) -> Vec<u8> {
    let number = damaged_number(random) % 100_000_000;
    match random.below(32) {
        0 => Vec::new(),
        1 => [old, old].concat(),
        2 => format!("{number:09}").into_bytes(),
        3 => format!(" {number:08}").into_bytes(),
        4 => format!("{number:<9}").into_bytes(),
        5 => format!("{number:8} ").into_bytes(),
        6 => format!("{:9}", 100_000_000 + random.below(900_000_000)).into_bytes(),
        7 => vec![b' '; COLUMN],
        8 => format!("{:9}", -1).into_bytes(),
        9 => format!("{:>4} {:>4}", number % 100, number % 7).into_bytes(),
        10 => format!("{number:10}").into_bytes(),
        _ => format!("{number:9}").into_bytes(),
    }
}

/// A number at or past some limit, or just another.
fn damaged_number(random: &mut Random) -> u32 {
    match random.below(10) {
        0 => random.pick(&[99_999_999, 100_000_000, 100_000_001, u32::MAX]),
        1 => random.pick(&[63, 64, 65, 66, 256, 257, 65_536, 1 << 31, 3_000_000_000]),
        2 => random.below(100_000_000) as u32,
        3 => random.between(11, 14) as u32,
        4 => random.pick(&[6, 7, 8]),
        _ => random.below(8) as u32,
    }
}

/// Spoils lent lines once, sometimes a few times.
pub fn lines(random: &mut Random, bytes: &mut Vec<u8>) {
    let times = random.pick(&[1, 1, 1, 2, 3]);
    for _ in 0..times {
        match random.below(8) {
            0 => change_length(random, bytes),
            1 => change_letter(random, bytes),
            2 | 3 => change_lent_lines(random, bytes),
            _ => change_number(random, bytes),
        }
    }
}

fn change_length(random: &mut Random, bytes: &mut Vec<u8>) {
    match random.below(3) {
        0 => bytes.truncate(bytes.len().saturating_sub(random.between(1, 40))),
        1 => {
            let part = random.between(1, 3);
            bytes.extend(random.bytes(part));
        }
        _ => bytes.extend(vec![0; random.between(1, 40)]),
    }
}

fn change_letter(random: &mut Random, bytes: &mut [u8]) {
    let at = random.below(bytes.len() / LINE) * LINE;
    if let Some(letter) = bytes.get_mut(at..at + 4) {
        let new = random.pick(b"KBHRKBHRkX\0");
        letter[0] = new;
        if random.chance(20) {
            letter[random.between(1, 3)] = 1;
        }
    }
}

fn change_lent_lines(random: &mut Random, bytes: &mut Vec<u8>) {
    let part = bytes.split_off(bytes.len() / LINE * LINE);
    let mut lines: Vec<Vec<u8>> = bytes.chunks(LINE).map(<[u8]>::to_vec).collect();
    rearrange(random, &mut lines);
    *bytes = lines.concat();
    bytes.extend(part);
}

/// Changes a number, sometimes by little; often one that is not used.
fn change_number(random: &mut Random, bytes: &mut [u8]) {
    let at = random.below(bytes.len() / 4) * 4;
    let Some(place) = bytes.get_mut(at..at + 4) else {
        return;
    };
    let old = u32::from_le_bytes([place[0], place[1], place[2], place[3]]);
    let new = match random.below(4) {
        0 => old.wrapping_add(1),
        1 => old.wrapping_sub(1),
        _ => damaged_number(random),
    };
    place.copy_from_slice(&new.to_le_bytes());
}
