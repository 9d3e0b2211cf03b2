//! Sheets as text, as lent lines, and taken apart into rules and rows.

/// A lent line: the letter's byte, the kind, six numbers.
pub type Line = [u32; 8];

#[derive(Clone, Copy, Debug, PartialEq, Eq)]
pub struct Refusal {
    pub number: u32,
    pub line: usize,
}

pub const MOST_BYTES: usize = 32_768;
pub const MOST_NUMBER: u32 = 99_999_999;
const MOST_KIND: u32 = 64;
const MOST_WIDTH: u32 = 6;
const MOST_MARK: u32 = 12;
const MOST_RULES: usize = 256;
const MOST_HEADS: usize = 4;
const MOST_ROWS: usize = 1_024;
const COLUMN: usize = 9;

const K: u32 = b'K' as u32;
const B: u32 = b'B' as u32;
const H: u32 = b'H' as u32;
pub(crate) const R: u32 = b'R' as u32;

fn refusal(number: u32, line: usize) -> Refusal {
    Refusal { number, line }
}

/// The lines of a text; `room` is how many lines are lent.
pub fn read(text: &[u8], room: usize) -> Result<Vec<Line>, Refusal> {
    if text.len() > MOST_BYTES {
        return Err(refusal(1, 0));
    }
    let mut lines: Vec<Line> = Vec::new();
    let mut order = Order::new();
    let mut rest = text;
    while !rest.is_empty() {
        let at = lines.len() + 1;
        let end = rest.iter().position(|&byte| byte == b'\n');
        let end = end.ok_or(refusal(2, at))?;
        let (line, columns) = parse(&rest[..end]).ok_or(refusal(2, at))?;
        order.admit(&line, columns).map_err(|n| refusal(n, at))?;
        lines.push(line);
        rest = &rest[end + 1..];
    }
    if order.stage == Stage::Body {
        return Err(refusal(3, lines.len() + 1));
    }
    if lines.len() > room {
        return Err(refusal(7, room + 1));
    }
    Ok(lines)
}

/// Where a line of a text, counted from 1, begins, and where it ends after its byte 10.
/// Where there is no such line, both are where a walker stays: after the last line that
/// has a byte 10; for line 0, at the beginning.
pub fn line_span(text: &[u8], number: usize) -> (usize, usize) {
    let feeds = text.iter().enumerate().filter(|(_, &byte)| byte == b'\n');
    let (mut start, mut end) = (0, 0);
    let mut lines = 0;
    for (at, _) in feeds.take(number) {
        (start, end) = (end, at + 1);
        lines += 1;
    }
    if lines < number {
        start = end;
    }
    (start, end)
}

/// One line of text without its byte 10: the lent line and its column count.
fn parse(text: &[u8]) -> Option<(Line, usize)> {
    let (&letter, columns) = text.split_first()?;
    let count = columns.len() / COLUMN;
    let counts = match letter {
        b'K' => 2..=2,
        b'B' | b'H' | b'R' => 2..=7,
        _ => return None,
    };
    if columns.len() % COLUMN != 0 || !counts.contains(&count) {
        return None;
    }
    let mut line = [0; 8];
    line[0] = u32::from(letter);
    for (number, column) in line[1..].iter_mut().zip(columns.chunks_exact(COLUMN)) {
        *number = parse_number(column)?;
    }
    Some((line, count))
}

fn parse_number(column: &[u8]) -> Option<u32> {
    let start = column.iter().position(|&byte| byte != b' ')?;
    let digits = &column[start..];
    if start == 0 || (digits[0] == b'0' && digits.len() > 1) {
        return None;
    }
    digits.iter().try_fold(0, |number, &byte| {
        byte.is_ascii_digit()
            .then(|| number * 10 + u32::from(byte - b'0'))
    })
}

#[derive(Clone, Copy, PartialEq, Eq)]
enum Stage {
    Kinds,
    Body,
    Heads,
    Rows,
}

/// What the lines so far allow the next one to be.
struct Order {
    stage: Stage,
    widths: [u32; MOST_KIND as usize + 1],
    last_kind: u32,
    top_mark: u32,
    rules: usize,
    heads: usize,
    rows: usize,
}

impl Order {
    fn new() -> Order {
        Order {
            stage: Stage::Kinds,
            widths: [0; MOST_KIND as usize + 1],
            last_kind: 0,
            top_mark: 0,
            rules: 0,
            heads: 0,
            rows: 0,
        }
    }

    /// The width of a declared kind.
    fn width(&self, kind: u32) -> Option<usize> {
        let width = *self.widths.get(kind as usize)? as usize;
        (width > 0).then_some(width)
    }

    /// Takes the next line, or says which of refusals 3 to 6 it gets.
    fn admit(&mut self, line: &Line, columns: usize) -> Result<(), u32> {
        let next = match (line[0], self.stage) {
            (K, Stage::Kinds) => return self.declare(line[1], line[2]),
            (B, Stage::Kinds | Stage::Heads) => Stage::Body,
            (H, Stage::Body | Stage::Heads) => Stage::Heads,
            (R, Stage::Kinds | Stage::Heads | Stage::Rows) => Stage::Rows,
            _ => return Err(3),
        };
        if self.width(line[1]) != Some(columns - 1) {
            return Err(4);
        }
        if next == Stage::Body {
            self.top_mark = 0;
            self.heads = 0;
        }
        if next != Stage::Rows {
            self.admit_marks(&line[2..columns + 1])?;
        }
        let (count, most) = match next {
            Stage::Body => (&mut self.rules, MOST_RULES),
            Stage::Heads => (&mut self.heads, MOST_HEADS),
            _ => (&mut self.rows, MOST_ROWS),
        };
        if *count == most {
            return Err(6);
        }
        *count += 1;
        self.stage = next;
        Ok(())
    }

    fn declare(&mut self, kind: u32, width: u32) -> Result<(), u32> {
        let rising = self.last_kind < kind && kind <= MOST_KIND;
        if !rising || !(1..=MOST_WIDTH).contains(&width) {
            return Err(4);
        }
        self.widths[kind as usize] = width;
        self.last_kind = kind;
        Ok(())
    }

    fn admit_marks(&mut self, marks: &[u32]) -> Result<(), u32> {
        for &mark in marks {
            if mark == 0 || mark > MOST_MARK || mark > self.top_mark + 1 {
                return Err(5);
            }
            self.top_mark = self.top_mark.max(mark);
        }
        Ok(())
    }
}

/// Goes through lent lines, handing out each with its column count;
/// refusal 8 at the first wrong one.
fn examine(numbers: &[u32], mut each: impl FnMut(&Line, usize)) -> Result<(), Refusal> {
    let (lines, part) = numbers.as_chunks::<8>();
    let mut order = Order::new();
    for (index, line) in lines.iter().enumerate() {
        let columns = admit_lent(&mut order, line).ok_or(refusal(8, index + 1))?;
        each(line, columns);
    }
    if !part.is_empty() || order.stage == Stage::Body {
        return Err(refusal(8, lines.len() + 1));
    }
    Ok(())
}

fn admit_lent(order: &mut Order, line: &Line) -> Option<usize> {
    let columns = match line[0] {
        K => 2,
        B | H | R => 1 + order.width(line[1])?,
        _ => return None,
    };
    let (used, unused) = line[1..].split_at(columns);
    if used.iter().any(|&n| n > MOST_NUMBER) || unused.iter().any(|&n| n != 0) {
        return None;
    }
    order.admit(line, columns).ok()?;
    Some(columns)
}

/// The text of lent lines; `room` is how many bytes are lent.
pub fn write(numbers: &[u32], room: usize) -> Result<Vec<u8>, Refusal> {
    let mut text = Vec::with_capacity((numbers.len() * 8).min(MOST_BYTES));
    examine(numbers, |line, columns| {
        text.push(line[0] as u8);
        for &number in &line[1..columns + 1] {
            push_number(&mut text, number);
        }
        text.push(b'\n');
    })?;
    if text.len() > MOST_BYTES {
        return Err(refusal(1, 0));
    }
    if text.len() > room {
        return Err(refusal(9, 0));
    }
    Ok(text)
}

fn push_number(text: &mut Vec<u8>, number: u32) {
    let mut column = [b' '; COLUMN];
    let mut rest = number;
    for place in column.iter_mut().rev() {
        *place = b'0' + (rest % 10) as u8;
        rest /= 10;
        if rest == 0 {
            break;
        }
    }
    text.extend_from_slice(&column);
}

/// `COMPLETIONS[n][m]`: in how many ways a pattern of m different digits
/// goes on for n more fields.
const COMPLETIONS: [[u32; 7]; 7] = completions();

const fn completions() -> [[u32; 7]; 7] {
    let mut table = [[1; 7]; 7];
    let mut more = 1;
    while more < 7 {
        let mut digits = 0;
        while digits + more < 7 {
            table[more][digits] =
                digits as u32 * table[more - 1][digits] + table[more - 1][digits + 1];
            digits += 1;
        }
        more += 1;
    }
    table
}

/// The number, 1 to 278, of a record's pattern. A 0 is equal to no other field.
pub fn pattern(numbers: &[u32]) -> Result<u32, Refusal> {
    if numbers.is_empty() || numbers.len() > 6 {
        return Err(refusal(10, 0));
    }
    let shorter: u32 = (1..numbers.len()).map(|n| COMPLETIONS[n][0]).sum();
    let (digits, _) = appearance(numbers, |a, b| a == b && a != 0);
    let mut rank = 1 + shorter;
    let mut different = 0;
    for (field, &digit) in digits[..numbers.len()].iter().enumerate() {
        let more = numbers.len() - field - 1;
        rank += u32::from(digit) * COMPLETIONS[more][different];
        different = different.max(digit as usize + 1);
    }
    Ok(rank)
}

/// Numbers the values of one to six fields by first appearance, from 0; and how many differ.
pub fn first_appearance(values: &[u32]) -> ([u8; 6], u8) {
    appearance(values, |a, b| a == b)
}

/// The same, where `same` says which numbers are equal.
fn appearance(fields: &[u32], same: impl Fn(u32, u32) -> bool) -> ([u8; 6], u8) {
    let mut digits = [0; 6];
    let mut different = 0;
    for (field, &number) in fields.iter().enumerate() {
        let earlier = fields[..field].iter().position(|&n| same(n, number));
        digits[field] = earlier.map_or(different, |place| digits[place]);
        different += u8::from(earlier.is_none());
    }
    (digits, different)
}

/// A B or H line.
#[derive(Clone, Copy, Default)]
pub struct Form {
    pub kind: u8,
    pub width: u8,
    marks: [u8; 6],
}

impl Form {
    pub fn marks(&self) -> &[u8] {
        &self.marks[..self.width as usize]
    }
}

#[derive(Clone, Copy)]
pub struct Rule {
    pub body: Form,
    heads: [Form; MOST_HEADS],
    count: u8,
}

impl Rule {
    pub fn heads(&self) -> &[Form] {
        &self.heads[..self.count as usize]
    }
}

/// A kind with a value for each field; unused places hold 0.
#[derive(Clone, Copy, Debug, PartialEq, Eq, Hash)]
pub struct Record {
    pub kind: u8,
    pub width: u8,
    pub values: [u32; 6],
}

impl Record {
    pub fn values(&self) -> &[u32] {
        &self.values[..self.width as usize]
    }
}

/// A row's 0 says that no label is given, and is a value of its own: the first of a sheet, by
/// row and then by field, stands in its record as this number, the second as the next one, and
/// so on. No column holds such a number.
pub(crate) const NOT_GIVEN: u32 = MOST_NUMBER + 1;

/// A good sheet, in its order; a kind stands with its width.
#[derive(Default)]
pub struct Sheet {
    pub kinds: Vec<(u8, u8)>,
    pub rules: Vec<Rule>,
    pub rows: Vec<Record>,
    /// How many zeros the rows have.
    pub zeros: u32,
}

impl Sheet {
    pub fn new(numbers: &[u32]) -> Result<Sheet, Refusal> {
        let mut sheet = Sheet::default();
        examine(numbers, |line, columns| sheet.add(line, columns - 1))?;
        Ok(sheet)
    }

    fn add(&mut self, line: &Line, width: usize) {
        let kind = line[1] as u8;
        let width = width as u8;
        let values: [u32; 6] = line[2..].try_into().expect("six numbers");
        let form = Form {
            kind,
            width,
            marks: values.map(|mark| mark as u8),
        };
        match line[0] {
            K => self.kinds.push((kind, values[0] as u8)),
            B => self.rules.push(Rule {
                body: form,
                heads: [Form::default(); MOST_HEADS],
                count: 0,
            }),
            H => {
                let rule = self.rules.last_mut().expect("a B line before");
                rule.heads[rule.count as usize] = form;
                rule.count += 1;
            }
            R => {
                let values = self.told_apart(values, width);
                self.rows.push(Record {
                    kind,
                    width,
                    values,
                });
            }
            _ => {}
        }
    }

    /// A row's values, each 0 as a number of its own.
    fn told_apart(&mut self, mut values: [u32; 6], width: u8) -> [u32; 6] {
        for value in &mut values[..width as usize] {
            if *value == 0 {
                *value = NOT_GIVEN + self.zeros;
                self.zeros += 1;
            }
        }
        values
    }

    /// The values that rows give as a number.
    pub(crate) fn given(&self) -> impl Iterator<Item = u32> + '_ {
        let values = self.rows.iter().flat_map(|row| row.values());
        values.copied().filter(|&value| value < NOT_GIVEN)
    }
}
