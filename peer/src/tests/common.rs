use crate::Verdict;

/// Lent numbers of lines written like "K 1 2; B 1 1 2; H 1 2 3; R 1 7 8".
pub fn lent(sheet: &str) -> Vec<u32> {
    let mut numbers = Vec::new();
    for line in sheet.split(';').map(str::trim).filter(|l| !l.is_empty()) {
        let (letter, rest) = line.split_at(1);
        let mut lent = vec![u32::from(letter.as_bytes()[0])];
        lent.extend(rest.split_whitespace().map(|n| n.parse::<u32>().unwrap()));
        lent.resize(8, 0);
        numbers.extend(lent);
    }
    numbers
}

/// The text of such lines, without any test of them.
pub fn text(sheet: &str) -> Vec<u8> {
    let mut text = String::new();
    for line in sheet.split(';').map(str::trim).filter(|l| !l.is_empty()) {
        let (letter, rest) = line.split_at(1);
        text.push_str(letter);
        for number in rest.split_whitespace() {
            text.push_str(&format!("{number:>9}"));
        }
        text.push('\n');
    }
    text.into_bytes()
}

pub fn judge(sheet: &str) -> Verdict {
    crate::judge(&lent(sheet), 20_480).unwrap()
}

/// Refusal number and line.
pub fn refused<T>(answer: Result<T, crate::Refusal>) -> (u32, usize) {
    match answer {
        Ok(_) => (0, 0),
        Err(refusal) => (refusal.number, refusal.line),
    }
}

/// Small random sheets.
pub struct Random(pub u64);

impl Random {
    pub fn below(&mut self, bound: u32) -> u32 {
        self.0 ^= self.0 << 13;
        self.0 ^= self.0 >> 7;
        self.0 ^= self.0 << 17;
        ((self.0 >> 32) as u32) % bound
    }

    /// A line of a random kind; its numbers are drawn one after the other.
    fn line(
        &mut self,
        letter: u8,
        widths: &[u32],
        mut draw: impl FnMut(&mut Random) -> u32,
    ) -> [u32; 8] {
        let kind = self.below(widths.len() as u32);
        let mut line = [0; 8];
        line[0] = u32::from(letter);
        line[1] = kind + 1;
        for number in &mut line[2..2 + widths[kind as usize] as usize] {
            *number = draw(self);
        }
        line
    }

    /// A B or H line after one whose largest mark is `top`.
    fn marks(&mut self, letter: u8, widths: &[u32], top: &mut u32) -> [u32; 8] {
        self.line(letter, widths, |random| {
            let mark = 1 + random.below((*top + 1).min(12));
            *top = (*top).max(mark);
            mark
        })
    }

    /// So many rows; a third of the values is 0, or none.
    fn rows(&mut self, widths: &[u32], count: u32) -> Vec<u32> {
        let least = self.below(2);
        let row = |_| self.line(b'R', widths, |random| least + random.below(3));
        (0..count).flat_map(row).collect()
    }

    pub fn sheet(&mut self) -> Vec<u32> {
        let kinds = 1 + self.below(4);
        let most = 1 + self.below(6);
        let widths: Vec<u32> = (0..kinds).map(|_| 1 + self.below(most)).collect();
        let mut numbers = Vec::new();
        for (kind, &width) in widths.iter().enumerate() {
            numbers.extend([u32::from(b'K'), kind as u32 + 1, width, 0, 0, 0, 0, 0]);
        }
        for _ in 0..self.below(7) {
            let mut top = 0;
            numbers.extend(self.marks(b'B', &widths, &mut top));
            for _ in 0..1 + self.below(3) {
                numbers.extend(self.marks(b'H', &widths, &mut top));
            }
        }
        let rows = self.below(4);
        numbers.extend(self.rows(&widths, rows));
        numbers
    }

    /// A sheet that settles: rules make fresh numbers for later kinds alone.
    pub fn layered(&mut self) -> Vec<u32> {
        let kinds = 2 + self.below(9);
        let most = 1 + self.below(6);
        let widths: Vec<u32> = (0..kinds).map(|_| 1 + self.below(most)).collect();
        let mut numbers = Vec::new();
        for (kind, &width) in widths.iter().enumerate() {
            numbers.extend([u32::from(b'K'), kind as u32 + 1, width, 0, 0, 0, 0, 0]);
        }
        for _ in 0..self.below(30) {
            let body = self.below(kinds) as usize;
            let mut top = widths[body];
            let mut line = [0, 0, 1, 2, 3, 4, 5, 6];
            line[2 + top as usize..].fill(0);
            (line[0], line[1]) = (u32::from(b'B'), body as u32 + 1);
            numbers.extend(line);
            for _ in 0..1 + self.below(4) {
                let before = top;
                let mut head = self.marks(b'H', &widths, &mut top);
                if head[1] <= line[1] {
                    top = before;
                    head = line;
                    head[0] = u32::from(b'H');
                    let fields = &mut head[2..2 + widths[body] as usize];
                    fields.fill_with(|| 1 + self.below(widths[body]));
                }
                numbers.extend(head);
            }
        }
        let rows = 1 + self.below(3);
        numbers.extend(self.rows(&widths, rows));
        numbers
    }
}
