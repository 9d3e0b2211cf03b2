//! Forecasting: from the counts of a sheet alone, how many values, records and pairs of rule
//! and carried values no run passes. All sums are exact, in numbers of any size.

use crate::judge::deepest;
use crate::layout::{Refusal, Rule, Sheet};
use crate::mix::Mixing;
use std::collections::HashSet;

/// A figure; none where it is beyond, over 4,294,967,295.
pub type Figure = Option<u32>;

#[derive(Clone, Copy, Debug, PartialEq, Eq)]
pub struct Forecast {
    pub values: Figure,
    pub records: Figure,
    pub pairs: Figure,
}

/// Forecasts lent lines.
pub fn forecast(numbers: &[u32]) -> Result<Forecast, Refusal> {
    let sheet = Sheet::new(numbers)?;
    let deepest = deepest(&sheet)?;
    let (mut growth, mut records, mut pairs) = (Sum::default(), Sum::default(), Sum::default());
    for rule in &sheet.rules {
        let (carried, fresh) = marks(rule);
        growth.0[carried] += fresh;
        pairs.0[carried] += 1;
    }
    for &(_, width) in &sheet.kinds {
        records.0[width as usize] += 1;
    }
    let first = different_values(&sheet);
    growth.0[0] += first;
    let mut big = Big::default();
    let mut values = Some(first);
    for _ in 0..deepest {
        values = growth.at(values, &mut big);
        // A later t is never smaller.
        if values.is_none() {
            break;
        }
    }
    Ok(Forecast {
        values,
        records: records.at(values, &mut big),
        pairs: pairs.at(values, &mut big),
    })
}

/// How many different marks a rule carries, and how many are fresh.
fn marks(rule: &Rule) -> (usize, u32) {
    let set = |marks: &[u8]| marks.iter().fold(0u16, |set, mark| set | 1 << mark);
    let body = set(rule.body.marks());
    let made = rule.heads().iter().map(|head| set(head.marks()));
    let made = made.fold(0, |all, set| all | set);
    (
        (body & made).count_ones() as usize,
        (made & !body).count_ones(),
    )
}

/// The first t: how many different values the rows have; each 0 is one.
fn different_values(sheet: &Sheet) -> u32 {
    let fields: usize = sheet.rows.iter().map(|row| row.width as usize).sum();
    let room = fields - sheet.zeros as usize;
    let mut values: HashSet<u32, Mixing> =
        HashSet::with_capacity_and_hasher(room, Mixing::default());
    values.extend(sheet.given());
    values.len() as u32 + sheet.zeros
}

/// A sum of powers of t: how often it has each power, from 0 to 6.
#[derive(Default)]
struct Sum([u32; 7]);

impl Sum {
    /// The sum at t, by Horner's rule; the power 0 is 1, that of 0 too.
    ///
    /// A t over the limit is not kept, since after some generations it would have more digits
    /// than any memory holds. Each power of it from 1 on is at least t, so a sum that has one
    /// is over the limit, and any other is the count of its powers 0. The next t is then over
    /// the limit as well, for a t grows so far only by rules that carry something: the first
    /// one and the fresh marks of 256 rules that carry nothing are less than 10,000.
    fn at(&self, t: Figure, sum: &mut Big) -> Figure {
        let Some(t) = t else {
            let constant = self.0[1..].iter().all(|&times| times == 0);
            return constant.then_some(self.0[0]);
        };
        sum.clear();
        for &times in self.0.iter().rev() {
            sum.multiply(t);
            sum.add(times);
        }
        sum.figure()
    }
}

/// A whole number of any size: limbs of 32 bits, the lowest first, the last one not 0.
#[derive(Default)]
pub(crate) struct Big(Vec<u32>);

impl Big {
    /// Makes it 0.
    pub(crate) fn clear(&mut self) {
        self.0.clear();
    }

    pub(crate) fn add(&mut self, number: u32) {
        let mut carry = number;
        for limb in &mut self.0 {
            if carry == 0 {
                return;
            }
            let (sum, over) = limb.overflowing_add(carry);
            *limb = sum;
            carry = u32::from(over);
        }
        if carry > 0 {
            self.0.push(carry);
        }
    }

    pub(crate) fn multiply(&mut self, by: u32) {
        if by == 0 {
            return self.clear();
        }
        let mut carry = 0;
        for limb in &mut self.0 {
            let product = u64::from(*limb) * u64::from(by) + carry;
            *limb = product as u32;
            carry = product >> 32;
        }
        if carry > 0 {
            self.0.push(carry as u32);
        }
    }

    /// The number itself, or none where it is over 4,294,967,295, the largest of one limb.
    pub(crate) fn figure(&self) -> Figure {
        match self.0[..] {
            [] => Some(0),
            [limb] => Some(limb),
            _ => None,
        }
    }

    #[cfg(test)]
    pub(crate) fn limbs(&self) -> &[u32] {
        &self.0
    }
}
