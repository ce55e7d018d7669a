//! Items of a file are written into a draft one by one, and what is not carried
//! exactly is noted.

use super::draft::{Draft, Weight, Wish};
use super::names;
use super::remark::{Fate, Remark};
use crate::school::School;

/// A school as an instance, with what was lost on the way.
pub struct Imported {
    pub school: School,
    /// How many items are carried exactly.
    pub carried: usize,
    /// By line.
    pub remarks: Vec<Remark>,
    /// What the soft weights were divided by.
    pub divisor: u32,
}

impl Imported {
    pub fn count(&self, fate: Fate) -> usize {
        self.remarks
            .iter()
            .filter(|remark| remark.fate == fate)
            .count()
    }
}

/// An item with its counterpart.
pub struct Carried {
    pub line: usize,
    pub item: String,
    pub weight: Weight,
    pub wishes: Vec<Wish>,
    /// Hard wishes that are kept if the limits leave room for them, once all items stand.
    pub extras: Vec<Wish>,
    /// What of the item is not carried.
    pub weaker: Option<String>,
}

pub struct Writer {
    pub draft: Draft,
    carried: usize,
    remarks: Vec<Remark>,
    /// Items whose extras wait, with their lines.
    waiting: Vec<(usize, String, Vec<Wish>)>,
}

impl Writer {
    pub fn over(draft: Draft) -> Writer {
        Writer {
            draft,
            carried: 0,
            remarks: Vec::new(),
            waiting: Vec::new(),
        }
    }

    /// Notes an item that has no counterpart.
    pub fn drop(&mut self, line: usize, item: String, reason: String) {
        self.remarks.push(Remark {
            line,
            item,
            fate: Fate::Dropped,
            reason,
        });
    }

    /// Writes an item's counterpart, or notes that a limit is in the way.
    pub fn carry(&mut self, carried: Carried) {
        let Carried {
            line,
            item,
            weight,
            wishes,
            extras,
            weaker,
        } = carried;
        if let Err(reason) = self.draft.add(weight, &wishes) {
            return self.drop(line, item, reason);
        }
        match weaker {
            Some(reason) => self.weaken(line, item, reason),
            None if extras.is_empty() => self.carried += 1,
            None => self.waiting.push((line, item, extras)),
        }
    }

    fn weaken(&mut self, line: usize, item: String, reason: String) {
        self.remarks.push(Remark {
            line,
            item,
            fate: Fate::Weakened,
            reason,
        });
    }

    pub fn finish(mut self) -> Imported {
        for (line, item, extras) in std::mem::take(&mut self.waiting) {
            match self.draft.add(Weight::Hard, &extras) {
                Ok(()) => self.carried += 1,
                Err(reason) => self.weaken(line, item, format!("in part: {reason}")),
            }
        }
        self.remarks.sort_by_key(|remark| remark.line);
        let divisor = self.draft.reduce_weights();
        let (instance, named) = (self.draft.instance, self.draft.names);
        Imported {
            school: names::settled(instance, named),
            carried: self.carried,
            remarks: self.remarks,
            divisor,
        }
    }
}
