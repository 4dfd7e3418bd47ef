//! How often each outcome of each entry was compared.

use std::collections::BTreeMap;

use crate::entries::{Call, ENTRIES};

/// The least number of cases of an outcome in a run that is long enough.
const LEAST: u64 = 5;

/// What a call came to: accepted, with its ending where there is one (else 0), or refused by a number.
#[derive(Clone, Copy, PartialEq, Eq, PartialOrd, Ord)]
enum Outcome {
    Accepted(u8),
    Refused(u8),
}

/// The table's columns.
const COLUMNS: [(&str, Outcome); 17] = [
    ("accepted", Outcome::Accepted(0)),
    ("arrived", Outcome::Accepted(1)),
    ("cut off", Outcome::Accepted(2)),
    ("spent", Outcome::Accepted(3)),
    ("under way", Outcome::Accepted(4)),
    ("refused 1", Outcome::Refused(1)),
    ("2", Outcome::Refused(2)),
    ("3", Outcome::Refused(3)),
    ("4", Outcome::Refused(4)),
    ("5", Outcome::Refused(5)),
    ("6", Outcome::Refused(6)),
    ("7", Outcome::Refused(7)),
    ("8", Outcome::Refused(8)),
    ("9", Outcome::Refused(9)),
    ("10", Outcome::Refused(10)),
    ("11", Outcome::Refused(11)),
    ("12", Outcome::Refused(12)),
];

#[derive(Default)]
pub struct Table {
    counts: BTreeMap<(usize, Outcome), u64>,
}

impl Table {
    /// Counts a call as it is after its answer.
    pub fn add(&mut self, call: &Call, returned: u8) {
        let entry = call.entry();
        let outcome = match returned {
            0 if ENTRIES[entry].endings.is_empty() => Outcome::Accepted(0),
            0 => Outcome::Accepted(call.result[0] as u8),
            number => Outcome::Refused(number),
        };
        *self.counts.entry((entry, outcome)).or_insert(0) += 1;
    }

    /// Whether each outcome that an entry can have was there often enough.
    pub fn full(&self) -> bool {
        (0..ENTRIES.len()).all(|entry| outcomes(entry).iter().all(|&outcome| self.count(entry, outcome) >= LEAST))
    }

    /// A line for each entry and a column for each outcome: a stroke where the entry can't have it, a mark where it was too few.
    pub fn text(&self) -> String {
        let mut lines = vec![format!("{:9}{}", "", COLUMNS.map(|(title, _)| format!("{:>10}", title)).concat())];
        for (entry, known) in ENTRIES.iter().enumerate() {
            let counts = COLUMNS.map(|(_, outcome)| format!("{:>10}", self.shown(entry, outcome)));
            lines.push(format!("{:9}{}", known.name, counts.concat()));
        }
        lines.join("\n")
    }

    fn count(&self, entry: usize, outcome: Outcome) -> u64 {
        self.counts.get(&(entry, outcome)).copied().unwrap_or(0)
    }

    fn shown(&self, entry: usize, outcome: Outcome) -> String {
        let count = self.count(entry, outcome);
        match (outcomes(entry).contains(&outcome), count < LEAST) {
            (false, _) => "-".to_string(),
            (true, true) => format!("!{}", count),
            (true, false) => count.to_string(),
        }
    }
}

/// Every outcome that an entry can have by document 01.
fn outcomes(entry: usize) -> Vec<Outcome> {
    let entry = &ENTRIES[entry];
    let endings = if entry.endings.is_empty() { &[0][..] } else { entry.endings };
    let accepted = endings.iter().map(|&ending| Outcome::Accepted(ending));
    accepted.chain(entry.refusals.iter().map(|&number| Outcome::Refused(number))).collect()
}

#[cfg(test)]
mod tests {
    use super::*;
    use crate::cases;
    use crate::wrong::Planner;

    #[test]
    fn is_full_only_when_each_outcome_was_there() {
        let mut table = Table::default();
        let mut number = 0;
        while !table.full() {
            assert!(table.text().contains('!'));
            let mut call = cases::call(1, number);
            let returned = call.answer(&Planner::right());
            table.add(&call, returned);
            number += 1;
        }
        assert!(!table.text().contains('!'));
    }
}
