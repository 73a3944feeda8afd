//! What was compared, by kind of row, and what is not as it should be.

use std::collections::{BTreeMap, BTreeSet};

#[derive(Default)]
struct Counts {
    by_types: usize,
    by_numbers: usize,
    passed_over: usize,
    /// The lines that differ.
    differ: Vec<usize>,
}

#[derive(Clone, Copy)]
pub enum Asked {
    Types,
    Numbers,
}

#[derive(Default)]
pub struct Tally {
    kinds: BTreeMap<String, Counts>,
    faults: Vec<String>,
}

impl Counts {
    fn compared(&self) -> usize {
        self.by_types + self.by_numbers
    }

    fn line(&self, kind: &str) -> String {
        if self.passed_over > 0 {
            return format!("{kind}: {} passed over", self.passed_over);
        }
        let by_types = self.by_types;
        format!("{}; {by_types} by the safe types", self.count(kind))
    }

    fn count(&self, kind: &str) -> String {
        let (compared, differ) = (self.compared(), self.differ.len());
        format!("{kind}: {compared} compared, {differ} differ")
    }

    fn report(&self, kind: &str) -> Vec<String> {
        let lines = self.differ.iter();
        let differ = lines.map(|line| format!("{kind}: line {line} differs"));
        differ.chain([self.count(kind)]).collect()
    }
}

impl Tally {
    pub fn count(&mut self, kind: &str, asked: Asked) {
        let counts = self.kinds.entry(kind.to_string()).or_default();
        match asked {
            Asked::Types => counts.by_types += 1,
            Asked::Numbers => counts.by_numbers += 1,
        }
    }

    pub fn differs(&mut self, kind: &str, line: usize) {
        let counts = self.kinds.entry(kind.to_string()).or_default();
        counts.differ.push(line);
    }

    pub fn pass_over(&mut self, kind: &str) {
        let counts = self.kinds.entry(kind.to_string()).or_default();
        counts.passed_over += 1;
    }

    pub fn fault(&mut self, fault: String) {
        self.faults.push(fault);
    }

    /// The counts and the lines that differ, in the words of replay's expected output. For a kind that was passed over it takes
    /// over what is expected, if that is of as many rows.
    fn report(&self, expected: &BTreeSet<String>) -> BTreeSet<String> {
        let of_kind = |(kind, counts): (&String, &Counts)| match counts.passed_over {
            0 => counts.report(kind),
            passed_over => {
                let rows = format!("{kind}: {passed_over} compared, ");
                let is_whole = expected.iter().any(|line| line.starts_with(&rows));
                let is_of_kind =
                    |line: &&String| is_whole && line.starts_with(&format!("{kind}: "));
                expected.iter().filter(is_of_kind).cloned().collect()
            }
        };
        self.kinds.iter().flat_map(of_kind).collect()
    }

    /// Adds as faults where the rows are not those that replay expects, and kinds that were not put to the safe types.
    pub fn check(&mut self, expected: &BTreeSet<String>) {
        let report = self.report(expected);
        let missing = expected.difference(&report);
        let unexpected = report.difference(expected);
        let unasked = self
            .kinds
            .iter()
            .filter(|(_, counts)| counts.by_types + counts.passed_over == 0);
        let faults: Vec<String> = missing
            .map(|line| format!("replay expects: {line}"))
            .chain(unexpected.map(|line| format!("replay does not expect: {line}")))
            .chain(unasked.map(|(kind, _)| format!("{kind}: nothing was put to the safe types")))
            .collect();
        self.faults.extend(faults);
        if self.kinds.is_empty() {
            self.fault("nothing was compared".to_string());
        }
    }

    pub fn print(&self) {
        let counts = self.kinds.iter().map(|(kind, counts)| counts.line(kind));
        counts
            .chain(self.faults.iter().cloned())
            .for_each(|line| println!("    {line}"));
    }

    /// Rows compared, by the safe types, that differ, that were passed over, and faults.
    pub fn sums(&self) -> [usize; 5] {
        let sum = |of: fn(&Counts) -> usize| self.kinds.values().map(of).sum();
        [
            sum(Counts::compared),
            sum(|counts| counts.by_types),
            sum(|counts| counts.differ.len()),
            sum(|counts| counts.passed_over),
            self.faults.len(),
        ]
    }
}
