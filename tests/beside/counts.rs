//! How often each number was answered, and counts that show that the lists do what they should.

use crate::arrivals::Arrivals;
use crate::calls::Call;
use crate::lists::Done;
use crate::module::Record;
use crate::rows::{self, BesideShadows, OfRecords, Rows};
use crate::second::{Answer, Test};
use crate::shadow::{Rule, Seen};
use std::collections::{BTreeMap, BTreeSet};
use std::fmt::Write;

/// What answers a number, and which ones it has to answer in a run. It never answers another.
const ASKED: [(&str, &[u8]); 8] = [
    ("fresh", &[0, 11]),
    ("send", &[0, 9, 10, 24, 26]),
    ("beacon", &[0, 9, 10, 24, 26]),
    (
        "receive",
        &[0, 1, 2, 3, 4, 5, 6, 7, 8, 10, 20, 21, 22, 23, 26, 32],
    ),
    ("clock", &[0, 10, 25, 26]),
    ("set back", &[0, 26]),
    (
        "trace",
        &[0, 1, 2, 3, 4, 5, 6, 7, 8, 20, 21, 22, 23, 26, 32],
    ),
    ("check", &[0, 1, 2, 3, 4, 5, 6, 7, 8]),
];
/// How many visits are counted apart; more are counted with the last.
const VISITS: usize = 4;
/// With so many calls of lists, each count that has to come up has to have done so.
const MANY_CALLS: u64 = 100_000;

#[derive(Default)]
pub struct Counts {
    /// For each that is asked, how often each number was answered.
    answered: [BTreeMap<u8, u64>; ASKED.len()],
    /// Log records that the calls wrote.
    records: u64,
    /// Messages that were taken and not handed by the same call.
    waited: u64,
    /// Calls that handed two messages or more.
    several: u64,
    most_handed: usize,
    most_waiting: usize,
    /// How many traces did not say ready, and how many did, by their visits.
    tests: [[u64; VISITS]; 2],
    most_visited: usize,
    lists: Done,
    arrivals: Arrivals,
    of_records: OfRecords,
    /// What was seen beside shadows in lists of demand 3, and in others.
    beside_shadows: [BesideShadows; 2],
    pub bundle_steps: u64,
    pub log_reads: u64,
    pub listings: u64,
}

impl Counts {
    pub fn fresh(&mut self, number: u8) {
        self.count(0, number);
    }

    pub fn check(&mut self, number: u8) {
        self.count(7, number);
    }

    /// What was done in the lists of the part that has the claims checked, and in those with
    /// arrivals.
    pub fn lists(&mut self, done: &Done, with_arrivals: &Done) {
        self.lists = *done;
        self.arrivals = with_arrivals.arrivals;
    }

    /// Counts a call that was made on a record of the module.
    pub fn call(&mut self, call: &Call, answer: Answer, before: &Record, after: &Record) {
        let asked = match call {
            Call::Send { .. } => 1,
            Call::Beacon { .. } => 2,
            Call::Receive { .. } => 3,
            Call::Clock { .. } => 4,
            Call::SetBack { .. } => 5,
            Call::Trace { .. } => 6,
        };
        self.count(asked, answer.number);
        self.of_records.add(call, answer, before, after);
        if let Some(test) = answer.test {
            return self.test(test);
        }
        self.records += answer.count as u64;
        if answer.number == 0 {
            self.waited += u64::from(asked == 3 && answer.count == 0);
            self.several += u64::from(answer.count > 1);
            self.most_handed = self.most_handed.max(answer.count);
            self.most_waiting = self.most_waiting.max(after.count);
        }
    }

    /// Counts a call beside a shadow.
    pub fn shadow(&mut self, seen: &Seen) {
        self.beside_shadows[usize::from(seen.rule == Rule::AtMost)].add(seen);
    }

    fn count(&mut self, asked: usize, number: u8) {
        *self.answered[asked].entry(number).or_default() += 1;
    }

    /// Counts the test of a trace.
    fn test(&mut self, test: Test) {
        let visits = test.visited.min(VISITS - 1);
        self.tests[usize::from(test.ready)][visits] += 1;
        self.most_visited = self.most_visited.max(test.visited);
    }

    /// All calls but traces and those of the frame check.
    pub fn calls(&self) -> u64 {
        self.answered[..6].iter().flat_map(BTreeMap::values).sum()
    }

    /// Each number that was never answered where documents 01 and 02 have it, or answered where
    /// they have none, and what else should have come up.
    pub fn wrong(&self) -> Vec<String> {
        let mut wrong = self.missing_tests();
        for (group, rows) in self.groups() {
            let never = rows.iter().filter(|(count, _, needed)| {
                *needed && *count == 0 && self.lists.calls >= MANY_CALLS
            });
            wrong.extend(never.map(|(_, words, _)| format!("none {group}: {words}")));
        }
        for ((name, numbers), answered) in ASKED.iter().zip(&self.answered) {
            let missing = numbers
                .iter()
                .filter(|number| !answered.contains_key(number));
            wrong.extend(missing.map(|number| format!("{name} never answered {number}")));
            let others = answered.keys().filter(|number| !numbers.contains(number));
            wrong.extend(others.map(|number| format!("{name} answered {number}")));
        }
        wrong
    }

    /// What no trace ever answered: ready or not, with so many visits. Not ready without a visit
    /// are bytes that read as no message.
    fn missing_tests(&self) -> Vec<String> {
        let mut missing = Vec::new();
        for (ready, counts) in [false, true].iter().zip(&self.tests) {
            let never = (0..VISITS).filter(|visits| counts[*visits] == 0);
            missing.extend(
                never.map(|visits| format!("no trace said ready {ready}, visited {visits}")),
            );
        }
        missing
    }

    /// The small table at the end of a run.
    pub fn table(&self) -> String {
        let mut text = String::from("answered");
        for (name, _) in ASKED {
            _ = write!(text, "{name:>11}");
        }
        text.push('\n');
        let numbers: BTreeSet<&u8> = self.answered.iter().flat_map(BTreeMap::keys).collect();
        for number in numbers {
            _ = write!(text, "{number:>8}");
            for answered in &self.answered {
                let count = answered.get(number).copied().unwrap_or(0);
                _ = write!(text, "{count:>11}");
            }
            text.push('\n');
        }
        for (count, words) in self.rows() {
            _ = writeln!(text, "{count:>11} {words}");
        }
        for (group, rows) in self.groups() {
            _ = writeln!(text, "{group}:");
            for (count, words, _) in rows {
                _ = writeln!(text, "{count:>11} {words}");
            }
        }
        text
    }

    /// The counts below the table.
    fn rows(&self) -> [(u64, &'static str); 16] {
        let visited = |visits: usize| self.tests[0][visits] + self.tests[1][visits];
        [
            (
                self.calls(),
                "calls of fresh, send, beacon, receive, clock and set back",
            ),
            (self.records, "log records"),
            (self.waited, "messages that waited"),
            (self.several, "calls that handed several messages"),
            (self.most_handed as u64, "most handed by one call"),
            (self.most_waiting as u64, "most waiting"),
            (self.answered[6].values().sum(), "traces"),
            (self.tests[1].iter().sum(), "traces that said ready"),
            (visited(0), "traces without a visit"),
            (visited(1), "traces with one visit"),
            (visited(2), "traces with two visits"),
            (visited(3), "traces with three visits or more"),
            (self.most_visited as u64, "most visits of one trace"),
            (self.bundle_steps, "steps of bundles"),
            (self.log_reads, "log records read"),
            (self.listings, "runs of list"),
        ]
    }

    /// The counts that have to come up, in groups.
    fn groups(&self) -> [(&'static str, Rows); 7] {
        let [lawful, forged] = &self.beside_shadows;
        [
            ("in all parts", self.of_records.rows()),
            ("in lists", rows::of_lists(&self.lists)),
            (
                "in lists, with frames of both versions",
                rows::of_versions(&self.lists),
            ),
            ("in lists of demand 3", rows::of_floors(self.lists.floors)),
            (
                "in lists of demand 3, beside shadows of the old make",
                lawful.rows(false),
            ),
            (
                "in lists with forged frames, beside shadows of the old make",
                forged.rows(true),
            ),
            (
                "in two orders, beside lists of demand 3",
                self.arrivals.rows(),
            ),
        ]
    }
}
