//! Counting comparisons; the first difference is kept as a case that can be repeated.

use std::collections::BTreeMap;
use std::fmt::Debug;

#[derive(Default)]
pub struct Tally {
    pub passed: u64,
    pub failed: u64,
    pub first_difference: Option<String>,
    /// How often each call was due to answer each number: what the inputs reach.
    pub due: BTreeMap<(&'static str, u32), u64>,
    /// How often the inputs met something worth meeting.
    pub met: BTreeMap<&'static str, u64>,
    /// The largest of each kind of thing that the inputs brought.
    pub largest: BTreeMap<&'static str, u64>,
    /// The input at hand, for the report: its name or its seed, and what it is where details are wanted.
    pub name: Option<&'static str>,
    pub seed: u64,
    pub input: String,
    pub detailed: bool,
}

impl Tally {
    pub fn begin(&mut self, seed: u64) {
        self.seed = seed;
        self.input.clear();
    }

    /// Says what the input at hand is, should a difference have to be reported. Long texts are made only for that.
    pub fn note(&mut self, text: impl FnOnce() -> String) {
        if self.detailed {
            self.input = text();
        }
    }

    pub fn meet(&mut self, what: &'static str, met: bool) {
        *self.met.entry(what).or_default() += u64::from(met);
    }

    pub fn large(&mut self, what: &'static str, size: u64) {
        let largest = self.largest.entry(what).or_default();
        *largest = size.max(*largest);
    }

    pub fn due(&mut self, call: &'static str, number: u32) {
        *self.due.entry((call, number)).or_default() += 1;
    }

    /// One comparison.
    pub fn same<T: PartialEq + Debug>(&mut self, what: &str, expected: T, got: T) {
        if expected == got {
            self.passed += 1;
            return;
        }
        self.failed += 1;
        if self.first_difference.is_none() {
            let Tally { seed, input, .. } = self;
            let case = self.name.map_or(format!("seed {seed}"), str::to_string);
            self.first_difference =
                Some(format!("{case}: {what}\n  expected {expected:?}\n  got      {got:?}\n  input    {input}"));
        }
    }

    pub fn holds(&mut self, what: &str, fact: bool) {
        self.same(what, true, fact);
    }

    /// One line for each call: the numbers due and how often.
    pub fn reach(&self) -> String {
        let mut lines: BTreeMap<&str, String> = BTreeMap::new();
        for ((call, number), times) in &self.due {
            *lines.entry(call).or_insert(format!("{call}:")) += &format!(" {number}:{times}");
        }
        let all = |named: &BTreeMap<&str, u64>| {
            named.iter().map(|(what, n)| format!(" {what} {n}")).collect::<Vec<_>>().join(",")
        };
        let more = [format!("met:{}", all(&self.met)), format!("largest:{}", all(&self.largest))];
        lines.into_values().chain(more).collect::<Vec<_>>().join("\n")
    }

    pub fn line(&self) -> String {
        format!("{} passed, {} failed", self.passed, self.failed)
    }
}

pub fn hex(bytes: &[u8]) -> String {
    bytes.iter().map(|byte| format!("{byte:02X}")).collect()
}
