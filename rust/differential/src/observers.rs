//! Counts of trials, for each observer and by the facts that hold of them, and the least that there must be.

use crate::report::list;
use std::fmt;

/// The observers: 0 to 15.
pub const OBSERVERS: usize = 16;

/// The least number of trials for each observer.
const OBSERVER_MIN: u64 = 200;

/// The words for a fact, and the least number of trials of which it holds.
pub type Least = (&'static str, u64);

/// Counts of the trials of a rule. A trial is made on one implementation.
pub struct TrialTally {
    rule: &'static str,
    facts: &'static [Least],
    trials: [u64; OBSERVERS],
    counts: Vec<u64>,
}

impl TrialTally {
    /// No trial of the rule yet, of which these facts are counted.
    pub fn new(rule: &'static str, facts: &'static [Least]) -> TrialTally {
        TrialTally { rule, facts, trials: [0; OBSERVERS], counts: vec![0; facts.len()] }
    }

    /// Counts a trial of which the facts at these places hold.
    pub fn trial(&mut self, observer: u8, facts: impl IntoIterator<Item = usize>) {
        self.trials[usize::from(observer)] += 1;
        facts.into_iter().for_each(|fact| self.counts[fact] += 1);
    }

    /// What is missing for the run to count.
    pub fn shortfalls(&self) -> Vec<String> {
        let rule = self.rule;
        let observers = (0..OBSERVERS).filter(|&observer| self.trials[observer] < OBSERVER_MIN);
        let observers =
            observers.map(|observer| format!("{rule}, observer {observer}: fewer than {OBSERVER_MIN} trials"));
        let facts = self.facts.iter().zip(&self.counts).filter(|&((_, least), count)| count < least);
        observers.chain(facts.map(|((name, least), _)| format!("{rule}, {name}: fewer than {least} trials"))).collect()
    }
}

impl fmt::Display for TrialTally {
    fn fmt(&self, f: &mut fmt::Formatter<'_>) -> fmt::Result {
        let total: u64 = self.trials.iter().sum();
        let names: Vec<&str> = self.facts.iter().map(|&(name, _)| name).collect();
        write!(f, "{}: {} in {total} trials", self.rule, list(&names, &self.counts))
    }
}
