//! How often each rule was met, by function and profile. A rule met too seldom is a failure, for
//! a comparison that never reaches a rule says nothing about it.

use super::face::{Function, NONE, PRESENT};
use super::rules::*;
use second::answer::Outcome;
use std::collections::{BTreeMap, BTreeSet};

#[derive(Default)]
struct Met {
    cases: u64,
    values: BTreeSet<u64>,
}

pub struct Tally {
    met: BTreeMap<Rule, Met>,
}

const MANY: u64 = 100;

impl Tally {
    /// Every rule that must be met, so far met zero times.
    pub fn new() -> Tally {
        let rules = rules().into_iter().chain(program_rules());
        Tally { met: rules.map(|rule| (rule, Met::default())).collect() }
    }

    pub fn count(&mut self, function: Function, outcome: &Outcome) {
        let (number, rule) = match outcome {
            Ok(accepted) => (0, accepted_as(function, accepted.value)),
            Err(refusal) => (refusal.number, refusal.rule),
        };
        self.add((function.name(), function.profile(), number, rule), outcome);
    }

    pub fn count_program(&mut self, program: &'static str, outcome: &Outcome) {
        let number = outcome.as_ref().map_or_else(|refusal| refusal.number, |_| 0);
        self.add((program, "", number, ""), outcome);
    }

    fn add(&mut self, rule: Rule, outcome: &Outcome) {
        let met = self.met.entry(rule).or_default();
        met.cases += 1;
        let place_or_value =
            outcome.as_ref().map_or_else(|refusal| u64::from(refusal.place), |accepted| accepted.value);
        met.values.insert(place_or_value);
    }

    /// The greatest value answered by an accepted call under a profile, 0 if there was none.
    pub fn greatest(&self, function: Function) -> u64 {
        let met = self.met.get(&(function.name(), function.profile(), 0, ACCEPTED));
        met.and_then(|met| met.values.last()).copied().unwrap_or(0)
    }

    /// How many calls were accepted under a profile, and how many different values they answered.
    pub fn accepted(&self, function: Function) -> (u64, usize) {
        let met = self.met.get(&(function.name(), function.profile(), 0, ACCEPTED));
        met.map_or((0, 0), |met| (met.cases, met.values.len()))
    }

    /// Prints the table; answers the rules met fewer times than asked.
    pub fn print(&self) -> Vec<String> {
        let mut faults = Vec::new();
        println!(
            "{:<15}{:<8}{:>4}  {:<40}{:>8}  places, or values if accepted",
            "function", "profile", "no.", "rule", "cases"
        );
        for ((function, profile, number, rule), Met { cases, values }) in &self.met {
            let values = spread(values);
            println!("{function:<15}{profile:<8}{number:>4}  {rule:<40}{cases:>8}  {values}");
            let asked = if PROGRAMS.contains(function) { 1 } else { MANY };
            if *cases < asked {
                faults.push(format!("{function} {profile} {number} {rule}: met {cases} times, not {asked}"));
            }
        }
        faults
    }
}

fn spread(values: &BTreeSet<u64>) -> String {
    match (values.first(), values.last()) {
        (Some(least), Some(most)) if least < most => {
            format!("{least} to {most}, {} different", values.len())
        }
        (Some(only), _) => format!("{only}"),
        _ => String::new(),
    }
}

/// A verdict is one of two, a drill finds or not; every other accepted call answers a number.
fn accepted_as(function: Function, value: u64) -> &'static str {
    match (function, value) {
        (Function::Verify(_), PRESENT) => IS_PRESENT,
        (Function::Verify(_), _) => IS_ABSENT,
        (Function::Drill(_), NONE) => NONE_FOUND,
        (Function::Drill(_), _) => FOUND,
        _ => ACCEPTED,
    }
}
