//! One case: lend guarded buffers, call ours, and hold answer and every octet against what
//! is expected. Differences are counted, the first few shown in full.

use super::face::{packed, told, Function};
use super::lent::{Input, Lent};
use super::random::Random;
use super::tally::Tally;
use second::answer::{refuse, Accepted, Outcome};
use second::profile::{label_function, DRILL, FULL};
use second::tree::LabelFunction;

const SHOWN_IN_FULL: u64 = 5;

/// An answer written down by hand, or known from how a case was made: the value and what is
/// written, or number and place.
#[derive(Clone, Debug)]
pub enum Expected {
    Accepted(u64, Vec<u8>),
    Refused(u16, u32),
}

impl Expected {
    fn outcome(&self) -> Outcome {
        match self {
            Expected::Accepted(value, written) => Ok(Accepted { value: *value, written: written.clone() }),
            Expected::Refused(number, place) => Err(refuse(*number, *place as usize, "by hand")),
        }
    }

    /// Whether an outcome is this one, whichever rule refused.
    pub fn is(&self, outcome: &Outcome) -> bool {
        let expected = self.outcome();
        packed(outcome) == packed(&expected) && written(outcome) == written(&expected)
    }
}

/// A refusal writes nothing.
fn written(outcome: &Outcome) -> &[u8] {
    outcome.as_ref().map_or(&[], |accepted| &accepted.written)
}

/// The outputs after these octets are written, which fill one after the other.
fn filled(outputs: &[Lent], mut written: &[u8]) -> Vec<Lent> {
    let fill = |output: &Lent| {
        let (here, rest) = written.split_at(written.len().min(output.inside().len()));
        written = rest;
        output.with(here)
    };
    outputs.iter().map(fill).collect()
}

/// Says of each that is not what it ought to be where it differs.
fn differences(which: &str, lent: &[Lent], expected: &[Lent]) -> Vec<String> {
    let pairs = lent.iter().zip(expected).enumerate();
    let found = pairs.filter_map(|(at, (is, ought))| Some((at + 1, is.difference(ought)?)));
    found.map(|(number, fault)| format!("{which} {number}: {fault}")).collect()
}

pub struct Comparison {
    pub random: Random,
    pub tally: Tally,
    pub cases: u64,
    pub differences: u64,
    /// The profile under which what runs now is compared.
    pub profile: u32,
    /// The length of the longest attestation that was accepted, by profile.
    pub longest_taken: [usize; 2],
}

impl Comparison {
    pub fn new(seed: u64) -> Comparison {
        let (random, tally) = (Random::new(seed), Tally::new());
        Comparison { random, tally, cases: 0, differences: 0, profile: FULL, longest_taken: [0; 2] }
    }

    /// What a label is under the present profile.
    pub fn label_function(&self) -> LabelFunction {
        label_function(self.profile).expect("a known profile")
    }

    /// Of what takes long one in so many is run. Under the drill's profile that is fewer, for
    /// all but the label is the same work again.
    pub fn stride(&self) -> usize {
        if self.profile == FULL {
            1
        } else {
            4
        }
    }

    /// Of the two profiles the one that is not the present one.
    pub fn other_profile(&self) -> u32 {
        if self.profile == FULL {
            DRILL
        } else {
            FULL
        }
    }

    pub fn other_label_function(&self) -> LabelFunction {
        label_function(self.other_profile()).expect("a known profile")
    }

    /// Ours against the reference, for a function of one input and one output.
    pub fn case(&mut self, name: &str, function: Function, input: &[u8], room: usize) {
        self.call(name, function, &[Input::whole(input)], &[room]);
    }

    /// Ours against the reference; answers the reference's value if that accepts.
    pub fn call(&mut self, name: &str, function: Function, inputs: &[Input], rooms: &[usize]) -> Option<u64> {
        let outcome = self.reference(function, inputs, rooms);
        self.ours(name, function, inputs, rooms, &outcome);
        outcome.ok().map(|accepted| accepted.value)
    }

    /// Ours against the reference's verdict.
    pub fn verify(&mut self, name: &str, x: &[u8], d: &[u8], attestation: &[u8]) {
        self.call(name, Function::Verify(self.profile), &[x, d, attestation].map(Input::whole), &[]);
    }

    /// Ours against the reference's extractor, with two buffers of 85 octets.
    pub fn extract(&mut self, name: &str, x: &[u8], d: &[u8], [first, second]: [&[u8]; 2]) {
        let inputs = [x, d, first, second].map(Input::whole);
        self.call(name, Function::Extract(self.profile), &inputs, &[85, 85]);
    }

    /// Ours and the reference against an answer written down by hand.
    pub fn example(
        &mut self,
        name: &str,
        function: Function,
        inputs: &[&[u8]],
        rooms: &[usize],
        expected: &Expected,
    ) {
        let lent: Vec<Input> = inputs.iter().map(|input| Input::whole(input)).collect();
        let outcome = self.reference(function, &lent, rooms);
        if !expected.is(&outcome) {
            let fault = format!("answers {outcome:?}, expected {expected:?}");
            self.differs(name, "the reference", inputs, &fault);
        }
        self.ours(name, function, &lent, rooms, &expected.outcome());
    }

    /// Ours against an outcome that is known without asking the reference's function.
    pub fn known(
        &mut self,
        name: &str,
        function: Function,
        inputs: &[Input],
        rooms: &[usize],
        known: &Outcome,
    ) {
        self.tally.count(function, known);
        self.ours(name, function, inputs, rooms, known);
    }

    /// The reference's outcome, counted.
    fn reference(&mut self, function: Function, inputs: &[Input], rooms: &[usize]) -> Outcome {
        let inputs: Vec<&[u8]> = inputs.iter().map(|input| input.octets).collect();
        let outcome = function.reference(&inputs, rooms);
        self.tally.count(function, &outcome);
        if let (Function::Verify(profile), Ok(_)) = (function, &outcome) {
            let longest = &mut self.longest_taken[profile as usize];
            *longest = inputs[2].len().max(*longest);
        }
        outcome
    }

    fn ours(
        &mut self,
        name: &str,
        function: Function,
        inputs: &[Input],
        rooms: &[usize],
        expected: &Outcome,
    ) {
        self.cases += 1;
        let lent: Vec<Lent> = inputs.iter().map(|input| Lent::input(&mut self.random, input)).collect();
        let lent_after = filled(&lent, &[]);
        let lent_inside: Vec<&[u8]> = lent.iter().map(Lent::inside).collect();
        let mut outputs: Vec<Lent> = rooms.iter().map(|room| Lent::output(&mut self.random, *room)).collect();
        let outputs_after = filled(&outputs, written(expected));
        let mut outputs_inside: Vec<&mut [u8]> = outputs.iter_mut().map(Lent::inside_mut).collect();
        let answer = function.ours(&lent_inside, &mut outputs_inside);
        let mut faults = Vec::new();
        if answer != packed(expected) {
            faults.push(format!("answers {}, expected {}", told(answer), told(packed(expected))));
        }
        faults.extend(differences("output", &outputs, &outputs_after));
        faults.extend(differences("input", &lent, &lent_after));
        if !faults.is_empty() {
            let call = format!("{function:?} with outputs of {rooms:?} octets");
            let inputs: Vec<&[u8]> = inputs.iter().map(|input| input.octets).collect();
            self.differs(name, &call, &inputs, &faults.join("; "));
        }
    }

    /// Counts a difference; shows the case in full if it is among the first.
    pub fn differs(&mut self, name: &str, call: &str, inputs: &[&[u8]], fault: &str) {
        self.differences += 1;
        if self.differences <= SHOWN_IN_FULL {
            println!("DIFFERENCE in '{name}': {call}: {fault}");
            for input in inputs {
                println!("  input, {} octets: {}", input.len(), hex(input));
            }
        }
    }

    pub fn fail(&mut self, fault: &str) {
        self.differences += 1;
        println!("FAILURE: {fault}");
    }

    pub fn judge_tally(&mut self) {
        for fault in self.tally.print() {
            self.fail(&fault);
        }
    }
}

pub fn hex(octets: &[u8]) -> String {
    octets.iter().map(|octet| format!("{octet:02x}")).collect()
}

/// The octets that hex digits stand for; only for data of our own.
pub fn octets_of_hex(digits: &str) -> Vec<u8> {
    let value = |digit: u8| (digit as char).to_digit(16).expect("a hex digit") as u8;
    digits.as_bytes().chunks_exact(2).map(|two| 16 * value(two[0]) + value(two[1])).collect()
}
