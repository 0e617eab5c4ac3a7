//! A random player: deals lists of calls that reach deep states. It may look at
//! the bench to choose a promising call; what is checked does not depend on it.

mod arguments;
mod configs;
mod plans;
mod reads;

use std::collections::VecDeque;

use crate::bench::Bench;
use crate::call::Call;
use crate::connection::CONN_IDS;
pub use reads::octets_to_read;

/// Of a hundred calls, how many are read.
const READS: usize = 3;
/// Of a thousand calls, how many are run. More would leave most benches at rest.
const RUNS: usize = 6;

/// A small deterministic generator (splitmix64).
#[derive(Clone, Debug)]
pub struct Random(u64);

impl Random {
    pub fn new(seed: u64) -> Random {
        Random(seed)
    }

    pub fn number(&mut self) -> u64 {
        self.0 = self.0.wrapping_add(0x9E37_79B9_7F4A_7C15);
        let mut mixed = self.0;
        mixed = (mixed ^ (mixed >> 30)).wrapping_mul(0xBF58_476D_1CE4_E5B9);
        mixed = (mixed ^ (mixed >> 27)).wrapping_mul(0x94D0_49BB_1331_11EB);
        mixed ^ (mixed >> 31)
    }

    /// A number under `limit`.
    pub fn below(&mut self, limit: usize) -> usize {
        (self.number() % limit as u64) as usize
    }

    pub fn octet(&mut self) -> u8 {
        self.number() as u8
    }

    pub fn octets(&mut self, count: usize) -> Vec<u8> {
        (0..count).map(|_| self.octet()).collect()
    }

    /// True in so many cases of a hundred.
    pub fn chance(&mut self, percent: usize) -> bool {
        self.below(100) < percent
    }

    pub fn pick<T: Copy>(&mut self, choices: &[T]) -> T {
        choices[self.below(choices.len())]
    }
}

/// How long messages may get.
#[derive(Clone, Copy, Debug, PartialEq, Eq)]
pub enum Lengths {
    /// Up to 1,100 octets, beyond the limit.
    Any,
    /// Mostly short, at most 1,026 octets: a sheet line can hold every call.
    Short,
}

#[derive(Clone, Debug)]
enum Step {
    Call(Call),
    /// Empties both wires.
    Settle,
    /// Plays moves until none is left.
    Rest,
    /// Presses run until no move is left.
    Press,
}

/// Something rare that a list can be led to.
#[derive(Clone, Copy, Debug, PartialEq, Eq)]
pub enum Goal {
    FullStore,
    FullDownWire,
    FullUpWire,
    ArgumentsOutside,
}

pub struct Player {
    random: Random,
    lengths: Lengths,
    /// Whether profiles of eleven octets are dealt beside those of five.
    long_profiles: bool,
    /// Whether read is dealt beside the twelve calls.
    reads: bool,
    /// Whether run is.
    runs: bool,
    /// Whether sets and gets are dealt beside the other commands.
    configs: bool,
    goal: Option<Goal>,
    plan: VecDeque<Step>,
    /// How often, of a hundred, the plan is followed and not a random call made.
    follow: usize,
}

impl Player {
    pub fn new(seed: u64, lengths: Lengths) -> Player {
        let random = Random::new(seed);
        let plan = VecDeque::new();
        let (long_profiles, reads, runs, configs) = (true, true, true, true);
        Player { random, lengths, long_profiles, reads, runs, configs, goal: None, plan, follow: 90 }
    }

    /// Deals profiles of five octets alone, as the first papers had.
    pub fn with_short_profiles(self) -> Player {
        Player { long_profiles: false, ..self }
    }

    /// Deals no read.
    pub fn without_reads(self) -> Player {
        Player { reads: false, ..self }
    }

    /// Deals no run.
    pub fn without_runs(self) -> Player {
        Player { runs: false, ..self }
    }

    /// Deals no sets and gets, but for those that any GID and OID may come to.
    pub fn without_configs(self) -> Player {
        Player { configs: false, ..self }
    }

    /// Begins a list: a profile for fresh and a temper for what follows.
    pub fn begin(&mut self) -> Vec<u8> {
        self.plan.clear();
        self.goal = None;
        self.follow = self.random.pick(&[100, 98, 98, 95, 95, 95, 90, 85, 60, 20]);
        self.profile()
    }

    /// Begins a list that is led to a goal: small packets without flow control.
    pub fn begin_towards(&mut self, goal: Goal) -> Vec<u8> {
        self.plan.clear();
        self.goal = Some(goal);
        self.follow = 100;
        let payload = self.random.pick(&[1, 2, 3, 4]);
        vec![32, payload, 255, payload, 255]
    }

    /// A length for the next list, biased to long ones.
    pub fn list_length(&mut self, most: usize) -> usize {
        let longer = self.random.below(most).max(self.random.below(most));
        longer + 1
    }

    pub fn next_call(&mut self, bench: &Bench) -> Call {
        if self.reads && self.random.chance(READS) {
            return Call::Read(octets_to_read(&mut self.random));
        }
        if self.runs && self.random.below(1000) < RUNS {
            return Call::Run;
        }
        if !self.random.chance(self.follow) {
            return self.random_call(bench);
        }
        for _ in 0..4 {
            if self.plan.is_empty() {
                self.choose_plan(bench);
            }
            if let Some(call) = self.next_planned(bench) {
                return call;
            }
        }
        self.random_call(bench)
    }

    /// A report of a connection that is open, if there is one.
    pub fn report(&mut self, bench: &Bench) -> Call {
        Call::Report(self.open_conn(bench))
    }

    fn next_planned(&mut self, bench: &Bench) -> Option<Call> {
        while let Some(step) = self.plan.pop_front() {
            let call = match &step {
                Step::Call(call) => return Some(call.clone()),
                Step::Settle => settling_call(bench),
                Step::Rest => resting_call(bench),
                Step::Press => resting_call(bench).map(|_| Call::Run),
            };
            if call.is_some() {
                self.plan.push_front(step);
                return call;
            }
        }
        None
    }
}

/// The first of these calls that the bench would take.
fn first_taken(bench: &Bench, calls: impl IntoIterator<Item = Call>) -> Option<Call> {
    calls.into_iter().find(|call| bench.clone().play(call).taken())
}

/// A call that brings the wires nearer to being empty.
fn settling_call(bench: &Bench) -> Option<Call> {
    if bench.down_wire().is_empty() && bench.up_wire().is_empty() {
        return None;
    }
    first_taken(bench, [Call::Up, Call::Down].into_iter().chain(CONN_IDS.map(Call::Consume)))
}

/// The next move of run.
fn resting_call(bench: &Bench) -> Option<Call> {
    bench.clone().make_move().map(|made| made.call)
}
