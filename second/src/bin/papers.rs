//! Writes random papers for comparison with another sheet: `papers directory [papers]
//! [lines] [seed]`. Each paper is a file of so many lines, named by its number: lists
//! of calls, reports often among them, and bad lines of every kind. Every other paper
//! ends without a line feed. What the papers cover goes to standard output.

use std::path::Path;
use std::process::ExitCode;
use std::{env, fs};

use exam_bench::bad_line::{bad_line, FAULTS};
use exam_bench::call::Call;
use exam_bench::player::{Goal, Lengths, Player, Random};
use exam_bench::sheet::{self, FIRST_PROFILE};
use exam_bench::trial::{Tally, Trial};

/// Of a hundred calls, how many have a report after them, and a bad line before them.
const REPORTS: usize = 25;
const BAD_LINES: usize = 6;
/// Of a thousand calls, how many have a line at the limit of its length before them.
const LONG_LINES: usize = 2;
const LIST_CALLS: usize = 250;
/// Every so many lists one is led to the next of these goals.
const LED: u64 = 8;
const GOALS: [Goal; 4] = [Goal::FullStore, Goal::FullUpWire, Goal::FullDownWire, Goal::ArgumentsOutside];

fn main() -> ExitCode {
    let mut arguments = env::args().skip(1);
    let directory = arguments.next().expect("the directory to write to");
    let mut number = |otherwise| match arguments.next() {
        None => otherwise,
        Some(text) => text.parse().unwrap_or_else(|_| panic!("not a number: {text}")),
    };
    let (papers, lines, seed) = (number(210), number(1000) as usize, number(1));
    let mut writer = Writer::new(seed);
    for place in 1..=papers {
        let paper = match writer.paper(lines, place % 2 == 0) {
            Ok(paper) => paper,
            Err(fault) => {
                println!("mismatch={fault:?} seed={seed} paper={place}");
                return ExitCode::FAILURE;
            }
        };
        let path = Path::new(&directory).join(format!("{place:04}"));
        fs::write(&path, paper).unwrap_or_else(|fault| panic!("{}: {fault}", path.display()));
    }
    println!("seed={seed} papers={papers} lines={lines} bad={} {}", writer.bad, writer.tally.fields());
    ExitCode::SUCCESS
}

struct Writer {
    player: Player,
    random: Random,
    tally: Tally,
    bad: usize,
    /// The lines of the paper under way.
    lines: Vec<Vec<u8>>,
}

impl Writer {
    fn new(seed: u64) -> Writer {
        Writer {
            player: Player::new(seed, Lengths::Short),
            random: Random::new(!seed),
            tally: Tally::default(),
            bad: 0,
            lines: Vec::new(),
        }
    }

    /// A paper starts with the sheet's own bench; each list after the first begins
    /// with fresh.
    fn paper(&mut self, lines: usize, line_feed: bool) -> Result<Vec<u8>, String> {
        self.lines.clear();
        self.player.begin();
        let mut trial = Trial::begin(&FIRST_PROFILE, &mut self.tally)?;
        self.list(&mut trial, lines)?;
        while self.lines.len() < lines {
            let profile = self.begin();
            trial = Trial::begin(&profile, &mut self.tally)?;
            self.lines.push(sheet::write_call(&Call::Fresh(profile)).into_bytes());
            self.list(&mut trial, lines)?;
        }
        let mut paper = self.lines.join(&b'\n');
        // without its line feed an empty last line would be none
        if line_feed || paper.ends_with(b"\n") {
            paper.push(b'\n');
        }
        Ok(paper)
    }

    fn begin(&mut self) -> Vec<u8> {
        let lists = self.tally.lists;
        if lists % LED == 0 {
            self.player.begin_towards(GOALS[(lists / LED) as usize % GOALS.len()])
        } else {
            self.player.begin()
        }
    }

    /// Plays one list, up to so many lines of the paper.
    fn list(&mut self, trial: &mut Trial, most: usize) -> Result<(), String> {
        let end = most.min(self.lines.len() + self.player.list_length(LIST_CALLS));
        while self.lines.len() < end {
            let call = self.player.next_call(&trial.bench);
            if self.random.chance(BAD_LINES) {
                self.put_bad(&call, end);
            }
            if self.random.below(1000) < LONG_LINES {
                let long = self.long_call();
                self.put(trial, long, end)?;
            }
            self.put(trial, call, end)?;
            if self.random.chance(REPORTS) {
                let report = self.player.report(&trial.bench);
                self.put(trial, report, end)?;
            }
        }
        Ok(())
    }

    /// Makes a call, where the list has room for its line. An event with octets to
    /// spare is left out: no line says it.
    fn put(&mut self, trial: &mut Trial, call: Call, end: usize) -> Result<(), String> {
        let line = sheet::write_call(&call).into_bytes();
        if self.lines.len() < end && sheet::read_line(&line).is_some() {
            self.lines.push(line);
            trial.step(call, &mut self.tally)?;
        }
        Ok(())
    }

    /// A bad line, each fault in its turn.
    fn put_bad(&mut self, call: &Call, end: usize) {
        if self.lines.len() < end {
            let fault = FAULTS[self.bad % FAULTS.len()];
            self.bad += 1;
            self.lines.push(bad_line(&mut self.random, fault, call));
        }
    }

    /// A call whose line has 2,100 characters, or as many as its name allows. It is
    /// of the right form: the call refuses it.
    fn long_call(&mut self) -> Call {
        let octets = self.random.octets(1042);
        let (kind, gid) = (self.random.pick(&[0, 1, 2, 3, 8, 9]), self.random.pick(&[0, 1]));
        match self.random.below(4) {
            0 => Call::Send { conn: self.random.pick(&[0, 2, 3]), message: [&octets[..], &[1]].concat() },
            1 => Call::Air([&[kind], &octets[..], &[1]].concat()),
            2 => Call::Read([&octets[..], &[1, 2]].concat()),
            _ => Call::Command { gid, oid: 0, payload: octets[..1040].to_vec() },
        }
    }
}
