//! A trial: a list of calls played on a bench with the observer watching, and the
//! tally of what has been met. `grants` asks what no call asks: whether credits stay
//! within the grant. `configs` counts what sets and gets came to, `presses` what
//! presses of run did; `exact` foretells how many moves they make.

pub mod configs;
pub mod exact;
pub mod grants;
pub mod presses;

use crate::bench::Bench;
use crate::call::{Call, Outcome, ANSWERS, REFUSALS};
use crate::connection::{FIRST_DYNAMIC, LAST_DYNAMIC};
use crate::layout::{self, Notification, Response};
use crate::observer::{Event, Observer};
use crate::packet::{self, MessageType, Reading, MOST_CARRIED};
use crate::profile::{LONG_PROFILE, SHORT_PROFILE};
use crate::sheet;
use configs::Configs;
use exact::Exact;
use grants::{Source, Sum};
use presses::Presses;

const CALLS: usize = Call::NAMES.len();

/// The refusals that each call knows here, 1 and 2 left out (decision on
/// refusals), each list in the order in which they are judged; the calls in the
/// order of `Call::NAMES`.
pub const REFUSALS_OF: [&[u8]; CALLS] = [
    &[3],
    &[],
    &[3, 4, 5],
    &[3, 15, 6, 7],
    &[3, 4, 6, 8, 9, 10],
    &[4, 8, 12],
    &[3, 4, 6, 8],
    &[4, 8],
    &[3, 4, 7, 11, 14],
    &[4, 8],
    &[8],
    &[3, 6],
    &[3],
    &[],
];

/// Octets of a profile.
const PROFILES: [usize; 2] = [SHORT_PROFILE, LONG_PROFILE];
const LOOPBACKS: usize = (LAST_DYNAMIC - FIRST_DYNAMIC) as usize + 1;
/// What read is to meet: packets with reserved bits at 1, by what they are, and drops.
const READS: [&str; 3] = ["control", "data", "drop"];

/// What a number of lists has met.
#[derive(Clone, Debug, Default)]
pub struct Tally {
    /// Read, which is none of the calls of demand 3, is not among them.
    pub calls: u64,
    pub lists: u64,
    /// Taken, for each call.
    pub taken: [u64; CALLS],
    /// Refused, for each call and number.
    pub refused: [[u64; ANSWERS]; CALLS],
    /// What read met, by the places of `READS`.
    pub reads: [u64; READS.len()],
    /// Profiles that fresh took, by their octets.
    pub profiles: [u64; PROFILES.len()],
    /// Loopbacks that opened while another one was open with another grant, from 2 on.
    pub unlike: [u64; LOOPBACKS],
    /// What sets and gets came to.
    pub configs: Configs,
    /// What presses of run met. Their moves are among no other calls here.
    pub presses: Presses,
    /// Clear benches, on which their moves were foretold.
    pub exact: Exact,
    pub messages: u64,
    pub drops: u64,
    /// Data packets put up, by the credits that each carries.
    pub carriers: [u64; MOST_CARRIED as usize + 1],
    /// Credits in notices put up.
    pub noticed: u64,
    /// Sums of credits that came to the whole grant, by what added to them: one more
    /// would have passed it.
    pub whole: [u64; Source::NAMES.len()],
    /// Messages that a close or reset response discarded from hand at the host.
    pub discards: u64,
    /// Lists brought to rest.
    pub rests: u64,
}

impl Tally {
    pub fn count(&mut self, call: &Call, outcome: &Outcome) {
        self.calls += u64::from(!call.is_read());
        if outcome.taken() {
            self.taken[call.index()] += 1;
        } else {
            self.refused[call.index()][usize::from(outcome.answer)] += 1;
        }
        match call {
            Call::Read(octets) => return self.count_read(octets, outcome),
            Call::Run => return self.presses.count(outcome),
            Call::Fresh(profile) if outcome.taken() => self.count_profile(profile.len()),
            _ => {}
        }
        self.count_effects(call, outcome);
    }

    /// A move that a press of run made, on the bench after it.
    pub fn count_move(&mut self, made: &Event) {
        self.presses.count_move(made);
        self.count_effects(&made.call, &made.outcome);
    }

    /// What was handed out, dropped and put up.
    fn count_effects(&mut self, call: &Call, outcome: &Outcome) {
        let handed_out = outcome.message.is_some() && !matches!(call, Call::Report(_));
        self.messages += u64::from(handed_out);
        self.drops += u64::from(outcome.drop);
        outcome.up.iter().for_each(|octets| self.count_credits(octets));
    }

    fn count_read(&mut self, octets: &[u8], outcome: &Outcome) {
        let [control, data, drop] = &mut self.reads;
        if outcome.drop {
            *drop += 1;
        } else if outcome.rfu != 0 {
            *(if octets[0] < 0x20 { data } else { control }) += 1;
        }
    }

    fn count_profile(&mut self, octets: usize) {
        if let Some(form) = PROFILES.iter().position(|form| *form == octets) {
            self.profiles[form] += 1;
        }
    }

    /// What a command came to, on the bench after it: sets and gets, and openings.
    pub fn count_command(&mut self, call: &Call, outcome: &Outcome, bench: &Bench) {
        self.configs.count(call, outcome, bench);
        self.count_opening(call, outcome, bench);
    }

    /// The loopback that a command's last packet opened, if it did, on the bench after it.
    fn count_opening(&mut self, call: &Call, outcome: &Outcome, bench: &Bench) {
        let created = outcome.up.first().and_then(|octets| created(octets));
        if let (Call::Down, Some((conn, grant))) = (call, created) {
            let loopbacks = FIRST_DYNAMIC..=LAST_DYNAMIC;
            let mut open = loopbacks.filter_map(|conn| bench.controller().connection(conn));
            let unlike = open.any(|open| open.terms.credits != grant);
            self.unlike[usize::from(conn - FIRST_DYNAMIC)] += u64::from(unlike);
        }
    }

    fn count_credits(&mut self, octets: &[u8]) {
        let Reading::Packet(packet) = packet::read(octets) else {
            return;
        };
        match packet.message_type {
            MessageType::Data => self.carriers[usize::from(packet.credits)] += 1,
            MessageType::Notification => {
                let read = layout::read_notification(packet.id, packet.oid, packet.payload);
                if let Some(Notification::Credits(entries)) = read {
                    self.noticed += entries.iter().map(|entry| u64::from(entry.1)).sum::<u64>();
                }
            }
            MessageType::Command | MessageType::Response => {}
        }
    }

    /// The sums of a call that was taken.
    pub fn count_sums(&mut self, sums: &[Sum]) {
        for sum in sums.iter().filter(|sum| sum.comes_to_grant()) {
            self.whole[sum.source as usize] += 1;
        }
    }

    /// Credits that came back inside data packets.
    pub fn carried(&self) -> u64 {
        self.carriers.iter().zip(0..).map(|(packets, credits)| packets * credits).sum()
    }

    pub fn refusals(&self, number: u8) -> u64 {
        self.refused.iter().map(|of_call| of_call[usize::from(number)]).sum()
    }

    /// Refusals that never occurred.
    pub fn never(&self) -> Vec<u8> {
        REFUSALS.into_iter().filter(|number| self.refusals(*number) == 0).collect()
    }

    /// Calls never taken, and pairs of call and refusal never met, as `call` and
    /// `call:number`; then numbers of credits that no data packet carried, as
    /// `carried:number`, what never added up to a whole grant, as `whole:source`, numbers
    /// of octets that no profile had, as `profile:number`, loopbacks that never opened
    /// beside one with another grant, as `unlike:conn`, what read never met, as
    /// `reads:name`, what sets, gets and presses never came to, and segments that no clear
    /// bench had in hand.
    pub fn gaps(&self) -> Vec<String> {
        let mut gaps = Vec::new();
        for (index, name) in Call::NAMES.iter().enumerate() {
            if self.taken[index] == 0 {
                gaps.push(name.to_string());
            }
            for number in REFUSALS_OF[index] {
                if self.refused[index][usize::from(*number)] == 0 {
                    gaps.push(format!("{name}:{number}"));
                }
            }
        }
        let uncarried = self.carriers.iter().enumerate().filter(|(_, packets)| **packets == 0);
        gaps.extend(uncarried.map(|(credits, _)| format!("carried:{credits}")));
        let unmet = Source::NAMES.iter().zip(self.whole).filter(|(_, sums)| *sums == 0);
        gaps.extend(unmet.map(|(source, _)| format!("whole:{source}")));
        let unmet = PROFILES.iter().zip(self.profiles).filter(|(_, taken)| *taken == 0);
        gaps.extend(unmet.map(|(octets, _)| format!("profile:{octets}")));
        let unmet = (FIRST_DYNAMIC..).zip(self.unlike).filter(|(_, openings)| *openings == 0);
        gaps.extend(unmet.map(|(conn, _)| format!("unlike:{conn}")));
        let unmet = READS.iter().zip(self.reads).filter(|(_, reads)| *reads == 0);
        gaps.extend(unmet.map(|(name, _)| format!("reads:{name}")));
        gaps.extend(self.configs.gaps());
        gaps.extend(self.presses.gaps());
        gaps.extend(self.exact.gaps());
        gaps
    }

    /// Fields `key=value` for one line.
    pub fn fields(&self) -> String {
        let mut fields = format!("calls={} lists={}", self.calls, self.lists);
        for (index, name) in Call::NAMES.iter().enumerate() {
            fields += &format!(" {name}={}", self.taken[index]);
        }
        for number in REFUSALS {
            fields += &format!(" refusal{number}={}", self.refusals(number));
        }
        let never: Vec<String> = self.never().iter().map(u8::to_string).collect();
        fields += &format!(" messages={} drops={}", self.messages, self.drops);
        fields += &format!(" carried={} noticed={}", self.carried(), self.noticed);
        for (source, sums) in Source::NAMES.iter().zip(self.whole) {
            fields += &format!(" whole-{source}={sums}");
        }
        for (octets, taken) in PROFILES.iter().zip(self.profiles) {
            fields += &format!(" profile-{octets}={taken}");
        }
        for (conn, openings) in (FIRST_DYNAMIC..).zip(self.unlike) {
            fields += &format!(" unlike-{conn}={openings}");
        }
        for (name, reads) in READS.iter().zip(self.reads) {
            fields += &format!(" reads-{name}={reads}");
        }
        fields += &self.configs.fields();
        fields += &self.presses.fields();
        fields += &self.exact.fields();
        fields += &format!(" discards={} rests={}", self.discards, self.rests);
        fields + &format!(" never={} gaps={}", list_or_none(&never), list_or_none(&self.gaps()))
    }
}

/// Conn ID and grant of a create response.
fn created(octets: &[u8]) -> Option<(u8, u8)> {
    let Reading::Packet(packet) = packet::read(octets) else {
        return None;
    };
    match layout::read_response(packet.id, packet.oid, packet.payload) {
        Some(Response::Created { conn, terms }) => Some((conn, terms.credits)),
        _ => None,
    }
}

fn list_or_none(items: &[String]) -> String {
    if items.is_empty() {
        "none".to_string()
    } else {
        items.join(",")
    }
}

/// One list from fresh on.
pub struct Trial {
    pub bench: Bench,
    pub observer: Observer,
    pub events: Vec<Event>,
}

impl Trial {
    /// Begins with fresh, which the profile must allow.
    pub fn begin(profile: &[u8], tally: &mut Tally) -> Result<Trial, String> {
        let bench = Bench::new(profile).ok_or("profile outside its limits")?;
        let mut trial = Trial { bench, observer: Observer::new(), events: Vec::new() };
        tally.lists += 1;
        trial.step(Call::Fresh(profile.to_vec()), tally)?;
        Ok(trial)
    }

    /// Makes a call and checks all that demand 3 says of it, and that credits stay within
    /// the grant. Of read, which the observer does not see, it checks that nothing happens;
    /// run is seen by its moves. If the bench is clear then, presses of run make the moves that
    /// are foretold.
    pub fn step(&mut self, call: Call, tally: &mut Tally) -> Result<&Event, String> {
        let before = self.bench.clone();
        let outcome = self.bench.play(&call);
        tally.count(&call, &outcome);
        let event = Event { call, outcome };
        self.events.push(event.clone());
        check_refusal(&event, &before, &self.bench)?;
        match event.call {
            Call::Read(_) => check_read(&event, &before, &self.bench)?,
            Call::Run => self.press(before, &event.outcome, tally)?,
            _ => self.account(&before, &event, tally)?,
        }
        // of the bench as it was nothing is to be asked again
        if event.outcome.taken() && !event.call.only_looks() {
            self.foretell(tally)?;
        }
        Ok(&self.events[self.events.len() - 1])
    }

    /// What the observer says of an event, which led from one bench to the next.
    fn account(&mut self, before: &Bench, event: &Event, tally: &mut Tally) -> Result<(), String> {
        let sums = if event.outcome.taken() { grants::sums(before, &event.call) } else { Vec::new() };
        tally.count_sums(&sums);
        tally.count_command(&event.call, &event.outcome, &self.bench);
        grants::check_grants(&sums)?;
        let discards = self.observer.discards();
        self.observer.see(event)?;
        tally.discards += self.observer.discards() - discards;
        self.observer.sum_to_grant()?;
        check_reports(&self.observer, &self.bench)
    }

    /// A press that was made: its moves are made again, one by one, and come to what it told and
    /// to the bench that it left. Where there are none, no message is in hand and the bench is clear.
    fn press(&mut self, before: Bench, press: &Outcome, tally: &mut Tally) -> Result<(), String> {
        let bound = presses::bound(&before);
        let after = std::mem::replace(&mut self.bench, before);
        let mut moves = Vec::new();
        for _ in 0..press.moves {
            let before = self.bench.clone();
            let made = self.bench.make_move().ok_or("run told more moves than there are")?;
            tally.count_move(&made);
            self.account(&before, &made, tally)?;
            moves.push(made);
        }
        presses::check_told(press, &moves, &self.bench)?;
        if self.bench != after {
            return Err("run left another bench than its moves".to_string());
        }
        if press.moves > bound {
            return Err(format!("{} moves, where {bound} are the most", press.moves));
        }
        if press.moves == 0 {
            presses::check_silence(&self.observer, &self.bench)?;
            if !exact::is_clear(&self.bench) {
                return Err("at rest, and something is under way".to_string());
            }
        }
        Ok(())
    }

    /// Where the bench is clear, presses of run on a copy make the moves that are foretold.
    fn foretell(&self, tally: &mut Tally) -> Result<(), String> {
        exact::check_reply(&self.observer, &self.bench)?;
        let mut copy = self.bench.clone();
        tally.exact.ask(&self.observer, |call| {
            let outcome = copy.play(call);
            (outcome.answer, outcome.moves)
        })
    }

    /// Presses run until it makes no move. All presses together make no more moves than the
    /// bench before them allows.
    pub fn come_to_rest(&mut self, tally: &mut Tally) -> Result<(), String> {
        let bound = presses::bound(&self.bench);
        let mut moves = 0;
        loop {
            let made = self.step(Call::Run, tally)?.outcome.moves;
            moves += made;
            if moves > bound {
                return Err(format!("{moves} moves of all presses, where {bound} are the most"));
            }
            if made == 0 {
                tally.rests += 1;
                return Ok(());
            }
        }
    }

    /// The list so far as sheet lines, each with its answer.
    pub fn lines(&self) -> String {
        let line = |event: &Event| {
            format!(
                "{}\n{}\n",
                sheet::write_call(&event.call),
                sheet::write_outcome(&event.call, &event.outcome)
            )
        };
        self.events.iter().map(line).collect()
    }
}

/// A refused call changes nothing, and its number is one of the call's own.
fn check_refusal(event: &Event, before: &Bench, after: &Bench) -> Result<(), String> {
    let answer = event.outcome.answer;
    if answer == 0 {
        return Ok(());
    }
    if !REFUSALS_OF[event.call.index()].contains(&answer) {
        return Err(format!("{} answered {answer}", event.call.name()));
    }
    if before != after {
        return Err(format!("{} refused with {answer}, yet the bench changed", event.call.name()));
    }
    Ok(())
}

/// Read leaves the bench as it was, puts nothing and hands out nothing.
fn check_read(event: &Event, before: &Bench, after: &Bench) -> Result<(), String> {
    let Outcome { answer, drop, rfu, .. } = event.outcome;
    if before == after && event.outcome == (Outcome { answer, drop, rfu, ..Outcome::default() }) {
        Ok(())
    } else {
        Err(format!("{:?} did more than read", event.call))
    }
}

/// Every report is the observer's.
pub fn check_reports(observer: &Observer, bench: &Bench) -> Result<(), String> {
    for conn in (0..=15).chain([255]) {
        let (expected, given) = (observer.expected_report(conn), bench.report(conn));
        if expected != given {
            return Err(format!("report of {conn}: {given:?} where {expected:?} was due"));
        }
    }
    Ok(())
}
