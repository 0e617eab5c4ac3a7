//! The second implementation's random lists of calls, played on both benches. Demand 3's observer
//! sees what came of them, and foretells how many moves presses of run make.

use exam_bench::call::{Call, Event, Outcome};
use exam_bench::observer::Observer;
use exam_bench::player::{Goal, Lengths, Player, Random};
use exam_bench::sheet;
use exam_bench::trial::presses;

use crate::both::Both;
use crate::press::{self, BenchCopy};
use crate::record::AREA;

/// Most calls of a list.
const LIST_CALLS: usize = 400;
/// Every so many lists one is led to the next of these goals.
const LED: u64 = 8;
const GOALS: [Goal; 4] = [Goal::FullStore, Goal::FullUpWire, Goal::FullDownWire, Goal::ArgumentsOutside];
/// Every so many calls all packets of both wires are read.
const WIRES: usize = 8;

/// Deals the lists and makes their calls on both benches.
pub struct Lists {
    pub both: Both,
    player: Player,
    random: Random,
    /// None where the bench is not one of a list from fresh.
    observer: Option<Observer>,
    /// The calls of this list so far, as lines of a sheet.
    pub lines: Vec<String>,
}

impl Lists {
    pub fn new(seed: u64) -> Lists {
        Lists {
            both: Both::default(),
            player: Player::new(seed, Lengths::Any),
            random: Random::new(seed ^ 0xC0FF_EE00),
            observer: None,
            lines: Vec::new(),
        }
    }

    /// Plays one list of at most so many calls. None from fresh brings credits past a grant,
    /// or puts a packet with reserved bits at 1.
    pub fn play(&mut self, most: usize) -> Result<(), String> {
        let most = most.clamp(1, LIST_CALLS);
        let place = self.both.tally.lists;
        let (length, profile) = if place.is_multiple_of(LED) {
            (most, self.player.begin_towards(GOALS[(place / LED) as usize % GOALS.len()]))
        } else {
            (self.player.list_length(most), self.player.begin())
        };
        self.begin(&profile)?;
        for _ in 1..length {
            self.next_call()?;
        }
        if self.both.past_grant.calls.iter().any(|calls| *calls > 0) {
            return Err("a list from fresh brought credits past a grant".to_string());
        }
        if self.both.reserved.packets.iter().flatten().any(|packets| *packets > 0) {
            return Err("a list from fresh had reserved bits at 1".to_string());
        }
        Ok(())
    }

    /// Begins a list with fresh.
    pub fn begin(&mut self, profile: &[u8]) -> Result<(), String> {
        let fresh = Call::Fresh(profile.to_vec());
        self.lines = vec![sheet::write_call(&fresh)];
        self.both.begin(profile)?;
        self.observer = Some(Observer::new());
        self.watch(&fresh)?;
        self.foretell(&fresh)
    }

    /// Brings the list that was played to rest: presses until one makes no move, with no more moves
    /// in all than the bench before them allows. Then no message is in hand anywhere and nothing is
    /// under way, and every message that was taken has been handed out.
    pub fn rest(&mut self) -> Result<(), String> {
        let bound = presses::bound(self.both.second.as_ref().ok_or("a damaged record")?);
        let (mut moves, mut made) = (0, 1);
        while made > 0 {
            self.step(&Call::Run)?;
            made = self.both.outcome.as_ref().map_or(0, |press| press.moves);
            moves += made;
            if moves > bound {
                return Err(format!("{moves} moves of all presses, where {bound} are the most"));
            }
        }
        press::check_silence(self.both.lent.octets())?;
        if !press::is_clear(self.both.lent.octets()) {
            return Err("at rest, and something is under way".to_string());
        }
        self.both.tally.rests += 1;
        match self.observer.as_ref().map_or(0, Observer::messages_outstanding) {
            0 => Ok(()),
            outstanding => Err(format!("at rest with {outstanding} messages not handed out")),
        }
    }

    /// The next call of the list. A bench that is damaged has none.
    pub fn next_call(&mut self) -> Result<(), String> {
        let Some(bench) = &self.both.second else {
            return Ok(());
        };
        let call = self.player.next_call(bench);
        self.step(&call)
    }

    /// One call, with too few octets first at times.
    pub fn step(&mut self, call: &Call) -> Result<(), String> {
        self.lines.push(sheet::write_call(call));
        self.both.vary(&mut self.random);
        self.both.shorten(call, &mut self.random)?;
        self.both.step(call)?;
        if self.random.below(WIRES) == 0 {
            self.both.wires()?;
        }
        self.watch(call)?;
        self.foretell(call)
    }

    /// The observer sees the call that was made, or the moves that it stands for; read it does not
    /// see.
    fn watch(&mut self, call: &Call) -> Result<(), String> {
        let (Some(observer), false) = (&mut self.observer, call.is_read()) else {
            return Ok(());
        };
        if *call == Call::Run {
            return self.both.moves.iter().try_for_each(|made| observer.see(made));
        }
        let outcome: Outcome = self.both.outcome.clone().ok_or("a damaged record")?;
        observer.see(&Event { call: call.clone(), outcome })
    }

    /// After a call that may have changed it, where nothing is under way on the bench: presses
    /// through C on a copy make the moves that the observer foretells. Calls through C say whether
    /// something is.
    fn foretell(&mut self, call: &Call) -> Result<(), String> {
        let taken = self.both.outcome.as_ref().is_some_and(Outcome::taken);
        match &self.observer {
            Some(observer) if taken && !call.only_looks() => {
                let mut copy = BenchCopy::of(&self.both.lent.octets()[..AREA]);
                self.both.tally.exact.ask(observer, |call| copy.told(call))
            }
            _ => Ok(()),
        }
    }
}
