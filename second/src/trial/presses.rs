//! What presses of run come to: that a press tells what its moves one by one came to, how many
//! moves all presses from a bench on may make, and that no message is in hand once one makes
//! none (document 02, item 1).

use crate::bench::{Bench, MOVES};
use crate::call::{Event, Outcome};
use crate::connection::CONN_IDS;
use crate::observer::Observer;
use crate::packet::MOST_PAYLOAD;

/// The answers that silence speaks of.
const MESSAGE_IN_HAND: u8 = 7;
pub(super) const NOTHING_TO_MOVE: u8 = 8;
/// The kind of air that is a message of the endpoint.
const ENDPOINT_MESSAGE: u8 = 8;

/// What presses are to meet: one that makes no move, one that a message ends, one that goes
/// on until none is left, one with a drop flag, and one of many moves.
const MET: [&str; 5] = ["still", "handed", "rested", "dropped", "many"];
/// Moves of one press that are many.
const MANY: usize = 100;
/// The moves by name, each of all its connections.
const NAMES: [&str; 6] = ["up", "down", "consume", "credit", "push", "reply"];

/// What a number of presses met.
#[derive(Clone, Debug, Default)]
pub struct Presses {
    /// By the places of `MET`.
    met: [u64; MET.len()],
    /// Moves made, by their places in the order.
    moves: [u64; MOVES.len()],
}

impl Presses {
    pub fn count(&mut self, press: &Outcome) {
        let handed = press.message.is_some();
        let met = [press.moves == 0, handed, press.moves > 0 && !handed, press.drop, press.moves >= MANY];
        for (count, met) in self.met.iter_mut().zip(met) {
            *count += u64::from(met);
        }
    }

    pub fn count_move(&mut self, made: &Event) {
        if let Some(place) = MOVES.iter().position(|call| *call == made.call) {
            self.moves[place] += 1;
        }
    }

    /// What no press met, as `run:name`, and moves that none made, as `move:` and the call.
    pub fn gaps(&self) -> Vec<String> {
        let unmet = MET.iter().zip(self.met).filter(|(_, presses)| *presses == 0);
        let never = MOVES.iter().zip(self.moves).filter(|(_, made)| *made == 0);
        let met = unmet.map(|(name, _)| format!("run:{name}"));
        met.chain(never.map(|(call, _)| format!("move:{call:?}"))).collect()
    }

    /// Fields `key=value`, a space before each: run-still and the others, moves, and move-up and
    /// the others by the call's name.
    pub fn fields(&self) -> String {
        let met = MET.iter().zip(self.met).map(|(name, presses)| format!(" run-{name}={presses}"));
        let mut fields = met.collect::<String>() + &format!(" moves={}", self.moves.iter().sum::<u64>());
        for name in NAMES {
            let made = MOVES.iter().zip(self.moves).filter(|(call, _)| call.name() == name);
            fields += &format!(" move-{name}={}", made.map(|(_, made)| made).sum::<u64>());
        }
        fields
    }
}

/// A press tells the number of its moves, the drop flag if one of them has it, and the message
/// of the last; of the others none hands one out. With no message there is no move left on the
/// bench after them.
pub fn check_told(press: &Outcome, moves: &[Event], after: &Bench) -> Result<(), String> {
    let told = Outcome {
        drop: moves.iter().any(|made| made.outcome.drop),
        message: moves.last().and_then(|made| made.outcome.message.clone()),
        moves: moves.len(),
        ..Outcome::default()
    };
    let early = moves.iter().rev().skip(1).any(|made| made.outcome.message.is_some());
    if *press != told || early {
        return Err(format!("run told {press:?}, where its moves came to {told:?}"));
    }
    match after.clone().make_move() {
        Some(made) if told.message.is_none() => Err(format!("run left {:?}", made.call)),
        _ => Ok(()),
    }
}

/// The most moves that all presses from this bench on make until one makes none: "6 times
/// (segments in hand at the host + down packets + stored packets) + up packets + 2 times reply
/// segments left + 2".
pub fn bound(bench: &Bench) -> usize {
    let at_host = bench.host.connections.iter().flatten();
    let of_hand = at_host.filter_map(|open| Some((open.in_hand.as_ref()?, usize::from(open.terms.payload))));
    let in_hand: usize = of_hand.map(|(message, payload)| message.segments_left(payload)).sum();
    let stored: usize = bench.controller.connections.iter().flatten().map(|open| open.stored()).sum();
    let endpoint = bench.controller.endpoint_message.as_ref();
    let replies = endpoint.map_or(0, |message| message.segments_left(MOST_PAYLOAD));
    6 * (in_hand + bench.down_wire.len() + stored) + bench.up_wire.len() + 2 * replies + 2
}

/// No message is in hand anywhere: by what calls answer, and every message that was taken has
/// been handed out.
pub fn check_silence(observer: &Observer, bench: &Bench) -> Result<(), String> {
    for conn in CONN_IDS {
        if bench.clone().send(conn, &[]).answer == MESSAGE_IN_HAND {
            return Err(format!("at rest, and send on {conn} finds a message in hand"));
        }
        let pushed = bench.clone().push(conn).answer;
        if observer.is_open_at_host(conn) && pushed != NOTHING_TO_MOVE {
            return Err(format!("at rest, and push on {conn} answers {pushed}"));
        }
    }
    let (spoken, replied) = (bench.clone().air(&[ENDPOINT_MESSAGE]).answer, bench.clone().reply().answer);
    if spoken == MESSAGE_IN_HAND || replied != NOTHING_TO_MOVE {
        return Err(format!("at rest, and air 8 answers {spoken}, reply {replied}"));
    }
    match observer.messages_outstanding() {
        0 => Ok(()),
        outstanding => Err(format!("at rest with {outstanding} messages not handed out")),
    }
}
