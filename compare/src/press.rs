//! A press of run by its moves, each made through C by the call of its name, and what calls
//! through C answer on copies of a bench.

use exam_bench::bench::MOVES;
use exam_bench::call::Call;
use exam_bench::connection::CONN_IDS;
use exam_bench::state;
use exam_bench::trial::exact;

use crate::exports;
use crate::lent::BUFFER;
use crate::word;

/// The answers that silence speaks of.
const MESSAGE_IN_HAND: u8 = 7;
const NOTHING_TO_MOVE: u8 = 8;
/// The kind of air that is a message of the endpoint.
const ENDPOINT_MESSAGE: u8 = 8;

/// Where `nci_state` tells of the connections, and its octets for each: the first is whether it is
/// open at the host.
const CONNS: usize = 12;
const CONN: usize = (state::SIZE - CONNS) / CONN_IDS.len();

/// Moves until none is taken, or one hands a message out; the word that a press of run says then.
/// Octets are lent as to any call.
pub fn one_by_one(area: &mut [u8], buffer: &mut [u8]) -> u64 {
    let (mut moves, mut dropped, mut handed) = (0, 0, 0);
    while handed == 0 {
        let mut words = MOVES.iter().map(|call| exports::play(area, buffer, call, &[]));
        let Some(taken) = words.find(|word| word::answer(*word) == 0) else {
            break;
        };
        moves += 1;
        dropped |= taken & word::DROPPED;
        handed = taken & word::HANDED;
    }
    dropped | handed | moves << word::MOVES
}

/// A copy of a bench, on which calls are made through C.
pub struct BenchCopy {
    area: Vec<u8>,
    buffer: [u8; BUFFER],
}

impl BenchCopy {
    pub fn of(area: &[u8]) -> BenchCopy {
        BenchCopy { area: area.to_vec(), buffer: [0; BUFFER] }
    }

    /// The word of a call.
    pub fn play(&mut self, call: &Call) -> u64 {
        exports::play(&mut self.area, &mut self.buffer, call, exports::argument(call))
    }

    /// The answer and the moves.
    pub fn told(&mut self, call: &Call) -> (u8, usize) {
        let word = self.play(call);
        (word::answer(word), word::moves(word))
    }
}

/// What a call answers on a copy of the bench.
fn answer(area: &[u8], call: &Call) -> u8 {
    word::answer(BenchCopy::of(area).play(call))
}

/// Whether both wires and all stores are empty and nothing is owed.
pub fn is_clear(area: &[u8]) -> bool {
    let mut copy = BenchCopy::of(area);
    exact::is_clear_by(|call| copy.told(call).0)
}

/// No message is in hand anywhere: no send and no message of the endpoint is turned away for
/// one, and there is nothing to push on any connection open at the host, nor to reply.
pub fn check_silence(area: &[u8]) -> Result<(), String> {
    let mut going_on = [0; BUFFER];
    exports::state(area, &mut going_on);
    let mut wrong = Vec::new();
    for (place, conn) in CONN_IDS.into_iter().enumerate() {
        let sent = answer(area, &Call::Send { conn, message: Vec::new() });
        let pushed = answer(area, &Call::Push(conn));
        let open = going_on[CONNS + CONN * place] == 1;
        if sent == MESSAGE_IN_HAND || open && pushed != NOTHING_TO_MOVE {
            wrong.push(format!("on {conn} send answers {sent}, push {pushed}"));
        }
    }
    let (spoken, replied) = (answer(area, &Call::Air(vec![ENDPOINT_MESSAGE])), answer(area, &Call::Reply));
    if spoken == MESSAGE_IN_HAND || replied != NOTHING_TO_MOVE {
        wrong.push(format!("air 8 answers {spoken}, reply {replied}"));
    }
    if wrong.is_empty() {
        Ok(())
    } else {
        Err(format!("at rest, and {}", wrong.join("; ")))
    }
}
