//! The moves of run, to the move: from a bench that is clear, with both wires and all stores empty
//! and nothing owed, how many moves all presses make until one makes none (document 02, item 10).
//!
//! Nothing of it is read off the bench: that it is clear is asked by calls, and the segments in
//! hand are those of the observer, who has seen the calls alone. So the same is asked of any
//! bench that calls can be made on.

use super::presses::NOTHING_TO_MOVE;
use crate::bench::Bench;
use crate::call::Call;
use crate::connection::{CONN_IDS, FIRST_DYNAMIC, LAST_DYNAMIC, STATIC_RF};
use crate::observer::Observer;

/// The other answers that are asked for.
const TAKEN: u8 = 0;
const TOO_FEW_SLOTS: u8 = 4;
const NOT_OPEN: u8 = 6;

/// Segments in hand by kind: of the host on a loopback, on connection 0 with flow control and
/// without; of the endpoint.
pub const KINDS: [&str; 4] = ["loopback", "flow-control", "no-flow-control", "reply"];
/// The moves of a segment of each kind. On a loopback push, down, consume and up; on 0 push, down
/// and consume, and with flow control credit and up; reply and up.
const MOVES_EACH: [usize; KINDS.len()] = [4, 5, 3, 2];

/// Whether a bench is clear, by what calls answer. A refusal changes nothing, so all may be made
/// on one copy: after a call that is taken no other is asked.
pub fn is_clear_by(mut answer: impl FnMut(&Call) -> u8) -> bool {
    let moves = [Call::Down, Call::Up, Call::Credit];
    moves.iter().all(|call| answer(call) == NOTHING_TO_MOVE)
        && CONN_IDS.iter().all(|conn| [NOT_OPEN, NOTHING_TO_MOVE].contains(&answer(&Call::Consume(*conn))))
}

pub fn is_clear(bench: &Bench) -> bool {
    let mut copy = bench.clone();
    is_clear_by(|call| copy.play(call).answer)
}

/// The segments in hand, by kind.
pub fn segments(observer: &Observer) -> [usize; KINDS.len()] {
    let loopbacks = (FIRST_DYNAMIC..=LAST_DYNAMIC).map(|conn| observer.segments_in_hand(conn)).sum();
    let on_0 = observer.segments_in_hand(STATIC_RF);
    let (with, without) = if observer.has_flow_control(STATIC_RF) { (on_0, 0) } else { (0, on_0) };
    [loopbacks, with, without, observer.reply_segments()]
}

/// The moves that all presses make on a clear bench, of which the observer has seen all calls.
pub fn exactly(observer: &Observer) -> usize {
    segments(observer).iter().zip(MOVES_EACH).map(|(segments, moves)| segments * moves).sum()
}

/// Presses until one makes no move make just so many. No more of them are needed than there are
/// moves: what is left after so many is one that makes none.
pub fn check_presses(foretold: usize, mut press: impl FnMut() -> usize) -> Result<(), String> {
    let mut made = 0;
    for _ in 0..=foretold {
        match press() {
            0 => break,
            moves => made += moves,
        }
    }
    if made == foretold {
        Ok(())
    } else {
        Err(format!("presses of run on a clear bench made {made} moves, where {foretold} were foretold"))
    }
}

/// Reply finds nothing to move exactly where the account has no segment left, if the up wire has
/// a slot for one.
pub fn check_reply(observer: &Observer, bench: &Bench) -> Result<(), String> {
    let (left, answer) = (observer.reply_segments(), bench.clone().reply().answer);
    let due = if left > 0 { TAKEN } else { NOTHING_TO_MOVE };
    if answer == due || answer == TOO_FEW_SLOTS {
        Ok(())
    } else {
        Err(format!("reply answers {answer} with {left} segments left"))
    }
}

/// What was asked of a number of benches.
#[derive(Clone, Debug, Default, PartialEq, Eq)]
pub struct Exact {
    /// Benches that were asked whether they are clear, those that were, and of these the ones with
    /// nothing in hand, and with more kinds than one.
    asked: u64,
    clear: u64,
    still: u64,
    together: u64,
    /// Clear benches with a segment of each kind, and all these segments.
    met: [u64; KINDS.len()],
    segments: [u64; KINDS.len()],
}

impl Exact {
    /// Asks it of a bench after a call. `play` makes a call on a copy of the bench, always the same
    /// one, and gives the answer and the moves.
    pub fn ask(
        &mut self,
        observer: &Observer,
        mut play: impl FnMut(&Call) -> (u8, usize),
    ) -> Result<(), String> {
        self.asked += 1;
        if !is_clear_by(|call| play(call).0) {
            return Ok(());
        }
        self.count(segments(observer));
        check_presses(exactly(observer), || play(&Call::Run).1)
    }

    fn count(&mut self, segments: [usize; KINDS.len()]) {
        let kinds = segments.iter().filter(|segments| **segments > 0).count();
        self.clear += 1;
        self.still += u64::from(kinds == 0);
        self.together += u64::from(kinds > 1);
        for (kind, segments) in segments.into_iter().enumerate() {
            self.met[kind] += u64::from(segments > 0);
            self.segments[kind] += segments as u64;
        }
    }

    /// What no clear bench had in hand, as `exact:kind`, and `exact:together` for kinds beside each
    /// other; where any bench was asked. One that no list from fresh made is not.
    pub fn gaps(&self) -> Vec<String> {
        let counts = KINDS.into_iter().zip(self.met).chain([("together", self.together)]);
        let unmet = counts.filter(|(_, met)| *met == 0 && self.asked > 0);
        unmet.map(|(kind, _)| format!("exact:{kind}")).collect()
    }

    /// Fields `key=value`, a space before each: exact-asked, exact-clear, exact-still, exact-together,
    /// and of each kind exact- and its name, segments- and its name.
    pub fn fields(&self) -> String {
        let of = |name: &str, counts: &[u64]| {
            let fields = KINDS.iter().zip(counts).map(|(kind, count)| format!(" {name}-{kind}={count}"));
            fields.collect::<String>()
        };
        let Exact { asked, clear, still, together, .. } = self;
        let all =
            format!(" exact-asked={asked} exact-clear={clear} exact-still={still} exact-together={together}");
        all + &of("exact", &self.met) + &of("segments", &self.segments)
    }
}
