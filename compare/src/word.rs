//! The word that a call returns, made of an outcome of the second implementation
//! and taken apart.

use exam_bench::call::Outcome;

/// The drop flag.
pub const DROPPED: u64 = 1 << 8;
/// Whether a message was handed out, and its length.
pub const HANDED: u64 = 0xFFFF << 16 | 1 << 9;
/// Where the number of moves begins.
pub const MOVES: u32 = 32;

/// The word that says this outcome. Run puts no packets of its own, and no other call has moves:
/// these share their bits.
pub fn of(outcome: &Outcome) -> u64 {
    let (handed, length) = match &outcome.message {
        Some(message) => (1, message.len() as u64),
        None => (0, 0),
    };
    u64::from(outcome.answer)
        | u64::from(outcome.drop) << 8
        | handed << 9
        | length << 16
        | (outcome.down.len() as u64) << 32
        | (outcome.up.len() as u64) << 40
        | (outcome.moves as u64) << MOVES
        | u64::from(outcome.rfu) << 48
}

/// 0 taken, else the refusal.
pub fn answer(word: u64) -> u8 {
    word as u8
}

/// The length of the message handed out, if there is one.
pub fn handed(word: u64) -> Option<usize> {
    (word >> 9 & 1 == 1).then_some((word >> 16 & 0xFFFF) as usize)
}

/// How many moves run made.
pub fn moves(word: u64) -> usize {
    (word >> MOVES & 0xFFFF) as usize
}
