//! The proved bench beside the second implementation, through the interface that a
//! front end in C uses.
//!
//! `exports` declares the calls and makes them; `fence` and `lent` lend them octets
//! and check what they may change; `word` is what they return; `press` makes the moves of
//! run one by one, and calls on a copy. `record` reads a bench in octets as one of the second
//! implementation. `both` makes each call on both and compares; `lists` plays the second
//! implementation's random lists, foretells the moves of run and brings them to rest,
//! `damage` changes octets of benches and makes all calls on them. `reports` changes payloads
//! on the wires and asks report on both, also of wires with the packets of `forged`. `made`
//! makes benches by hand, and `group` makes a call on each of many. `speed` times both.

pub mod both;
pub mod damage;
pub mod exports;
pub mod fence;
pub mod forged;
pub mod group;
pub mod lent;
pub mod lists;
pub mod made;
pub mod press;
pub mod record;
pub mod reports;
pub mod speed;
pub mod word;

/// A program's argument as a number.
pub fn number(argument: Option<String>, otherwise: u64) -> u64 {
    match argument {
        None => otherwise,
        Some(text) => text.parse().unwrap_or_else(|_| panic!("not a number: {text}")),
    }
}
