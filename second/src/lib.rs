//! The NCI exam bench of document 01: a host and an NCI 2.0 controller joined
//! by two wires.
//!
//! This is a second implementation, written from document 01, the decisions on
//! its open points and the standard (003, NCI 2.0) alone, for comparison with the
//! proved one. It keeps packets as vectors and wires as queues; what concerns
//! octet areas (refusals 1 and 2, the record) does not arise here.
//!
//! From the bottom up: `packet` (header, segments, reassembly) and `layout` (control
//! messages) know octets; `profile` and `connection` have the terms and IDs of connections,
//! `config` the parameters and their values, `air` the argument of the call air; `controller`
//! and `host` are the two ends; `counts` has what report counts on the wires; `call` and
//! `bench` join the ends by the twelve calls, and have run, which makes some of them, and
//! read, which needs neither end; `state` says what is going on in octets, `sheet` is the text
//! front end. `observer` holds demand 3's account, that of messages in hand and that of values
//! set, which see the twelve calls and their outcomes alone, `player` deals random lists of
//! calls, `trial` plays them, checks each call and counts what was met, with `trial::grants`
//! for credits past a grant, `trial::configs` for sets and gets, `trial::presses` for run and
//! `trial::exact` for how many moves it makes, and `bad_line` makes the lines of a sheet that are
//! no calls.
//!
//! What a bench holds is public, so that a test can load one in any state.

pub mod air;
pub mod bad_line;
pub mod bench;
pub mod call;
pub mod config;
pub mod connection;
pub mod controller;
pub mod counts;
pub mod host;
pub mod layout;
pub mod observer;
pub mod packet;
pub mod player;
pub mod profile;
pub mod sheet;
pub mod state;
pub mod trial;
