//! What is going on, octet by octet.

mod common;
use common::*;
use exam_bench::bench::Bench;
use exam_bench::state::{self, SIZE};

/// The octets of a bench from the first on, and all after them 0.
fn check(bench: &Bench, first: &str) {
    let mut due = octets(first);
    due.resize(SIZE, 0);
    assert_eq!(state::octets(bench), due);
}

#[test]
fn the_phases_and_the_unanswered_command() {
    let mut bench = fresh(PROFILE);
    check(&bench, "");
    taken(bench.command(0, 0, &[1]));
    check(&bench, "00 00 00 00 00 01 00 00 01 01");
    taken(bench.down());
    check(&bench, "01 00 00 00 00 01 00 00 01 00 02");
    read_up(&mut bench);
    check(&bench, "01");
    command(&mut bench, 0, 1, &[0, 0]);
    check(&bench, "02");
    taken(bench.command(15, 63, &[]));
    check(&bench, "02 00 00 00 00 01 0F 3F 01 01");
}

#[test]
fn connections_open_at_each_end_and_messages_in_hand() {
    let mut bench = loopbacks(PROFILE, 1);
    check(&bench, "02 00 00 00 00 00 00 00 00 00 00 00 00 00 00 01 01");
    taken(bench.send(2, &[7]));
    check(&bench, "02 00 00 00 00 00 00 00 00 00 00 00 00 00 00 01 01 01");
    taken(bench.command(0, 5, &[2]));
    taken(bench.down());
    check(&bench, "02 00 00 00 00 01 00 05 02 00 01 00 00 00 00 01 00 01");
    read_up(&mut bench);
    check(&bench, "02");
}

#[test]
fn the_rf_states() {
    let mut bench = ready(PROFILE);
    command(&mut bench, 1, 3, &[1, 0, 1]);
    check(&bench, "02 01");
    taken(bench.air(&[1, 1, 4, 0, 2]));
    check(&bench, "02 02 00 00 00 00 00 00 00 00 01");
    taken(bench.air(&[1, 2, 3, 0, 0]));
    read_up(&mut bench);
    check(&bench, "02 03");
    command(&mut bench, 1, 4, &[2, 3, 1]);
    check(&bench, "02 03 01 02 03");
    taken(bench.air(&[2, 2, 3, 1]));
    read_up(&mut bench);
    check(&bench, "02 04 02 03 01 00 00 00 00 00 00 00 01 01");
    taken(bench.air(&[8, 5]));
    check(&bench, "02 04 02 03 01 00 00 00 00 00 00 01 01 01");
    command(&mut bench, 1, 6, &[0]);
    check(&bench, "02");
    command(&mut bench, 1, 3, &[1, 0x80, 1]);
    taken(bench.air(&[3, 9, 4, 0x80]));
    read_up(&mut bench);
    check(&bench, "02 05 09 04 80 00 00 00 00 00 00 00 01 01");
    taken(bench.air(&[5]));
    read_up(&mut bench);
    check(&bench, "02 06");
}
