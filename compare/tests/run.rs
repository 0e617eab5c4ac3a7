//! Run to rest, on both benches. Each press is also made through C move by move, by the calls of
//! their names: word, area and buffer are the same to the octet.

use compare::both::Both;
use compare::group::Group;
use compare::lent::{Lent, Room, BUFFER};
use compare::lists::Lists;
use compare::made::{controller_side, host_side, still, store, Made, ASKED, DOWN, ENDPOINT, SPOKEN, UP};
use compare::press::{check_silence, one_by_one};
use compare::record::AREA;
use compare::{exports, word};
use exam_bench::call::Call;
use exam_bench::connection::CONN_IDS;
use exam_bench::player::Random;

/// A packet that both ends drop.
const DROPPED: [u8; 3] = [0x80, 0, 0];
/// One octet in hand, of which none is gone.
const IN_HAND: [u8; 5] = [1, 0, 1, 0, 0];
/// No record has more moves.
const MOST: usize = 27_877;

/// So many of a packet in the store of the connection at a place.
fn stored(made: Made, place: usize, count: u8, packet: &[u8]) -> Made {
    let put = |made: Made, slot| made.with(store(place), &[slot, 1]).stored_first(place, packet);
    (0..8).fold(made, put).with(store(place), &[6, count])
}

/// So many of a packet on the down wire, from one of its slots on.
fn on_down_wire(made: Made, count: u8, packet: &[u8]) -> Made {
    let put = |made: Made, slot| made.with(DOWN, &[slot, 1]).down_first(packet);
    (0..16).fold(made, put).with(DOWN, &[3, count])
}

/// The same, where one of the fourteen moves is possible, by its place in the order.
fn allow(made: Made, number: usize) -> Made {
    match number {
        0 => made.with(UP, &[9, 1]).up_first(&DROPPED),
        1 => on_down_wire(made, 1, &DROPPED),
        2..=6 => stored(made, number - 2, 1, &[CONN_IDS[number - 2], 0, 1, 7]),
        7 => made.with(controller_side(4) + 2, &[1]),
        8..=12 => made.with(host_side(number - 8) + 4, &IN_HAND),
        _ => made.with(ENDPOINT, &IN_HAND),
    }
}

/// Every choice of the fourteen, each pressed until no move is left.
#[test]
fn every_choice_of_moves() {
    let (mut group, mut moves) = (Group::new("every choice of moves"), 0);
    for set in 0..1 << 14 {
        let bench = (0..14).filter(|number| set >> number & 1 == 1).fold(still(), allow);
        moves += group.rest(&bench);
    }
    assert_eq!(moves, 299_008);
    group.end(16_384, &[("message", 155_648), ("moves", 419), ("none", 16_384)]);
}

/// What may stand in a move's way: a full store, no credit, a close or another command that is not
/// answered, a connection that the controller has closed.
#[test]
fn moves_that_are_refused() {
    let (mut group, mut moves) = (Group::new("moves that are refused"), 0);
    let packets = [&[2, 0, 1, 7][..], &[0x20, 5, 1, 2], &[0x30, 4, 1, 1], &DROPPED];
    for (down, packet) in [1, 2, 16].into_iter().flat_map(|down| packets.map(|packet| (down, packet))) {
        for (in_store, held) in [0, 1, 7, 8].into_iter().flat_map(|count| [0, 1, 7].map(|held| (count, held)))
        {
            for (asked, open) in [0, 5, 4].into_iter().flat_map(|oid| [0, 1].map(|open| (oid, open))) {
                let mut bench = on_down_wire(still(), down, packet)
                    .with(ASKED, &[u8::from(asked > 0), 0, asked, if asked == 5 { 2 } else { 0 }])
                    .with(host_side(1) + 3, &[held, 1, 0, 9, 0, 0])
                    .with(host_side(2) + 4, &IN_HAND);
                if in_store > 0 {
                    bench = stored(bench, 1, in_store, &[0x12, 0, 1, 7]);
                }
                moves += group.rest(&bench.with(controller_side(1), &[open]));
            }
        }
    }
    assert_eq!(moves, 13_661);
    group.end(864, &[("answer 1", 132), ("message", 1_730), ("moves", 243), ("none", 732)]);
}

/// Credits that come to a connection which holds or owes its whole grant, or nearly: a press ends
/// with the move that leaves more, and refusal 1 is the next answer.
#[test]
fn credits_past_a_grant() {
    let (mut group, mut moves) = (Group::new("presses past a grant"), 0);
    for (place, conn) in CONN_IDS.into_iter().enumerate() {
        let sources = [
            (true, vec![0x60, 6, 3, 1, conn, 1]),
            (true, vec![0x60, 6, 3, 1, conn, 8]),
            (true, vec![conn, 1, 1, 7]),
            (true, vec![0x10 | conn, 3, 1, 7]),
            (false, vec![conn, 0, 1, 7]),
            (false, vec![0x10 | conn, 0, 1, 7]),
        ];
        for (goes_up, packet) in sources {
            for (grant, less) in
                [0, 1, 4, 8, 253, 254, 255].into_iter().flat_map(|g| [0, 1, 3].map(|n| (g, n)))
            {
                let count = u8::saturating_sub(grant, less);
                let bench = still()
                    .with(host_side(place) + 2, &[grant, count])
                    .with(controller_side(place) + 1, &[grant, count])
                    .with(host_side(3) + 4, &IN_HAND)
                    .with(ENDPOINT, &IN_HAND)
                    .with(UP, &[9, 2])
                    .up_first(&DROPPED);
                moves += group.rest(&if goes_up {
                    bench.with(UP, &[10, 1]).up_first(&packet).with(UP, &[9, 2])
                } else {
                    stored(bench, place, 2, &packet)
                });
            }
        }
    }
    assert_eq!(moves, 3_840);
    group.end(630, &[("answer 1", 361), ("message", 1_412), ("moves", 259), ("none", 269)]);
}

/// The longest messages with a segment for each octet, from their first, from their second, and with
/// all of them gone; a full up wire; stores and the down wire as full as the grant allows.
#[test]
fn the_longest_presses() {
    let (mut group, mut moves) = (Group::new("the longest presses"), Vec::new());
    for (grant, held, in_store, down) in [(1, 1, 0, 1), (8, 0, 8, 1), (254, 200, 8, 16), (255, 0, 8, 16)] {
        for gone in [[0, 0], [0, 1], [4, 0]] {
            let mut bench = on_down_wire(still(), down, &DROPPED).with(UP, &[9, 16]).with(ENDPOINT, &SPOKEN);
            for (place, conn) in CONN_IDS.into_iter().enumerate() {
                let host = [&[1, 1, grant, held, 1, 4, 0][..], &gone, &[0; 3]].concat();
                bench = bench.with(host_side(place), &host).with(controller_side(place), &[1, grant, 0]);
                if in_store > 0 {
                    bench = stored(bench, place, in_store, &[0x10 | conn, 0, 1, 7]);
                }
            }
            moves.push(group.rest(&bench));
        }
    }
    assert!(moves.iter().all(|moves| *moves <= MOST), "{moves:?}");
    let due = [[21_525, 21_504, 42], [21_599, 21_578, 116], [21_614, 21_593, 131], [19_564, 19_545, 127]];
    assert_eq!(moves, due.concat());
    group.end(12, &[("message", 258), ("none", 12)]);
}

// Through C alone

/// Areas and buffers with octets to spare: a press and its moves leave the same, and touch none of
/// them.
#[test]
fn a_press_is_its_moves_one_by_one() {
    let (mut random, mut presses, mut most) = (Random::new(41), 0, 0);
    let mut lists = Lists::new(42);
    for _ in 0..150 {
        lists.play(120).unwrap();
        let room = Room { area: AREA + random.below(500), buffer: BUFFER + random.below(500) };
        let mut pressed = lists.both.lent.octets()[..room.area].to_vec();
        let mut moved = pressed.clone();
        let (mut one, mut other) = (vec![0x5A; room.buffer], vec![0x5A; room.buffer]);
        loop {
            let word = exports::play(&mut pressed, &mut one, &Call::Run, &[]);
            assert_eq!(word, one_by_one(&mut moved, &mut other), "{word:#x}");
            assert!(pressed == moved && one == other);
            presses += 1;
            most = most.max(word::moves(word));
            if word::moves(word) == 0 {
                break;
            }
        }
        check_silence(&pressed).unwrap();
        assert_eq!(pressed[AREA..], lists.both.lent.octets()[AREA..room.area]);
        let handed = one.iter().rposition(|octet| *octet != 0x5A).map_or(0, |last| last + 1);
        assert!(handed <= BUFFER);
    }
    assert!(presses > 300 && most > 1000, "{presses} presses, {most} moves at the most");
}

#[test]
fn lists_come_to_rest_within_the_bound() {
    let mut lists = Lists::new(43);
    for _ in 0..60 {
        let played = lists.play(300).and_then(|()| lists.rest());
        assert_eq!(played, Ok(()), "{}", lists.lines.join("\n"));
    }
    assert_eq!(lists.both.tally.rests, 60);
}

/// The press is refused as every call is, for 2, 1 and 2 in this order, and for nothing else.
#[test]
fn refusals_of_run() {
    let mut lent = Lent::default();
    lent.put(allow(still(), 1).octets());
    for (area, buffer) in [(AREA - 1, BUFFER), (AREA, BUFFER - 1), (0, 0), (AREA - 1, 0)] {
        assert_eq!(lent.press(Room { area, buffer }).unwrap().word, 2);
    }
    let held = |octets: &mut [u8], count| octets[AREA - 512 + host_side(1) + 3] = count;
    lent.damage(|octets| held(octets, 9));
    for (area, buffer, due) in [(AREA - 1, BUFFER, 2), (AREA, 0, 1), (AREA, BUFFER, 1)] {
        assert_eq!(lent.press(Room { area, buffer }).unwrap().word, due);
    }
    lent.damage(|octets| held(octets, 8));
    assert_eq!(lent.press(Room::EXACT).unwrap().word, 1 << 32 | 1 << 8);
    assert_eq!(lent.press(Room::EXACT).unwrap().word, 0);
}

/// A message in hand anywhere, or a packet under way, is no silence.
#[test]
fn silence_is_noticed_to_be_broken() {
    check_silence(still().octets()).unwrap();
    for number in 8..14 {
        assert!(check_silence(allow(still(), number).octets()).is_err(), "{number}");
    }
    // no credit: the message stays, and push answers 9
    let waiting = still().with(host_side(2) + 3, &[0]).with(host_side(2) + 4, &IN_HAND);
    let mut both = Both::default();
    both.put(waiting.octets());
    both.step(&Call::Run).unwrap();
    assert_eq!(both.outcome.as_ref().unwrap().moves, 0);
    assert!(check_silence(both.lent.octets()).unwrap_err().contains("on 3 send answers 7, push 9"));
}
