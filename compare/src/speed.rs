//! How fast: each call and a mixed paper on both benches, in one run; and presses of run beside
//! their moves, made one by one through the same interface.
//!
//! A call is timed on several benches that all stand where it is taken; they are set
//! up again outside the time. Where calls do not lead, to wires full of long packets,
//! they are forged. A paper is timed piece by piece. Everything is done many
//! times and the best counts, since other programs may run meanwhile. The proved bench
//! gets its area and a buffer, which no one clears; the second implementation keeps its
//! state in memory of its own and makes vectors of what it answers.

use std::hint::black_box;
use std::time::{Duration, Instant};

use exam_bench::bench::Bench;
use exam_bench::call::Call;
use exam_bench::connection::CONN_IDS;
use exam_bench::layout::{self, Endpoint, MOST_PARAMETERS};
use exam_bench::player::{Lengths, Player};

use crate::exports;
use crate::record::{self, AREA, DOWN_AT, DOWN_RING, SLOT, UP_AT, UP_RING, WIRE_SLOTS};

/// Benches that one call is timed on together.
const COPIES: usize = 16;
/// Calls of a list of the mixed paper.
const LIST_CALLS: usize = 400;

/// Calls of a piece of a paper, and how often the paper is played.
const PIECE: usize = 1_000;
const PASSES: usize = 15;

/// Calls and the best time that each bench took for them.
#[derive(Clone, Copy)]
pub struct Times {
    calls: usize,
    proved: Duration,
    second: Duration,
}

impl Times {
    fn per_second(&self, time: Duration) -> f64 {
        self.calls as f64 / time.as_secs_f64()
    }

    /// A line of fields: calls a second of each bench, and how many times as long the
    /// proved one takes.
    pub fn fields(&self, name: &str) -> String {
        format!(
            "call={name} proved={:.0} second={:.0} ratio={:.2}",
            self.per_second(self.proved),
            self.per_second(self.second),
            self.proved.as_secs_f64() / self.second.as_secs_f64()
        )
    }
}

/// The proved bench in octets, with the buffer that its calls take.
struct Octets {
    area: Vec<u8>,
    buffer: Vec<u8>,
}

impl Octets {
    fn new() -> Octets {
        Octets { area: vec![0; AREA], buffer: vec![0; 1024] }
    }

    fn play(&mut self, call: &Call) -> u64 {
        exports::play(&mut self.area, &mut self.buffer, call, exports::argument(call))
    }

    /// Sixteen of this packet on a wire, whatever it held.
    fn fill(&mut self, (slots, ring): (usize, usize), packet: &[u8]) {
        for slot in self.area[slots..].chunks_exact_mut(SLOT).take(WIRE_SLOTS) {
            slot[..packet.len()].copy_from_slice(packet);
        }
        self.area[ring..ring + 2].copy_from_slice(&[0, WIRE_SLOTS as u8]);
    }
}

fn command(gid: u8, oid: u8, payload: &[u8]) -> Call {
    Call::Command { gid, oid, payload: payload.to_vec() }
}

/// Small packets, so that a long message is in hand for long.
const PROFILE: [u8; 5] = [32, 32, 8, 32, 8];

/// What a set names: PA_BAIL_OUT, and fifteen octets for PI_B_H_INFO.
const SETTINGS: [u8; 21] = [2, 0x08, 1, 1, 0x20, 15, 7, 7, 7, 7, 7, 7, 7, 7, 7, 7, 7, 7, 7, 7, 7];
/// What a get names.
const PARAMETERS: [u8; 16] =
    [15, 0x08, 0x09, 0x10, 0x11, 0x13, 0x14, 0x18, 0x19, 0x1A, 0x20, 0x21, 0x28, 0x2A, 0x2F, 0x68];

/// Up to an open loopback, 2, and an activation.
fn opening() -> Vec<Call> {
    let mut calls = vec![Call::Fresh(PROFILE.to_vec())];
    for asked in
        [command(0, 0, &[1]), command(0, 1, &[0, 0]), command(0, 4, &[1, 0]), command(1, 3, &[1, 0, 1])]
    {
        calls.extend([asked, Call::Down, Call::Up, Call::Up]);
    }
    calls.extend([Call::Air(vec![2, 1, 4, 0]), Call::Up]);
    calls
}

/// A call to be timed.
pub struct Case {
    pub name: &'static str,
    /// The calls that lead to where it is taken.
    before: Vec<Call>,
    /// The packet that then fills the up wire, beside a down wire full of data.
    filled: Option<Vec<u8>>,
    call: Call,
}

/// Each call by name.
pub fn cases() -> Vec<Case> {
    let long = Call::Send { conn: 2, message: vec![7; 1024] };
    let short = Call::Send { conn: 2, message: vec![7; 9] };
    let pushed = vec![short.clone(), Call::Push(2)];
    let stored = [pushed.clone(), vec![Call::Down]].concat();
    let consumed = [stored.clone(), vec![Call::Consume(2)]].concat();
    // on a loopback every credit comes back inside a packet: a notice is of connection 0
    let owed = vec![Call::Send { conn: 0, message: vec![7; 9] }, Call::Push(0), Call::Down, Call::Consume(0)];
    let endpoint = spoken();
    let case = |name, before, call| Case { name, before, filled: None, call };
    let from = |name, calls: Vec<Call>, call| case(name, [opening(), calls].concat(), call);
    let mut cases = vec![
        from("fresh", vec![], Call::Fresh(PROFILE.to_vec())),
        from("power", vec![], Call::Power),
        from("command", vec![], command(0, 4, &[1, 0])),
        from("send, 9 octets", vec![], short),
        from("send, 1024 octets", vec![], long.clone()),
        from("push, of 9 octets", pushed[..1].to_vec(), Call::Push(2)),
        from("push, of 1024 octets", vec![long], Call::Push(2)),
        from("down, data", pushed, Call::Down),
        from("down, a command", vec![command(0, 4, &[1, 0])], Call::Down),
        from("consume", stored, Call::Consume(2)),
        from("credit", owed.clone(), Call::Credit),
        case("air, activation", opening()[..17].to_vec(), Call::Air(vec![2, 1, 4, 0])),
        from("air, 1024 octets", vec![], endpoint.clone()),
        from("reply", vec![endpoint], Call::Reply),
        from("up, data", consumed.clone(), Call::Up),
        from("up, a notice", [owed, vec![Call::Credit]].concat(), Call::Up),
        from("report", consumed, Call::Report(2)),
    ];
    cases.extend(full_wires());
    cases.extend(configs());
    cases.push(from("read, 3 octets", vec![], Call::Read(vec![0x02, 0xFF, 0])));
    cases.push(from("read, 258 octets", vec![], Call::Read(full_data(1))));
    cases.push(from("a refusal", vec![], Call::Push(2)));
    cases.push(from("run, at rest", vec![], Call::Run));
    cases
}

/// Down of a set and of a get in IDLE, where a set is taken.
fn configs() -> [Case; 2] {
    let case = |name, asked| {
        let before = [opening()[..9].to_vec(), vec![asked]].concat();
        Case { name, before, filled: None, call: Call::Down }
    };
    [
        case("down, a set", command(0, 2, &SETTINGS)),
        case("down, a get of all parameters", command(0, 3, &PARAMETERS)),
    ]
}

/// A data packet of connection 2 as long as they get, with so many credits.
fn full_data(credits: u8) -> Vec<u8> {
    [vec![0x12, credits, 255], vec![7; 255]].concat()
}

/// Report with sixteen packets on each wire, by what is on the up wire: data that returns a
/// credit each, RF_DISCOVER_NTF with all the parameters that it may have, CORE_INIT_RSP, and,
/// looked into, CORE_CONN_CREDITS_NTF for all connections.
fn full_wires() -> Vec<Case> {
    let found = Endpoint { id: 1, protocol: 4, mode: 0, parameters: &[7; MOST_PARAMETERS] };
    let packets = [
        ("report, full wires of data", full_data(1)),
        ("report, full wires of notices", layout::write_discover_ntf(&found, 2)),
        ("report, full wires of INIT responses", layout::write_init_rsp(PROFILE[0])),
        ("report, full wires of credit notices", layout::write_credits_ntf(&CONN_IDS.map(|conn| (conn, 1)))),
    ];
    let case = |(name, packet)| Case { name, before: opening(), filled: Some(packet), call: Call::Report(2) };
    packets.into_iter().map(case).collect()
}

impl Case {
    /// Both benches where the call is taken.
    fn benches(&self) -> (Octets, Bench) {
        let mut octets = Octets::new();
        let mut bench = Bench::new(&PROFILE).expect("the profile is inside its limits");
        for call in &self.before {
            octets.play(call);
            bench.play(call);
        }
        if let Some(packet) = &self.filled {
            octets.fill((DOWN_AT, DOWN_RING), &full_data(0));
            octets.fill((UP_AT, UP_RING), packet);
            bench.down_wire = vec![full_data(0); WIRE_SLOTS].into();
            bench.up_wire = vec![packet.clone(); WIRE_SLOTS].into();
        }
        let said = record::load(&octets.area).expect("the record is sound");
        assert_eq!(record::difference(&said, &bench), None, "{}", self.name);
        (octets, bench)
    }

    pub fn time(&self, rounds: usize) -> Times {
        let (octets, bench) = self.benches();
        let mut areas: Vec<Octets> = (0..COPIES).map(|_| Octets::new()).collect();
        let mut times = Times { calls: COPIES, proved: Duration::MAX, second: Duration::MAX };
        for _ in 0..rounds {
            areas.iter_mut().for_each(|copy| copy.area.copy_from_slice(&octets.area));
            times.proved = times.proved.min(time(&mut areas, |copy| copy.play(&self.call)));
            let mut benches: Vec<Bench> = (0..COPIES).map(|_| bench.clone()).collect();
            times.second = times.second.min(time(&mut benches, |copy| copy.play(&self.call)));
        }
        times
    }
}

/// The endpoint's longest message.
fn spoken() -> Call {
    Call::Air([vec![8], vec![7; 1024]].concat())
}

/// A press of run to be timed, beside its moves.
pub struct Press {
    pub name: &'static str,
    /// The calls that lead to where it is made.
    before: Vec<Call>,
}

/// Presses of many moves, each of which ends with the message that it hands out, and one of few.
pub fn presses() -> Vec<Press> {
    let opened = |profile: [u8; 5]| [vec![Call::Fresh(profile.to_vec())], opening()[1..].to_vec()].concat();
    let long = |conn| Call::Send { conn, message: vec![7; 1024] };
    let press = |name, profile, calls: Vec<Call>| Press { name, before: [opened(profile), calls].concat() };
    vec![
        press("a loopback, 32 segments", PROFILE, vec![long(2)]),
        press("a loopback, 1024 segments", [32, 1, 1, 32, 8], vec![long(2)]),
        press("connection 0, 32 segments", PROFILE, vec![long(0)]),
        press("connection 0, 1024 segments, no flow control", [32, 32, 8, 1, 255], vec![long(0)]),
        press("the endpoint, 5 segments", PROFILE, vec![spoken()]),
        press("a RESET", PROFILE, vec![command(0, 0, &[1])]),
    ]
}

impl Press {
    /// The proved bench where the press is made, and its moves.
    fn moves(&self) -> (Octets, Vec<Call>) {
        let mut octets = Octets::new();
        for call in &self.before {
            octets.play(call);
        }
        let mut bench = record::load(&octets.area).expect("the record is sound");
        let moves = bench.clone().run().moves;
        (octets, (0..moves).filter_map(|_| bench.make_move()).map(|made| made.call).collect())
    }

    /// A line of fields: how many moves, nanoseconds a move in the press and by the calls of their
    /// names, and how many times as long the press takes. One and the other are done in turn, and the
    /// best of each counts.
    pub fn time(&self, moves_made: usize) -> String {
        let (start, moves) = self.moves();
        let (mut pressed, mut called) = (Octets::new(), Octets::new());
        let (mut press, mut calls) = (Duration::MAX, Duration::MAX);
        for _ in 0..moves_made.div_ceil(moves.len()) {
            pressed.area.copy_from_slice(&start.area);
            press = press.min(time(std::slice::from_mut(&mut pressed), |octets| octets.play(&Call::Run)));
            called.area.copy_from_slice(&start.area);
            calls = calls.min(time(std::slice::from_mut(&mut called), |octets| {
                for call in &moves {
                    black_box(octets.play(call));
                }
            }));
        }
        assert!(pressed.area == called.area && pressed.buffer == called.buffer, "{}", self.name);
        let each = |all: Duration| all.as_nanos() as f64 / moves.len() as f64;
        let (made, by_calls, ratio) = (each(press), each(calls), press.as_secs_f64() / calls.as_secs_f64());
        format!(
            "press={} moves={} ns={made:.0} ns-by-calls={by_calls:.0} ratio={ratio:.2}",
            self.name,
            moves.len()
        )
    }
}

/// How long it takes to do this with each of them.
fn time<T, A>(all: &mut [T], mut act: impl FnMut(&mut T) -> A) -> Duration {
    let start = Instant::now();
    for one in all {
        black_box(act(one));
    }
    start.elapsed()
}

/// A paper of random lists, as the second implementation's player deals them. Profiles
/// have five octets, nothing is read alone, nothing is configured and run is not pressed, so
/// that times compare with those of papers that knew none of it.
pub fn mixed_paper(calls: usize, seed: u64, lengths: Lengths) -> Vec<Call> {
    let player = Player::new(seed, lengths).with_short_profiles();
    let mut player = player.without_reads().without_configs().without_runs();
    let mut bench = Bench::new(&PROFILE).expect("the profile is inside its limits");
    let mut paper = Vec::new();
    while paper.len() < calls {
        let length = player.list_length(LIST_CALLS);
        let profile = player.begin();
        bench.fresh(&profile);
        paper.push(Call::Fresh(profile));
        for _ in 1..length {
            let call = player.next_call(&bench);
            bench.play(&call);
            paper.push(call);
        }
    }
    paper
}

/// Times a whole paper.
pub fn time_paper(paper: &[Call]) -> Times {
    let mut octets = Octets::new();
    let proved = time_pieces(paper, |call| octets.play(call));
    let mut bench = Bench::new(&PROFILE).expect("the profile is inside its limits");
    let second = time_pieces(paper, |call| bench.play(call));
    Times { calls: paper.len(), proved, second }
}

/// The sum of each piece's best time.
fn time_pieces<A>(paper: &[Call], mut play: impl FnMut(&Call) -> A) -> Duration {
    let mut best = vec![Duration::MAX; paper.len().div_ceil(PIECE)];
    for _ in 0..PASSES {
        for (piece, best) in paper.chunks(PIECE).zip(&mut best) {
            let start = Instant::now();
            for call in piece {
                black_box(play(call));
            }
            *best = start.elapsed().min(*best);
        }
    }
    best.into_iter().sum()
}
