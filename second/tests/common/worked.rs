//! Clear benches by the calls that make them, and the moves of run that are left on each: worked
//! out by hand, for the second implementation and for the proved one.

use super::{activating, asked, opening, send, speak, PROFILE, UNLIKE, UNLIMITED};
use exam_bench::call::Call;
use exam_bench::trial::exact::KINDS;

/// Segments by kind: of the host on loopbacks, on 0 with flow control and without; of the endpoint.
pub type Segments = [usize; KINDS.len()];

pub struct Worked {
    pub name: &'static str,
    pub profile: &'static [u8],
    /// From fresh on. All are taken.
    pub calls: Vec<Call>,
    /// Those in hand.
    pub segments: Segments,
    pub moves: usize,
    /// Those of them that are a whole message without octets.
    pub empty: Segments,
    /// Segments of the endpoint that a closing discarded.
    pub discarded: usize,
}

/// On the payloads and credits of a profile, with all five connections open before the calls.
fn worked(
    name: &'static str,
    profile: &'static [u8],
    calls: Vec<Call>,
    segments: Segments,
    moves: usize,
) -> Worked {
    let calls = [opening(4), activating(), calls].concat();
    Worked { name, profile, calls, segments, moves, empty: [0; KINDS.len()], discarded: 0 }
}

impl Worked {
    fn all_empty(self) -> Worked {
        Worked { empty: self.segments, ..self }
    }

    fn discarding(self, discarded: usize) -> Worked {
        Worked { discarded, ..self }
    }
}

/// A command that is answered and heard, with so many packets.
fn answered(command: Call, packets: usize) -> Vec<Call> {
    [vec![command, Call::Down], vec![Call::Up; packets]].concat()
}

/// So many segments go to the other end and back, each call for all of them.
fn gone(moves: &[Call], segments: usize) -> Vec<Call> {
    moves.iter().flat_map(|call| vec![call.clone(); segments]).collect()
}

/// Messages of which no segment has gone. The profiles have payload 4, and `UNLIKE` 1, 255, 100
/// and 4 for the loopbacks, 3 for 0.
fn whole() -> Vec<Worked> {
    let everywhere = || [0, 2, 3, 4, 5].map(|conn| send(conn, 9)).to_vec();
    let at_once = || [everywhere(), vec![speak(600)]].concat();
    vec![
        worked("nothing", PROFILE, vec![], [0, 0, 0, 0], 0),
        worked("nine octets on 2", PROFILE, vec![send(2, 9)], [3, 0, 0, 0], 12),
        worked("the same without flow control", UNLIMITED, vec![send(2, 9)], [3, 0, 0, 0], 12),
        worked("nine octets on 0", PROFILE, vec![send(0, 9)], [0, 3, 0, 0], 15),
        worked("the same without flow control", UNLIMITED, vec![send(0, 9)], [0, 0, 3, 0], 9),
        worked("full segments", PROFILE, vec![send(5, 8), send(0, 4)], [2, 1, 0, 0], 13),
        worked("one reply", PROFILE, vec![speak(1)], [0, 0, 0, 1], 2),
        worked("a full reply", PROFILE, vec![speak(255)], [0, 0, 0, 1], 2),
        worked("an octet more", PROFILE, vec![speak(256)], [0, 0, 0, 2], 4),
        worked("nothing on 2", PROFILE, vec![send(2, 0)], [1, 0, 0, 0], 4).all_empty(),
        worked("nothing on 0", PROFILE, vec![send(0, 0)], [0, 1, 0, 0], 5).all_empty(),
        worked("nothing on 0 without flow control", UNLIMITED, vec![send(0, 0)], [0, 0, 1, 0], 3).all_empty(),
        worked("an empty reply", PROFILE, vec![speak(0)], [0, 0, 0, 1], 2).all_empty(),
        worked("all at once", PROFILE, at_once(), [12, 3, 0, 3], 69),
        worked("the same without flow control", UNLIMITED, at_once(), [12, 0, 3, 3], 63),
        worked("a pair for each", UNLIKE, everywhere(), [9 + 1 + 1 + 3, 3, 0, 0], 71),
        worked("the longest", PROFILE, vec![send(4, 1024), speak(1024)], [256, 0, 0, 5], 1034),
    ]
}

/// Messages of which some segments have gone before, by calls or by presses.
fn in_part() -> Vec<Worked> {
    let on_loopback = [Call::Push(2), Call::Down, Call::Consume(2), Call::Up];
    let on_0 = [Call::Push(0), Call::Down, Call::Consume(0), Call::Credit, Call::Up];
    let after = |message: Call, moves: Vec<Call>| [vec![message], moves].concat();
    let two_of_four = after(send(2, 16), gone(&on_loopback, 2));
    let pressed = [send(2, 4), send(3, 4), Call::Run, Call::Run].to_vec();
    vec![
        worked("two of four gone", PROFILE, two_of_four, [2, 0, 0, 0], 8),
        worked("one of three on 0", PROFILE, after(send(0, 9), gone(&on_0, 1)), [0, 2, 0, 0], 10),
        worked("two of three", UNLIMITED, after(send(0, 9), gone(&on_0[..3], 2)), [0, 0, 1, 0], 3),
        worked("all gone", PROFILE, after(send(0, 4), gone(&on_0, 1)), [0, 0, 0, 0], 0),
        worked(
            "one of three replies",
            PROFILE,
            after(speak(600), gone(&[Call::Reply, Call::Up], 1)),
            [0, 0, 0, 2],
            4,
        ),
        worked("one message pressed, one left", PROFILE, pressed, [1, 0, 0, 0], 4),
    ]
}

/// Messages that a closing has discarded.
fn discarded() -> Vec<Worked> {
    let deactivated = |calls: &[Call]| [calls, &answered(asked(1, 6, &[3]), 2)].concat();
    let listening = [deactivated(&[]), vec![Call::Air(vec![3, 1, 4, 0x80]), Call::Up]].concat();
    let released = [&listening[..], &[speak(600), Call::Air(vec![6]), Call::Up]].concat();
    let again = [&released[..], &listening[listening.len() - 2..], &[speak(1)]].concat();
    let spoken = [send(0, 9), speak(600)];
    let everything = || [send(0, 9), send(2, 9), speak(600)].to_vec();
    let reset = [everything(), answered(asked(0, 0, &[0]), 2)].concat();
    let closed = [vec![send(2, 9), send(3, 9), speak(600)], answered(asked(0, 5, &[2]), 1)].concat();
    let power = || [everything(), vec![Call::Power]].concat();
    let fresh = [everything(), vec![Call::Fresh(PROFILE.to_vec())]].concat();
    let and_again = [power(), opening(1), vec![send(2, 5)]].concat();
    vec![
        worked("a deactivation", PROFILE, deactivated(&spoken), [0, 0, 0, 0], 0).discarding(3),
        worked("the endpoint's release", PROFILE, released, [0, 0, 0, 0], 0).discarding(3),
        worked("and its next message", PROFILE, again, [0, 0, 0, 1], 2).discarding(3),
        worked("a close, of 2 alone", PROFILE, closed, [3, 0, 0, 3], 18),
        worked("a reset", PROFILE, reset, [0, 0, 0, 0], 0).discarding(3),
        worked("power", UNLIMITED, power(), [0, 0, 0, 0], 0).discarding(3),
        worked("power, and a message then", PROFILE, and_again, [2, 0, 0, 0], 8).discarding(3),
        worked("fresh", UNLIMITED, fresh, [0, 0, 0, 0], 0).discarding(3),
    ]
}

pub fn examples() -> Vec<Worked> {
    [whole(), in_part(), discarded()].into_iter().flatten().collect()
}

/// Calls after which a bench is not clear, all connections open, and what is in the way. The
/// profile has flow control.
pub fn not_clear() -> Vec<(String, Vec<Call>)> {
    let mut ways = vec![
        ("a command on the down wire".to_string(), vec![asked(0, 1, &[0, 0])]),
        ("a response on the up wire".to_string(), vec![asked(0, 1, &[0, 0]), Call::Down]),
        ("a reply on the up wire".to_string(), vec![speak(0), Call::Reply]),
    ];
    for conn in [0, 2, 3, 4, 5] {
        let way = [send(conn, 0), Call::Push(conn), Call::Down, Call::Consume(conn)];
        let consumed = if conn == 0 { "a credit owed" } else { "a packet on its way back" };
        for (calls, in_the_way) in [(2, "a packet on the down wire"), (3, "a packet stored"), (4, consumed)] {
            ways.push((format!("{in_the_way}, on {conn}"), way[..calls].to_vec()));
        }
    }
    let in_segments = vec![asked(0, 4, &[1; 40]), Call::Down];
    ways.push(("the rest of a command".to_string(), in_segments));
    ways.into_iter().map(|(name, calls)| (name, [opening(4), activating(), calls].concat())).collect()
}
