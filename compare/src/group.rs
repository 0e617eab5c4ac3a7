//! A group of cases: benches made by hand, and a call on each, made on both. What they came to
//! is counted, and the counts are known beforehand.

use std::collections::BTreeMap;

use exam_bench::call::{Call, Outcome};

use crate::both::Both;
use crate::made::{self, Made, ASKED, ENDPOINT, INFO_LENGTH, PAIRS, RF};
use crate::record::{AREA, INFO_ROOM, RECORD_AT, SAID};

pub struct Group {
    name: &'static str,
    both: Both,
    cases: u64,
    /// How many calls came to what.
    met: BTreeMap<String, u64>,
}

impl Group {
    pub fn new(name: &'static str) -> Group {
        Group { name, both: Both::default(), cases: 0, met: BTreeMap::new() }
    }

    /// One case: the call on this bench, on both. None is a damaged record.
    pub fn case(&mut self, bench: &Made, call: &Call) -> Option<Outcome> {
        self.both.put(bench.octets());
        self.cases += 1;
        self.make(call)
    }

    /// One case: presses of run on this bench until one makes no move, or has left a damaged
    /// record; how many moves there were.
    pub fn rest(&mut self, bench: &Made) -> usize {
        self.both.put(bench.octets());
        self.cases += 1;
        let mut moves = 0;
        while let Some(press) = self.make(&Call::Run) {
            if press.moves == 0 {
                break;
            }
            moves += press.moves;
        }
        moves
    }

    fn make(&mut self, call: &Call) -> Option<Outcome> {
        let before = self.both.lent.octets()[RECORD_AT..AREA].to_vec();
        let (record, left_over) = before.split_at(SAID);
        if let Err(fault) = self.both.step(call) {
            panic!("{}, case {}: {fault}\n{call:02X?} on {record:02X?}", self.name, self.cases);
        }
        let outcome = self.both.outcome.clone();
        // what writes no record, run at rest too, leaves octets that are not used
        let writes = |outcome: &Outcome| match call {
            Call::Report(_) | Call::Read(_) => false,
            Call::Run => outcome.moves > 0,
            _ => outcome.taken(),
        };
        if outcome.as_ref().is_some_and(writes) {
            let after = self.both.lent.octets();
            check_unused(record, made::record(after));
            let zeroed =
                matches!(call, Call::Fresh(_)) && made::left_over(after).iter().all(|octet| *octet == 0);
            assert!(zeroed || made::left_over(after) == left_over);
        }
        *self.met.entry(came_to(call, outcome.as_ref())).or_default() += 1;
        outcome
    }

    /// A command that is first on the down wire, taken off it.
    pub fn command(&mut self, bench: &Made) -> Outcome {
        self.case(bench, &Call::Down).expect("a sound record")
    }

    pub fn air(&mut self, bench: &Made, event: &[u8]) -> Outcome {
        self.case(bench, &Call::Air(event.to_vec())).expect("a sound record")
    }

    /// A packet that is first on the up wire, taken off it.
    pub fn hear(&mut self, bench: &Made) -> Option<Outcome> {
        self.case(bench, &Call::Up)
    }

    /// A response that is first on the up wire: whether it answers the command that the host awaits.
    pub fn answers(&mut self, bench: &Made) -> bool {
        self.hear(bench);
        self.both.second.as_ref().is_some_and(|bench| !bench.host.awaits_response())
    }

    pub fn name(&self) -> &str {
        self.name
    }

    pub fn cases(&self) -> u64 {
        self.cases
    }

    /// Prints what was met, and compares it with what there is.
    pub fn end(self, cases: u64, due: &[(&str, u64)]) {
        let met: Vec<(&str, u64)> = self.met.iter().map(|(what, count)| (what.as_str(), *count)).collect();
        println!("cases={} group={:?} met={met:?}", self.cases, self.name);
        assert_eq!(self.cases, cases, "{}", self.name);
        assert_eq!(met, due, "{}", self.name);
    }
}

/// The status of a response, the drop flag of a packet that was taken or read, how a press
/// ended, or the answer.
fn came_to(call: &Call, outcome: Option<&Outcome>) -> String {
    match (call, outcome) {
        (_, None) => "answer 1".to_string(),
        (Call::Down, Some(outcome)) if !outcome.up.is_empty() => format!("status {:02X}", outcome.up[0][3]),
        (Call::Up | Call::Read(_), Some(outcome)) if outcome.taken() => {
            if outcome.drop { "dropped" } else { "taken" }.to_string()
        }
        (Call::Run, Some(press)) if press.taken() => if press.message.is_some() {
            "message"
        } else if press.moves > 0 {
            "moves"
        } else {
            "none"
        }
        .to_string(),
        (_, Some(outcome)) => format!("answer {}", outcome.answer),
    }
}

/// Octets of the record that its state does not use: those of an unanswered command, of an RF
/// state and past the length of PI_B_H_INFO are written 0; those of what is closed, not in hand or
/// not listed are 0 or stay.
fn check_unused(before: &[u8], after: &[u8]) {
    let mut zero = Vec::new();
    if after[ASKED] == 0 {
        zero.extend(ASKED + 1..ASKED + 4);
    }
    match after[RF] {
        made::POLL_ACTIVE | made::LISTEN_ACTIVE => {}
        made::W4_HOST_SELECT if after[RF + 1] == 1 => {}
        _ => zero.extend(RF + 1..RF + 4),
    }
    let info = INFO_LENGTH + 1;
    zero.extend(info + usize::from(after[INFO_LENGTH])..info + INFO_ROOM);
    let mut spare: Vec<usize> = (PAIRS + 2 * usize::from(after[made::FOUND])..made::FOUND).collect();
    if after[ENDPOINT] == 0 {
        spare.extend(ENDPOINT + 1..ENDPOINT + 5);
    }
    for place in 0..5 {
        for (side, octets) in [(made::host_side(place), 12), (made::controller_side(place), 8)] {
            if after[side] == 0 {
                spare.extend(side + 1..side + octets);
            }
        }
    }
    assert!(zero.iter().all(|place| after[*place] == 0), "octets that are not used: {after:02X?}");
    let kept = |place: &usize| after[*place] == 0 || after[*place] == before[*place];
    assert!(spare.iter().all(kept), "octets that are not used: {before:02X?}, then {after:02X?}");
}
