//! The bench: both ends, the two wires and the twelve calls, each with its
//! refusals in the order that the decision on refusals lists them; run, which makes
//! some of these calls; and read.

use std::collections::VecDeque;

use crate::air::AirEvent;
use crate::call::{Call, Event, Outcome, Refusal};
use crate::connection::{is_dynamic, place_of};
use crate::controller::Controller;
use crate::counts;
use crate::host::Host;
use crate::packet::{self, InHand, Reading, Way, MOST_CONTROL_MESSAGE, MOST_DATA_MESSAGE, MOST_PACKET};
use crate::profile::{Profile, Terms, NO_FLOW_CONTROL};

/// Packets that a wire holds.
pub const WIRE_SLOTS: usize = 16;
/// Slots that the answer to a command may need: a response and a notification.
const ANSWER_SLOTS: usize = 2;

/// The moves of run, in the order in which they are tried: up; down; consume, lowest
/// connection first; credit; push, lowest first; reply.
pub const MOVES: [Call; 14] = [
    Call::Up,
    Call::Down,
    Call::Consume(0),
    Call::Consume(2),
    Call::Consume(3),
    Call::Consume(4),
    Call::Consume(5),
    Call::Credit,
    Call::Push(0),
    Call::Push(2),
    Call::Push(3),
    Call::Push(4),
    Call::Push(5),
    Call::Reply,
];

#[derive(Clone, Debug, PartialEq, Eq)]
pub struct Bench {
    pub profile: Profile,
    /// To the controller.
    pub down_wire: VecDeque<Vec<u8>>,
    /// To the host.
    pub up_wire: VecDeque<Vec<u8>>,
    pub host: Host,
    pub controller: Controller,
}

/// The next rule of a call's list.
fn refuse_if(applies: bool, refusal: Refusal) -> Result<(), Refusal> {
    if applies {
        Err(refusal)
    } else {
        Ok(())
    }
}

/// Refusal 3 for a Conn ID other than 0, 2-5.
fn check_conn(conn: u8) -> Result<(), Refusal> {
    refuse_if(place_of(conn).is_none(), Refusal::ArgumentOutsideLimit)
}

/// A taken call that puts one packet up.
fn put_up(packet: Vec<u8>) -> Outcome {
    Outcome { up: vec![packet], ..Outcome::default() }
}

/// The reserved bits that down or up shows of the packet which it took. The drop flag
/// also stands for a run that is lost and for an entry of a credit notice.
fn shown(drop: bool, packet: &[u8], way: Way) -> u8 {
    if drop {
        0
    } else {
        packet::reserved_at_1(packet, way)
    }
}

impl Bench {
    /// A fresh bench, or none for a profile of another length or outside its limits.
    pub fn new(profile: &[u8]) -> Option<Bench> {
        Profile::read(profile).map(Bench::cold)
    }

    /// Both wires empty, both ends cold.
    fn cold(profile: Profile) -> Bench {
        Bench {
            profile,
            down_wire: VecDeque::new(),
            up_wire: VecDeque::new(),
            host: Host::cold(),
            controller: Controller::cold(profile),
        }
    }

    pub fn down_wire(&self) -> &VecDeque<Vec<u8>> {
        &self.down_wire
    }

    pub fn up_wire(&self) -> &VecDeque<Vec<u8>> {
        &self.up_wire
    }

    pub fn host(&self) -> &Host {
        &self.host
    }

    pub fn controller(&self) -> &Controller {
        &self.controller
    }

    /// Makes any of the calls.
    pub fn play(&mut self, call: &Call) -> Outcome {
        match call {
            Call::Fresh(profile) => self.fresh(profile),
            Call::Power => self.power(),
            Call::Command { gid, oid, payload } => self.command(*gid, *oid, payload),
            Call::Send { conn, message } => self.send(*conn, message),
            Call::Push(conn) => self.push(*conn),
            Call::Down => self.down(),
            Call::Consume(conn) => self.consume(*conn),
            Call::Credit => self.credit(),
            Call::Air(octets) => self.air(octets),
            Call::Reply => self.reply(),
            Call::Up => self.up(),
            Call::Report(conn) => self.report(*conn),
            Call::Read(octets) => Bench::read(octets),
            Call::Run => self.run(),
        }
    }

    /// The one place where packets come onto a wire by a call, so that the
    /// outcome tells exactly those.
    fn conclude(&mut self, result: Result<Outcome, Refusal>) -> Outcome {
        match result {
            Err(refusal) => Outcome::refused(refusal),
            Ok(outcome) => {
                self.down_wire.extend(outcome.down.iter().cloned());
                self.up_wire.extend(outcome.up.iter().cloned());
                outcome
            }
        }
    }

    fn up_slots(&self) -> usize {
        WIRE_SLOTS.saturating_sub(self.up_wire.len())
    }

    fn down_slots(&self) -> usize {
        WIRE_SLOTS.saturating_sub(self.down_wire.len())
    }

    // fresh, power

    pub fn fresh(&mut self, profile: &[u8]) -> Outcome {
        match Bench::new(profile) {
            None => Outcome::refused(Refusal::ArgumentOutsideLimit),
            Some(bench) => {
                *self = bench;
                Outcome::default()
            }
        }
    }

    pub fn power(&mut self) -> Outcome {
        *self = Bench::cold(self.profile);
        Outcome::default()
    }

    // command

    pub fn command(&mut self, gid: u8, oid: u8, payload: &[u8]) -> Outcome {
        let result = self.try_command(gid, oid, payload);
        self.conclude(result)
    }

    fn try_command(&mut self, gid: u8, oid: u8, payload: &[u8]) -> Result<Outcome, Refusal> {
        let outside = gid > 15 || oid > 63 || payload.len() > MOST_CONTROL_MESSAGE;
        refuse_if(outside, Refusal::ArgumentOutsideLimit)?;
        let segments = packet::segment_count(payload.len(), self.host.control_size());
        refuse_if(self.down_slots() < segments, Refusal::TooFewSlots)?;
        refuse_if(self.host.awaits_response(), Refusal::CommandUnanswered)?;
        Ok(Outcome { down: self.host.command(gid, oid, payload), ..Outcome::default() })
    }

    // send, push

    pub fn send(&mut self, conn: u8, message: &[u8]) -> Outcome {
        let result = self.try_send(conn, message);
        self.conclude(result)
    }

    /// A message taken during a close would vanish with the response, so 15 comes
    /// before the connection is looked at, whichever may close.
    fn try_send(&mut self, conn: u8, message: &[u8]) -> Result<Outcome, Refusal> {
        check_conn(conn)?;
        refuse_if(message.len() > MOST_DATA_MESSAGE, Refusal::ArgumentOutsideLimit)?;
        refuse_if(self.host.awaits_close(), Refusal::SendDuringClose)?;
        let open = self.host.connection(conn).ok_or(Refusal::NotOpen)?;
        refuse_if(open.has_message_in_hand(), Refusal::MessageInHand)?;
        self.host.send(conn, message);
        Ok(Outcome::default())
    }

    pub fn push(&mut self, conn: u8) -> Outcome {
        let result = self.try_push(conn);
        self.conclude(result)
    }

    fn try_push(&mut self, conn: u8) -> Result<Outcome, Refusal> {
        check_conn(conn)?;
        refuse_if(self.down_slots() < 1, Refusal::TooFewSlots)?;
        let open = self.host.connection(conn).ok_or(Refusal::NotOpen)?;
        refuse_if(!open.has_message_in_hand(), Refusal::NothingToMove)?;
        refuse_if(open.lacks_credit(), Refusal::NoCredit)?;
        refuse_if(self.host.awaits_close(), Refusal::CloseUnanswered)?;
        let packet = self.host.push(conn).ok_or(Refusal::NothingToMove)?;
        Ok(Outcome { down: vec![packet], ..Outcome::default() })
    }

    // down

    pub fn down(&mut self) -> Outcome {
        let result = self.try_down();
        self.conclude(result)
    }

    /// The last packet of a command needs two slots whatever its answer will be,
    /// also where its run is past the limit (decision on control runs).
    fn try_down(&mut self) -> Result<Outcome, Refusal> {
        let first = self.down_wire.front().ok_or(Refusal::NothingToMove)?;
        let ends_command = matches!(packet::read(first), Reading::Packet(packet) if packet.ends_command());
        refuse_if(ends_command && self.up_slots() < ANSWER_SLOTS, Refusal::TooFewSlots)?;
        refuse_if(self.controller.store_full_for(first), Refusal::StoreFull)?;
        let first = self.down_wire.pop_front().ok_or(Refusal::NothingToMove)?;
        let taken = self.controller.take(&first);
        let rfu = shown(taken.drop, &first, Way::Down);
        Ok(Outcome { drop: taken.drop, rfu, up: taken.answers, ..Outcome::default() })
    }

    // consume, credit

    pub fn consume(&mut self, conn: u8) -> Outcome {
        let result = self.try_consume(conn);
        self.conclude(result)
    }

    fn try_consume(&mut self, conn: u8) -> Result<Outcome, Refusal> {
        check_conn(conn)?;
        refuse_if(is_dynamic(conn) && self.up_slots() < 1, Refusal::TooFewSlots)?;
        let open = self.controller.connection(conn).ok_or(Refusal::NotOpen)?;
        refuse_if(open.stored() == 0, Refusal::NothingToMove)?;
        let consumed = self.controller.consume(conn).ok_or(Refusal::NothingToMove)?;
        Ok(Outcome {
            drop: consumed.drop,
            up: consumed.returned.into_iter().collect(),
            message: consumed.message,
            ..Outcome::default()
        })
    }

    pub fn credit(&mut self) -> Outcome {
        let result = self.try_credit();
        self.conclude(result)
    }

    fn try_credit(&mut self) -> Result<Outcome, Refusal> {
        refuse_if(self.up_slots() < 1, Refusal::TooFewSlots)?;
        refuse_if(!self.controller.owes_credits(), Refusal::NothingToMove)?;
        Ok(put_up(self.controller.give_credits()))
    }

    // air, reply

    pub fn air(&mut self, octets: &[u8]) -> Outcome {
        let result = self.try_air(octets);
        self.conclude(result)
    }

    fn try_air(&mut self, octets: &[u8]) -> Result<Outcome, Refusal> {
        let event = AirEvent::read(octets).ok_or(Refusal::ArgumentOutsideLimit)?;
        refuse_if(event.needs_slot() && self.up_slots() < 1, Refusal::TooFewSlots)?;
        let message = matches!(event, AirEvent::EndpointMessage(_));
        refuse_if(message && self.controller.endpoint_message_in_hand(), Refusal::MessageInHand)?;
        refuse_if(!self.controller.takes_event(&event), Refusal::AirNotTaken)?;
        let wires_empty = self.down_wire.is_empty() && self.up_wire.is_empty();
        refuse_if(event.is_activation() && !wires_empty, Refusal::WiresNotEmpty)?;
        Ok(Outcome { up: self.controller.happen(event).into_iter().collect(), ..Outcome::default() })
    }

    pub fn reply(&mut self) -> Outcome {
        let result = self.try_reply();
        self.conclude(result)
    }

    fn try_reply(&mut self) -> Result<Outcome, Refusal> {
        refuse_if(self.up_slots() < 1, Refusal::TooFewSlots)?;
        self.controller.reply().map(put_up).ok_or(Refusal::NothingToMove)
    }

    // up

    pub fn up(&mut self) -> Outcome {
        let result = self.try_up();
        self.conclude(result)
    }

    fn try_up(&mut self) -> Result<Outcome, Refusal> {
        let first = self.up_wire.pop_front().ok_or(Refusal::NothingToMove)?;
        let taken = self.host.take(&first);
        let rfu = shown(taken.drop, &first, Way::Up);
        Ok(Outcome { drop: taken.drop, rfu, message: taken.message, ..Outcome::default() })
    }

    // report

    /// Looks only: a report changes nothing, taken or not. Of the wires it reads what
    /// `counts` reads.
    pub fn report(&self, conn: u8) -> Outcome {
        match self.try_report(conn) {
            Err(refusal) => Outcome::refused(refusal),
            Ok(numbers) => Outcome { message: Some(numbers.to_vec()), ..Outcome::default() },
        }
    }

    fn try_report(&self, conn: u8) -> Result<[u8; 5], Refusal> {
        check_conn(conn)?;
        let open = self.controller.connection(conn).ok_or(Refusal::NotOpen)?;
        let going_down = octet(counts::data_packets(&self.down_wire, conn));
        let stored = octet(open.stored());
        if !open.flow_controlled() {
            return Ok([NO_FLOW_CONTROL, going_down, stored, 0, 0]);
        }
        let held = self.host.connection(conn).map_or(0, |open| open.held());
        let credits = octet(counts::credits(&self.up_wire, conn));
        Ok([held, going_down, stored, open.owed(), credits])
    }

    // read

    /// The reading alone, as of a packet going up. It knows no ends, so no packet is
    /// dropped for the end that it would meet.
    pub fn read(octets: &[u8]) -> Outcome {
        if octets.len() > MOST_PACKET {
            return Outcome::refused(Refusal::ArgumentOutsideLimit);
        }
        let drop = packet::read(octets) == Reading::Drop;
        Outcome { drop, rfu: packet::reserved_at_1(octets, Way::Up), ..Outcome::default() }
    }

    // run

    /// Moves until none is left, or until one hands a message out, which is then the press's
    /// own. It tells how many there were, and nothing of the packets that they put.
    pub fn run(&mut self) -> Outcome {
        let mut press = Outcome::default();
        while press.message.is_none() {
            let Some(Event { outcome, .. }) = self.make_move() else {
                break;
            };
            press.moves += 1;
            press.drop |= outcome.drop;
            press.message = outcome.message;
        }
        press
    }

    /// Makes the first of the moves that is taken; none where all are refused. Those before
    /// it changed nothing. Past a grant refusal 1 is what each of them would give.
    pub fn make_move(&mut self) -> Option<Event> {
        if self.is_past_grant() {
            return None;
        }
        MOVES.into_iter().find_map(|call| {
            let outcome = self.play(&call);
            outcome.taken().then_some(Event { call, outcome })
        })
    }

    /// Whether a connection has more credits held or owed than granted. No list of calls from
    /// fresh comes to that; in a bench that a test loads, a move may.
    pub fn is_past_grant(&self) -> bool {
        let held = self.host.connections.iter().flatten().any(|open| open.held > open.terms.credits);
        held || self.controller.connections.iter().flatten().any(|open| open.owed > open.terms.credits)
    }

    // For tests: what no list of calls puts there.

    /// Puts any octets on the down wire.
    pub fn forge_down(&mut self, octets: &[u8]) {
        assert!(self.down_slots() > 0, "a wire holds 16 packets");
        self.down_wire.push_back(octets.to_vec());
    }

    /// Puts any octets on the up wire.
    pub fn forge_up(&mut self, octets: &[u8]) {
        assert!(self.up_slots() > 0, "a wire holds 16 packets");
        self.up_wire.push_back(octets.to_vec());
    }

    /// Stores any octets for a connection open at the controller.
    pub fn forge_stored(&mut self, conn: u8, octets: &[u8]) {
        self.controller.forge_stored(conn, octets.to_vec());
    }

    /// Opens a connection at the controller with any grant and any count of
    /// credits owed.
    pub fn forge_owing(&mut self, conn: u8, grant: u8, owed: u8) {
        self.controller.forge_owing(conn, forged_terms(grant), owed);
    }

    /// Opens a connection at the host with any grant and any count of credits held.
    pub fn forge_holding(&mut self, conn: u8, grant: u8, held: u8) {
        self.host.forge_holding(conn, forged_terms(grant), held);
    }

    /// Puts a message in the host's hand with so many of its octets gone.
    pub fn forge_in_hand(&mut self, conn: u8, message: &[u8], gone: usize) {
        self.host.forge_in_hand(conn, InHand::forged(message.to_vec(), gone));
    }

    /// Puts a message in the endpoint's hand, in any state, with so many of its
    /// octets gone.
    pub fn forge_endpoint_message(&mut self, message: &[u8], gone: usize) {
        self.controller.forge_endpoint_message(InHand::forged(message.to_vec(), gone));
    }
}

/// A small payload, and a grant that need not be inside its limits.
fn forged_terms(grant: u8) -> Terms {
    Terms { payload: 4, credits: grant }
}

/// Wires of 16 packets of at most 8 credits keep every number of a report inside
/// an octet.
fn octet(number: usize) -> u8 {
    u8::try_from(number).expect("a number of a report fits an octet")
}
