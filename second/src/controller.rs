//! The controller: its answers to commands, the RF states and the air, its store
//! and the credits it owes (document 01, "What the controller answers" and "The
//! air", and document 02, "Credits inside data packets" and "Configuration commands";
//! 003, chapters 4, 5.2 and 7).

use std::collections::VecDeque;

use crate::air::{AirEvent, FOUND_MORE};
use crate::config::{self, Values};
use crate::connection::{
    dynamic_after, is_dynamic, place_of, CONN_IDS, FIRST_DYNAMIC, LAST_DYNAMIC, STATIC_RF,
};
use crate::layout::*;
use crate::packet::{
    self, ControlRun, InHand, Joined, MessageType, Packet, Reading, Run, MOST_CARRIED, MOST_PAYLOAD,
};
use crate::profile::{Profile, Terms};

/// Packets that the controller stores for a connection.
pub const STORE_PACKETS: usize = 8;
/// Pairs of ID and protocol in one series of discovery.
pub const MOST_PAIRS: usize = 8;
/// Pairs of mode and frequency in RF_DISCOVER_CMD.
const MOST_DISCOVER_ENTRIES: usize = 8;

/// A connection open at the controller. Closing it drops this whole, and so
/// discards store and reassembly.
#[derive(Clone, Debug, PartialEq, Eq)]
pub struct Connection {
    pub terms: Terms,
    pub store: VecDeque<Vec<u8>>,
    /// Packets consumed since the opening less credits put up since, in notices and
    /// inside data packets, as an octet counts: modulo 256. Without flow control it
    /// is not looked at.
    pub owed: u8,
    pub run: Run,
}

impl Connection {
    fn opened(terms: Terms) -> Connection {
        Connection { terms, store: VecDeque::new(), owed: 0, run: Run::of_data() }
    }

    pub fn stored(&self) -> usize {
        self.store.len()
    }

    pub fn payload(&self) -> usize {
        usize::from(self.terms.payload)
    }

    /// Nothing is owed without flow control, whatever the count says.
    pub fn owed(&self) -> u8 {
        if self.flow_controlled() {
            self.owed
        } else {
            0
        }
    }

    pub fn flow_controlled(&self) -> bool {
        self.terms.flow_controlled()
    }

    /// The credits that a data packet going up returns: what is owed, at most three.
    /// They are owed no longer; where nothing is owed the count stays as it is.
    fn carry(&mut self) -> u8 {
        let carried = self.owed().min(MOST_CARRIED);
        self.owed -= carried;
        carried
    }
}

/// How far the controller has been brought up. INIT is taken once after each
/// RESET; before it all but RESET is a semantic error.
#[derive(Clone, Copy, Debug, PartialEq, Eq)]
pub enum Phase {
    Cold,
    Reset,
    Initialised,
}

/// The ID and protocol of an endpoint found, or of one selected.
#[derive(Clone, Copy, Debug, PartialEq, Eq)]
pub struct Pair {
    pub id: u8,
    pub protocol: u8,
}

#[derive(Clone, Copy, Debug, PartialEq, Eq)]
pub struct Activation {
    pub id: u8,
    pub protocol: u8,
    pub mode: u8,
}

/// RF states (003, 5.2).
#[derive(Clone, Copy, Debug, PartialEq, Eq)]
pub enum Rf {
    Idle,
    Discovery,
    W4AllDiscoveries,
    /// With the accepted selection, or none.
    W4HostSelect(Option<Pair>),
    PollActive(Activation),
    ListenActive(Activation),
    ListenSleep,
}

/// What `down` brought about at the controller.
#[derive(Default)]
pub struct Taken {
    pub drop: bool,
    pub answers: Vec<Vec<u8>>,
}

impl Taken {
    fn dropped() -> Taken {
        Taken { drop: true, answers: Vec::new() }
    }
}

/// What `consume` brought about.
pub struct Consumed {
    pub drop: bool,
    pub message: Option<Vec<u8>>,
    /// The packet that goes up again, on a loopback.
    pub returned: Option<Vec<u8>>,
}

#[derive(Clone, Debug, PartialEq, Eq)]
pub struct Controller {
    pub profile: Profile,
    pub phase: Phase,
    pub rf: Rf,
    pub pairs: Vec<Pair>,
    pub config: Values,
    /// The Conn ID last given by CONN_CREATE; 5 at first, so that 2 comes next.
    pub last_given: u8,
    pub connections: [Option<Connection>; 5],
    pub control_run: ControlRun,
    /// The message that the endpoint is sending on connection 0.
    pub endpoint_message: Option<InHand>,
}

impl Controller {
    pub fn cold(profile: Profile) -> Controller {
        Controller {
            profile,
            phase: Phase::Cold,
            rf: Rf::Idle,
            pairs: Vec::new(),
            config: Values::defaults(),
            last_given: LAST_DYNAMIC,
            connections: [const { None }; 5],
            control_run: ControlRun::new(),
            endpoint_message: None,
        }
    }

    pub fn phase(&self) -> Phase {
        self.phase
    }

    pub fn rf(&self) -> Rf {
        self.rf
    }

    pub fn pairs(&self) -> &[Pair] {
        &self.pairs
    }

    /// The values that the parameters have.
    pub fn config(&self) -> &Values {
        &self.config
    }

    /// The connection if it is open at the controller.
    pub fn connection(&self, conn: u8) -> Option<&Connection> {
        self.connections[place_of(conn)?].as_ref()
    }

    fn connection_mut(&mut self, conn: u8) -> Option<&mut Connection> {
        self.connections[place_of(conn)?].as_mut()
    }

    pub fn endpoint_message_in_hand(&self) -> bool {
        self.endpoint_message.is_some()
    }

    // Opening and closing.

    /// Opening begins the connection anew, with no message of the endpoint in hand.
    fn open(&mut self, conn: u8) {
        let place = place_of(conn).expect("the controller opens 0 and 2-5");
        self.connections[place] = Some(Connection::opened(self.profile.terms_of(conn)));
        if conn == STATIC_RF {
            self.endpoint_message = None;
        }
    }

    /// Closing discards what this end holds of the connection; the endpoint's
    /// message in hand is connection 0's.
    fn close(&mut self, conn: u8) {
        if let Some(place) = place_of(conn) {
            self.connections[place] = None;
        }
        if conn == STATIC_RF {
            self.endpoint_message = None;
        }
    }

    /// The list of pairs is emptied in IDLE.
    fn enter_idle(&mut self) {
        self.rf = Rf::Idle;
        self.pairs.clear();
    }

    // The call down.

    /// Refusal 12: a data packet for a connection whose store is full.
    pub fn store_full_for(&self, octets: &[u8]) -> bool {
        let Reading::Packet(packet) = packet::read(octets) else {
            return false;
        };
        packet.message_type == MessageType::Data
            && self.connection(packet.id).is_some_and(|open| open.stored() >= STORE_PACKETS)
    }

    /// Takes a packet off the down wire. Data is stored, or dropped if the
    /// connection isn't open; commands aside, the rest is dropped, and by its MT
    /// neither joins nor ends a run (decision on control runs).
    pub fn take(&mut self, octets: &[u8]) -> Taken {
        let Reading::Packet(packet) = packet::read(octets) else {
            return Taken::dropped();
        };
        match packet.message_type {
            MessageType::Data => self.take_data(&packet, &octets[..packet.octets()]),
            MessageType::Command => self.take_command(&packet),
            MessageType::Response | MessageType::Notification => Taken::dropped(),
        }
    }

    /// The packet is stored octet for octet, reserved bits included (decision on
    /// consume and the loopback).
    fn take_data(&mut self, packet: &Packet, octets: &[u8]) -> Taken {
        let Some(open) = self.connection_mut(packet.id) else {
            return Taken::dropped();
        };
        open.store.push_back(octets.to_vec());
        Taken::default()
    }

    fn take_command(&mut self, packet: &Packet) -> Taken {
        match self.control_run.join(packet) {
            Joined::Partly => Taken::default(),
            Joined::Dropped => Taken::dropped(),
            Joined::Whole(payload) => {
                Taken { drop: false, answers: self.answer(packet.id, packet.oid, &payload) }
            }
        }
    }

    // Answers to commands.

    /// The response, and the notification that follows it if there is one. In
    /// order: unknown, too short, wrong state, values.
    fn answer(&mut self, gid: u8, oid: u8, payload: &[u8]) -> Vec<Vec<u8>> {
        let answered = match Command::read(gid, oid, payload) {
            Err(status) => Err(status),
            Ok(command) => self.obey(command),
        };
        answered.unwrap_or_else(|status| vec![write_status(gid, oid, status)])
    }

    fn obey(&mut self, command: Command) -> Result<Vec<Vec<u8>>, u8> {
        match command {
            Command::Reset { reset_type } => self.reset(reset_type),
            Command::Init => self.init(),
            _ if self.phase != Phase::Initialised => Err(STATUS_SEMANTIC_ERROR),
            Command::SetConfig { settings } => self.set_config(&settings),
            Command::GetConfig { ids } => self.get_config(ids),
            Command::ConnCreate { destination, parameters } => self.conn_create(destination, parameters),
            Command::ConnClose { conn } => self.conn_close(conn),
            Command::Discover { entries } => self.discover(entries),
            Command::Select { pair, interface } => self.select(pair, interface),
            Command::Deactivate { deactivation_type } => self.deactivate(deactivation_type),
        }
    }

    /// Taken in every state; a type over 1 changes nothing.
    fn reset(&mut self, reset_type: u8) -> Result<Vec<Vec<u8>>, u8> {
        if reset_type > 1 {
            return Err(STATUS_SYNTAX_ERROR);
        }
        for conn in CONN_IDS {
            self.close(conn);
        }
        self.enter_idle();
        if reset_type == RESET_CONFIGURATION {
            self.config = Values::defaults();
        }
        self.phase = Phase::Reset;
        self.last_given = LAST_DYNAMIC;
        Ok(vec![write_status(CORE, CORE_RESET, STATUS_OK), write_reset_ntf(reset_type)])
    }

    fn init(&mut self) -> Result<Vec<Vec<u8>>, u8> {
        if self.phase != Phase::Reset {
            return Err(STATUS_SEMANTIC_ERROR);
        }
        self.phase = Phase::Initialised;
        Ok(vec![write_init_rsp(self.profile.control_payload)])
    }

    /// Parameters of the discovery are set in IDLE alone (003, 5.2.1): a set that names one
    /// elsewhere sets nothing. Those that are not invalid are set, in the order given.
    fn set_config(&mut self, settings: &[Setting]) -> Result<Vec<Vec<u8>>, u8> {
        if self.rf != Rf::Idle && settings.iter().any(|(id, _)| config::is_known(*id)) {
            return Err(STATUS_SEMANTIC_ERROR);
        }
        let mut invalid = Vec::new();
        for (id, value) in settings {
            if !self.config.set(*id, value) {
                invalid.push(*id);
            }
        }
        Ok(vec![write_set_config_rsp(&invalid)])
    }

    /// The values asked for, or, where some are unknown, those alone. Decision on get responses
    /// that would be too long: of either kind there is the status alone.
    fn get_config(&self, ids: &[u8]) -> Result<Vec<Vec<u8>>, u8> {
        let values: Option<Vec<Setting>> = ids.iter().map(|id| Some((*id, self.config.of(*id)?))).collect();
        let response = match values {
            Some(values) => write_get_config_rsp(STATUS_OK, &values),
            None => {
                let unknown = ids.iter().filter(|id| !config::is_known(**id));
                let unknown: Vec<Setting> = unknown.map(|id| (*id, &[][..])).collect();
                write_get_config_rsp(STATUS_INVALID_PARAM, &unknown)
            }
        };
        Ok(vec![response.ok_or(STATUS_MESSAGE_SIZE_EXCEEDED)?])
    }

    /// Decision on CONN_CREATE: any content other than 01 00 is rejected. A
    /// refused create does not move the next Conn ID on.
    fn conn_create(&mut self, destination: u8, parameters: u8) -> Result<Vec<Vec<u8>>, u8> {
        if (destination, parameters) != (1, 0) {
            return Err(STATUS_REJECTED);
        }
        let conn = self.next_conn_id().ok_or(STATUS_REJECTED)?;
        self.last_given = conn;
        self.open(conn);
        Ok(vec![write_create_rsp(self.profile.terms_of(conn), conn)])
    }

    /// The next after the last given, round 2-5, passing open ones; none with
    /// four open.
    fn next_conn_id(&self) -> Option<u8> {
        let mut conn = self.last_given;
        for _ in FIRST_DYNAMIC..=LAST_DYNAMIC {
            conn = dynamic_after(conn);
            if self.connection(conn).is_none() {
                return Some(conn);
            }
        }
        None
    }

    fn conn_close(&mut self, conn: u8) -> Result<Vec<Vec<u8>>, u8> {
        if !is_dynamic(conn) || self.connection(conn).is_none() {
            return Err(STATUS_REJECTED);
        }
        self.close(conn);
        Ok(vec![write_status(CORE, CORE_CONN_CLOSE, STATUS_OK)])
    }

    fn discover(&mut self, entries: &[u8]) -> Result<Vec<Vec<u8>>, u8> {
        if self.rf != Rf::Idle {
            return Err(DISCOVERY_ALREADY_STARTED);
        }
        if !discover_entries_fit(entries) {
            return Err(STATUS_REJECTED);
        }
        self.rf = Rf::Discovery;
        Ok(vec![write_status(RF, RF_DISCOVER, STATUS_OK)])
    }

    /// A later accepted selection replaces the earlier; a rejected one keeps it.
    fn select(&mut self, pair: Pair, interface: u8) -> Result<Vec<Vec<u8>>, u8> {
        let Rf::W4HostSelect(_) = self.rf else {
            return Err(STATUS_SEMANTIC_ERROR);
        };
        if !self.pairs.contains(&pair) || interface != FRAME_INTERFACE {
            return Err(STATUS_REJECTED);
        }
        self.rf = Rf::W4HostSelect(Some(pair));
        Ok(vec![write_status(RF, RF_DISCOVER_SELECT, STATUS_OK)])
    }

    fn deactivate(&mut self, deactivation_type: u8) -> Result<Vec<Vec<u8>>, u8> {
        match self.rf {
            Rf::Idle => Err(STATUS_SEMANTIC_ERROR),
            // Decision on DISCOVERY: 003 (5.2.2) ignores the type there as it
            // does in both waiting states (5.2.3, 5.2.4).
            Rf::Discovery | Rf::W4AllDiscoveries | Rf::W4HostSelect(_) => Ok(self.stop_discovery()),
            _ if deactivation_type > DEACTIVATE_DISCOVERY => Err(STATUS_SYNTAX_ERROR),
            Rf::ListenSleep if deactivation_type == DEACTIVATE_IDLE => Ok(self.stop_discovery()),
            Rf::ListenSleep => Err(STATUS_SEMANTIC_ERROR),
            Rf::PollActive(_) => Ok(self.end_activation(deactivation_type, Rf::W4HostSelect(None))),
            Rf::ListenActive(activation) if sleep_not_allowed(activation.mode, deactivation_type) => {
                Err(STATUS_REJECTED)
            }
            Rf::ListenActive(_) => Ok(self.end_activation(deactivation_type, Rf::ListenSleep)),
        }
    }

    /// Without an activation there is no notification to follow the response.
    fn stop_discovery(&mut self) -> Vec<Vec<u8>> {
        self.enter_idle();
        vec![write_status(RF, RF_DEACTIVATE, STATUS_OK)]
    }

    fn end_activation(&mut self, deactivation_type: u8, asleep: Rf) -> Vec<Vec<u8>> {
        self.close(STATIC_RF);
        match deactivation_type {
            DEACTIVATE_IDLE => self.enter_idle(),
            DEACTIVATE_DISCOVERY => self.rf = Rf::Discovery,
            _ => self.rf = asleep,
        }
        vec![
            write_status(RF, RF_DEACTIVATE, STATUS_OK),
            write_deactivate_ntf(deactivation_type, REASON_DH_REQUEST),
        ]
    }

    // The calls consume and credit.

    /// Takes the oldest stored packet into reassembly; on a loopback it also goes
    /// up, octet for octet but for the credits that it now carries. A stored packet
    /// that the reader drops counts as consumed and adds nothing to reassembly
    /// (decision on stored packets).
    pub fn consume(&mut self, conn: u8) -> Option<Consumed> {
        let open = self.connection_mut(conn)?;
        let mut octets = open.store.pop_front()?;
        if open.flow_controlled() {
            open.owed = open.owed.wrapping_add(1);
        }
        let joined = match packet::read(&octets) {
            Reading::Packet(packet) => open.run.join(packet.payload, packet.more),
            Reading::Drop => Joined::Dropped,
        };
        if is_dynamic(conn) {
            packet::set_credits(&mut octets, open.carry());
        }
        Some(Consumed {
            drop: joined == Joined::Dropped,
            message: match joined {
                Joined::Whole(message) => Some(message),
                _ => None,
            },
            returned: is_dynamic(conn).then_some(octets),
        })
    }

    pub fn owes_credits(&self) -> bool {
        self.connections.iter().flatten().any(|open| open.owed() > 0)
    }

    /// One notice of all that is owed, Conn IDs ascending. Where nothing is owed
    /// the count stays as it is.
    pub fn give_credits(&mut self) -> Vec<u8> {
        let mut entries = Vec::new();
        for (conn, open) in CONN_IDS.iter().zip(&mut self.connections) {
            if let Some(open) = open.as_mut().filter(|open| open.owed() > 0) {
                entries.push((*conn, open.owed()));
                open.owed = 0;
            }
        }
        write_credits_ntf(&entries)
    }

    // The calls air and reply.

    /// Refusal 11 is the contrary: whether this state takes the event.
    pub fn takes_event(&self, event: &AirEvent) -> bool {
        match event {
            AirEvent::Found { endpoint, notification_type } => {
                let pair = Pair { id: endpoint.id, protocol: endpoint.protocol };
                self.takes_found(pair, *notification_type == FOUND_MORE)
            }
            AirEvent::PollActivation(endpoint) => match self.rf {
                Rf::Discovery => true,
                Rf::W4HostSelect(selection) => {
                    selection == Some(Pair { id: endpoint.id, protocol: endpoint.protocol })
                }
                _ => false,
            },
            AirEvent::ListenActivation(_) => matches!(self.rf, Rf::Discovery | Rf::ListenSleep),
            AirEvent::TargetFailed => matches!(self.rf, Rf::W4HostSelect(Some(_))),
            AirEvent::EndpointSleeps | AirEvent::EndpointReleases => matches!(self.rf, Rf::ListenActive(_)),
            AirEvent::LinkLost => matches!(self.rf, Rf::ListenActive(_) | Rf::ListenSleep),
            AirEvent::EndpointMessage(_) => matches!(self.rf, Rf::PollActive(_) | Rf::ListenActive(_)),
        }
    }

    /// DISCOVERY takes "more follow" only and starts a new list. In
    /// W4_ALL_DISCOVERIES a repeated pair, or an eighth with more to follow, is
    /// not taken, and a ninth has no place (decision on a list that is full).
    fn takes_found(&self, pair: Pair, more: bool) -> bool {
        match self.rf {
            Rf::Discovery => more,
            Rf::W4AllDiscoveries => {
                let full = self.pairs.len() >= MOST_PAIRS;
                let eighth = self.pairs.len() + 1 >= MOST_PAIRS;
                !(self.pairs.contains(&pair) || full || eighth && more)
            }
            _ => false,
        }
    }

    /// An event that this state takes; the notification goes up.
    pub fn happen(&mut self, event: AirEvent) -> Option<Vec<u8>> {
        match event {
            AirEvent::Found { endpoint, notification_type } => Some(self.found(&endpoint, notification_type)),
            AirEvent::PollActivation(endpoint) => Some(self.poll_activation(&endpoint)),
            AirEvent::ListenActivation(endpoint) => Some(self.activation(&endpoint, Rf::ListenActive)),
            AirEvent::TargetFailed => Some(self.target_failed()),
            AirEvent::EndpointSleeps => {
                Some(self.deactivation(Rf::ListenSleep, DEACTIVATE_SLEEP, REASON_ENDPOINT_REQUEST))
            }
            AirEvent::LinkLost => {
                Some(self.deactivation(Rf::Discovery, DEACTIVATE_DISCOVERY, REASON_RF_LINK_LOSS))
            }
            AirEvent::EndpointReleases => {
                Some(self.deactivation(Rf::Discovery, DEACTIVATE_DISCOVERY, REASON_ENDPOINT_REQUEST))
            }
            AirEvent::EndpointMessage(message) => {
                self.endpoint_message = Some(InHand::new(message.to_vec()));
                None
            }
        }
    }

    fn found(&mut self, endpoint: &Endpoint, notification_type: u8) -> Vec<u8> {
        if self.rf == Rf::Discovery {
            self.pairs.clear();
        }
        self.pairs.push(Pair { id: endpoint.id, protocol: endpoint.protocol });
        self.rf = if notification_type == FOUND_MORE { Rf::W4AllDiscoveries } else { Rf::W4HostSelect(None) };
        write_discover_ntf(endpoint, notification_type)
    }

    /// From DISCOVERY the list becomes that one pair; from W4_HOST_SELECT it
    /// stays as it is.
    fn poll_activation(&mut self, endpoint: &Endpoint) -> Vec<u8> {
        if self.rf == Rf::Discovery {
            self.pairs = vec![Pair { id: endpoint.id, protocol: endpoint.protocol }];
        }
        self.activation(endpoint, Rf::PollActive)
    }

    fn activation(&mut self, endpoint: &Endpoint, active: fn(Activation) -> Rf) -> Vec<u8> {
        self.rf = active(Activation { id: endpoint.id, protocol: endpoint.protocol, mode: endpoint.mode });
        self.open(STATIC_RF);
        write_activated_ntf(endpoint, self.profile.terms_of(STATIC_RF))
    }

    fn target_failed(&mut self) -> Vec<u8> {
        self.rf = Rf::W4HostSelect(None);
        write_generic_error_ntf()
    }

    fn deactivation(&mut self, next: Rf, deactivation_type: u8, reason: u8) -> Vec<u8> {
        self.close(STATIC_RF);
        self.rf = next;
        write_deactivate_ntf(deactivation_type, reason)
    }

    /// The next segment of the endpoint's message, on connection 0, with credits of
    /// those owed there.
    pub fn reply(&mut self) -> Option<Vec<u8>> {
        let segment = self.endpoint_message.as_mut()?.cut(MOST_PAYLOAD);
        if !segment.more {
            self.endpoint_message = None;
        }
        let credits = self.connection_mut(STATIC_RF).map_or(0, Connection::carry);
        Some(packet::write_data(STATIC_RF, credits, &segment))
    }

    // For tests: what no list of calls makes.

    /// Stores any octets for an open connection.
    pub fn forge_stored(&mut self, conn: u8, octets: Vec<u8>) {
        let open = self.connection_mut(conn).expect("the connection is open");
        open.store.push_back(octets);
    }

    /// Opens a connection with any grant and any count of credits owed.
    pub fn forge_owing(&mut self, conn: u8, terms: Terms, owed: u8) {
        let place = place_of(conn).expect("the controller opens 0 and 2-5");
        self.connections[place] = Some(Connection { owed, ..Connection::opened(terms) });
    }

    /// Puts a message of the endpoint in hand in any state.
    pub fn forge_endpoint_message(&mut self, message: InHand) {
        self.endpoint_message = Some(message);
    }
}

/// Decision on LISTEN_ACTIVE (003, 8.2.4.3): with the Frame interface NFC-F has
/// no Sleep and NFC-B no Sleep_AF.
fn sleep_not_allowed(mode: u8, deactivation_type: u8) -> bool {
    matches!(
        (mode, deactivation_type),
        (MODE_LISTEN_F, DEACTIVATE_SLEEP) | (MODE_LISTEN_B, DEACTIVATE_SLEEP_AF)
    )
}

/// At most eight pairs of a known mode and a frequency 01-0A, which for listen
/// modes is 01.
fn discover_entries_fit(entries: &[u8]) -> bool {
    let entry_fits = |entry: &[u8]| {
        let (mode, frequency) = (entry[0], entry[1]);
        (is_poll_mode(mode) && (1..=10).contains(&frequency)) || (is_listen_mode(mode) && frequency == 1)
    };
    entries.len() / 2 <= MOST_DISCOVER_ENTRIES && entries.chunks_exact(2).all(entry_fits)
}

/// A command known here and long enough; trailing octets are ignored.
enum Command<'a> {
    Reset {
        reset_type: u8,
    },
    Init,
    SetConfig {
        settings: Vec<Setting<'a>>,
    },
    GetConfig {
        ids: &'a [u8],
    },
    ConnCreate {
        destination: u8,
        parameters: u8,
    },
    ConnClose {
        conn: u8,
    },
    /// Pairs of mode and frequency.
    Discover {
        entries: &'a [u8],
    },
    Select {
        pair: Pair,
        interface: u8,
    },
    Deactivate {
        deactivation_type: u8,
    },
}

impl<'a> Command<'a> {
    /// An unknown GID or OID and a payload too short have the same status.
    fn read(gid: u8, oid: u8, payload: &'a [u8]) -> Result<Command<'a>, u8> {
        let command = match (gid, oid, payload) {
            (CORE, CORE_RESET, [reset_type, ..]) => Command::Reset { reset_type: *reset_type },
            (CORE, CORE_INIT, [_, _, ..]) => Command::Init,
            (CORE, CORE_SET_CONFIG, list) => {
                Command::SetConfig { settings: read_settings(list).ok_or(STATUS_SYNTAX_ERROR)?.0 }
            }
            (CORE, CORE_GET_CONFIG, list) => {
                Command::GetConfig { ids: read_ids(list).ok_or(STATUS_SYNTAX_ERROR)? }
            }
            (CORE, CORE_CONN_CREATE, [destination, parameters, ..]) => {
                Command::ConnCreate { destination: *destination, parameters: *parameters }
            }
            (CORE, CORE_CONN_CLOSE, [conn, ..]) => Command::ConnClose { conn: conn & 0x0F },
            (RF, RF_DISCOVER, [count, entries @ ..]) => Command::Discover {
                entries: entries.get(..2 * usize::from(*count)).ok_or(STATUS_SYNTAX_ERROR)?,
            },
            (RF, RF_DISCOVER_SELECT, [id, protocol, interface, ..]) => {
                Command::Select { pair: Pair { id: *id, protocol: *protocol }, interface: *interface }
            }
            (RF, RF_DEACTIVATE, [deactivation_type, ..]) => {
                Command::Deactivate { deactivation_type: *deactivation_type }
            }
            _ => return Err(STATUS_SYNTAX_ERROR),
        };
        Ok(command)
    }
}
