//! What is going on on a bench, in the 27 octets that `nci_state` of the C interface hands
//! out, from this bench's own structures.

use crate::bench::Bench;
use crate::connection::CONN_IDS;
use crate::controller::{Phase, Rf};
use crate::host::Unanswered;

/// Octets in all.
pub const SIZE: usize = 27;
/// What the host keeps as the connection named by a command that has no payload.
const NONE_NAMED: u8 = 1;

/// The controller's phase, the RF state, the unanswered command, packets on the wires, the
/// endpoint's message, and each connection.
pub fn octets(bench: &Bench) -> Vec<u8> {
    let mut octets = vec![phase(bench.controller.phase)];
    octets.extend(rf(bench.controller.rf));
    octets.extend(unanswered(bench.host.unanswered));
    octets.extend([bench.down_wire.len() as u8, bench.up_wire.len() as u8]);
    octets.push(u8::from(bench.controller.endpoint_message_in_hand()));
    octets.extend(CONN_IDS.into_iter().flat_map(|conn| connection(bench, conn)));
    octets
}

fn phase(phase: Phase) -> u8 {
    match phase {
        Phase::Cold => 0,
        Phase::Reset => 1,
        Phase::Initialised => 2,
    }
}

fn rf(rf: Rf) -> [u8; 4] {
    match rf {
        Rf::Idle => [0; 4],
        Rf::Discovery => [1, 0, 0, 0],
        Rf::W4AllDiscoveries => [2, 0, 0, 0],
        Rf::W4HostSelect(None) => [3, 0, 0, 0],
        Rf::W4HostSelect(Some(pair)) => [3, 1, pair.id, pair.protocol],
        Rf::PollActive(active) => [4, active.id, active.protocol, active.mode],
        Rf::ListenActive(active) => [5, active.id, active.protocol, active.mode],
        Rf::ListenSleep => [6, 0, 0, 0],
    }
}

fn unanswered(command: Option<Unanswered>) -> [u8; 4] {
    command.map_or([0; 4], |asked| [1, asked.gid, asked.oid, asked.named.unwrap_or(NONE_NAMED)])
}

/// Open at the host, open at the controller, a message in hand at the host.
fn connection(bench: &Bench, conn: u8) -> [u8; 3] {
    let at_host = bench.host.connection(conn);
    let in_hand = at_host.is_some_and(|open| open.has_message_in_hand());
    [at_host.is_some(), bench.controller.connection(conn).is_some(), in_hand].map(u8::from)
}
