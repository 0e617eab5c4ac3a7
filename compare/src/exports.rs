//! The exports of the proved bench, as `include/nci_bench.h` declares them.

use exam_bench::call::Call;

extern "C" {
    fn nci_fresh(area: *mut u8, n: usize, out: *mut u8, m: usize, profile: *const u8, k: usize) -> u64;
    fn nci_power(area: *mut u8, n: usize, out: *mut u8, m: usize) -> u64;
    fn nci_command(
        area: *mut u8,
        n: usize,
        out: *mut u8,
        m: usize,
        gid: u8,
        oid: u8,
        payload: *const u8,
        k: usize,
    ) -> u64;
    fn nci_send(
        area: *mut u8,
        n: usize,
        out: *mut u8,
        m: usize,
        conn: u8,
        message: *const u8,
        k: usize,
    ) -> u64;
    fn nci_push(area: *mut u8, n: usize, out: *mut u8, m: usize, conn: u8) -> u64;
    fn nci_down(area: *mut u8, n: usize, out: *mut u8, m: usize) -> u64;
    fn nci_consume(area: *mut u8, n: usize, out: *mut u8, m: usize, conn: u8) -> u64;
    fn nci_credit(area: *mut u8, n: usize, out: *mut u8, m: usize) -> u64;
    fn nci_air(area: *mut u8, n: usize, out: *mut u8, m: usize, event: *const u8, k: usize) -> u64;
    fn nci_reply(area: *mut u8, n: usize, out: *mut u8, m: usize) -> u64;
    fn nci_up(area: *mut u8, n: usize, out: *mut u8, m: usize) -> u64;
    fn nci_run(area: *mut u8, n: usize, out: *mut u8, m: usize) -> u64;
    fn nci_report(area: *mut u8, n: usize, out: *mut u8, m: usize, conn: u8) -> u64;
    fn nci_packet(area: *const u8, n: usize, out: *mut u8, m: usize, wire: u8, back: u8) -> u64;
    fn nci_state(area: *const u8, n: usize, out: *mut u8, m: usize) -> u64;
    fn nci_read(octets: *const u8, k: usize) -> u64;
}

/// The octets that a call takes besides numbers; none for most calls.
pub fn argument(call: &Call) -> &[u8] {
    match call {
        Call::Fresh(profile) => profile,
        Call::Command { payload, .. } => payload,
        Call::Send { message, .. } => message,
        Call::Air(event) => event,
        Call::Read(octets) => octets,
        _ => &[],
    }
}

/// Makes a call with these octets for its argument; read is lent nothing else. A slice of
/// no octets is lent as NULL, which the header allows.
pub fn play(area: &mut [u8], out: &mut [u8], call: &Call, argument: &[u8]) -> u64 {
    let (n, m, k) = (area.len(), out.len(), argument.len());
    let (area, out) = (lent_mut(area), lent_mut(out));
    let octets = if k == 0 { std::ptr::null() } else { argument.as_ptr() };
    // SAFETY: the pointers and lengths are those of slices, which do not overlap.
    unsafe {
        match call {
            Call::Fresh(_) => nci_fresh(area, n, out, m, octets, k),
            Call::Power => nci_power(area, n, out, m),
            Call::Command { gid, oid, .. } => nci_command(area, n, out, m, *gid, *oid, octets, k),
            Call::Send { conn, .. } => nci_send(area, n, out, m, *conn, octets, k),
            Call::Push(conn) => nci_push(area, n, out, m, *conn),
            Call::Down => nci_down(area, n, out, m),
            Call::Consume(conn) => nci_consume(area, n, out, m, *conn),
            Call::Credit => nci_credit(area, n, out, m),
            Call::Air(_) => nci_air(area, n, out, m, octets, k),
            Call::Reply => nci_reply(area, n, out, m),
            Call::Up => nci_up(area, n, out, m),
            Call::Report(conn) => nci_report(area, n, out, m, *conn),
            Call::Read(_) => nci_read(octets, k),
            Call::Run => nci_run(area, n, out, m),
        }
    }
}

/// Reads a packet that is on a wire.
pub fn packet(area: &[u8], out: &mut [u8], wire: u8, back: u8) -> u64 {
    let (n, m) = (area.len(), out.len());
    // SAFETY: the pointers and lengths are those of slices, which do not overlap.
    unsafe { nci_packet(lent(area), n, lent_mut(out), m, wire, back) }
}

/// Says what is going on.
pub fn state(area: &[u8], out: &mut [u8]) -> u64 {
    let (n, m) = (area.len(), out.len());
    // SAFETY: the pointers and lengths are those of slices, which do not overlap.
    unsafe { nci_state(lent(area), n, lent_mut(out), m) }
}

fn lent(octets: &[u8]) -> *const u8 {
    if octets.is_empty() {
        std::ptr::null()
    } else {
        octets.as_ptr()
    }
}

fn lent_mut(octets: &mut [u8]) -> *mut u8 {
    if octets.is_empty() {
        std::ptr::null_mut()
    } else {
        octets.as_mut_ptr()
    }
}
