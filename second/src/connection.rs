//! The five connections: 0 (static RF) and the dynamic ones 2-5.

/// Conn IDs in ascending order; a connection's place is its index here.
pub const CONN_IDS: [u8; 5] = [0, 2, 3, 4, 5];
/// Static RF connection.
pub const STATIC_RF: u8 = 0;
/// The first and last Conn ID that CONN_CREATE gives.
pub const FIRST_DYNAMIC: u8 = 2;
pub const LAST_DYNAMIC: u8 = 5;

/// Where a connection's numbers are kept, or none for another Conn ID.
pub fn place_of(conn: u8) -> Option<usize> {
    CONN_IDS.iter().position(|id| *id == conn)
}

pub fn is_dynamic(conn: u8) -> bool {
    (FIRST_DYNAMIC..=LAST_DYNAMIC).contains(&conn)
}

/// The next dynamic Conn ID, round 2-5.
pub fn dynamic_after(conn: u8) -> u8 {
    if conn == LAST_DYNAMIC {
        FIRST_DYNAMIC
    } else {
        conn + 1
    }
}
