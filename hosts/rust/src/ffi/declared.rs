//! The declarations of `krl.h`. Only tests compare the two: the layouts by a C compiler, and the calls
//! by running them.
use crate::model::row::Row;
use std::ffi::c_void;

#[repr(C)]
pub struct Handle {
    pub is_open: bool,
    pub at: *mut c_void,
}

#[repr(C)]
pub struct Reader {
    pub is_open: bool,
    pub at: *const c_void,
}

#[repr(C)]
#[derive(Clone, Copy, Debug)]
pub struct Reply {
    pub code: u32,
    pub detail: u64,
}

#[repr(C)]
#[derive(Clone, Copy, Debug)]
pub struct RawRecord {
    pub client: u64,
    pub incarnation: u64,
    pub last: u64,
    pub outcome: u32,
    pub left: u32,
}

#[repr(C)]
#[derive(Clone, Copy, Debug)]
pub struct RawRecorded {
    pub reply: Reply,
    pub record: RawRecord,
}

#[repr(C)]
#[derive(Clone, Copy, Debug)]
pub struct RawChange {
    pub kind: u32,
    pub outcome: u32,
    pub client: u64,
    pub number: u64,
    pub write: u64,
    pub row: Row,
}

#[repr(C)]
#[derive(Clone, Copy, Debug)]
pub struct Stepped {
    pub reply: Reply,
    pub change: RawChange,
}

#[repr(C)]
#[derive(Clone, Copy, Debug)]
pub struct ClientState {
    pub reply: Reply,
    pub epoch: u64,
    pub seen: u64,
    pub lock: u32,
    pub write: u32,
    pub number: u64,
    pub outcome: u64,
}

#[repr(C)]
#[derive(Clone, Copy, Debug)]
pub struct Held {
    pub reply: Reply,
    pub range: u32,
    pub key: u32,
}

#[repr(C)]
#[derive(Clone, Copy, Debug)]
pub struct ServerState {
    pub reply: Reply,
    pub epoch: u64,
    pub phase: u64,
}

#[repr(C)]
#[derive(Clone, Copy, Debug)]
pub struct RawWaiting {
    pub reply: Reply,
    pub request: u64,
    pub point: u64,
    pub hi: u64,
    pub mode: u32,
    pub waits: u32,
}

#[repr(C)]
#[derive(Clone, Copy, Debug)]
pub struct RawHeldSlot {
    pub reply: Reply,
    pub lo: u64,
    pub hi: u64,
    pub mode: u32,
    pub holds: u32,
}

#[repr(C)]
#[derive(Clone, Copy, Debug)]
pub struct RawPage {
    pub reply: Reply,
    pub next: u64,
    pub after: u64,
}

#[repr(C)]
#[derive(Clone, Copy, Debug, PartialEq, Eq)]
pub struct Lease {
    pub end: u64,
    pub length: u64,
    pub stamp: u64,
}

/// Only the library reads and writes it.
#[repr(C)]
#[derive(Debug)]
pub struct LeasedScan {
    found: Reply,
    waits: u32,
}

#[repr(C)]
#[derive(Clone, Copy, Debug, PartialEq, Eq)]
pub struct Terms {
    pub length: u64,
    pub drift: u32,
}

#[repr(C)]
#[derive(Clone, Copy, Debug)]
pub struct RawSign {
    pub incarnation: u64,
    pub stamp: u64,
    pub length: u64,
    pub over: u64,
    pub is_vouched: u32,
}

#[repr(C)]
#[derive(Clone, Copy, Debug)]
pub struct StoredLease {
    pub incarnation: u64,
    pub has_left: u32,
    pub is_unleased: u32,
}

#[repr(C)]
#[derive(Clone, Copy, Debug)]
pub struct RawGrant {
    pub reply: Reply,
    pub incarnation: u64,
    pub stamp: u64,
    pub length: u64,
    pub is_there: u32,
}

#[repr(C)]
#[derive(Clone, Copy, Debug)]
pub struct LeaseShown {
    pub reply: Reply,
    pub registered: u64,
    pub end: u64,
    pub signer: u64,
    pub longest: u64,
    pub is_present: u32,
    pub is_unleased: u32,
}

/// Only the library reads and writes it.
#[repr(C)]
#[derive(Clone, Copy, Debug)]
pub struct LeaseTable {
    words: [u64; 582],
}

#[repr(C)]
#[derive(Clone, Copy, Debug)]
pub struct RawPart {
    pub shard: u64,
    pub lo: u64,
    pub hi: u64,
}

unsafe extern "C" {
    pub fn krl_client_open(handle: *mut Handle, number: u64, incarnation: u64) -> Reply;
    pub fn krl_client_step(handle: *mut Handle, bytes: *const u8, length: usize) -> Reply;
    pub fn krl_client_tick(handle: *mut Handle) -> Reply;
    pub fn krl_client_lock(handle: *mut Handle, point: u64, hi: u64, mode: u32) -> Reply;
    pub fn krl_client_insert(
        handle: *mut Handle,
        key: u64,
        bytes: *const u8,
        length: usize,
    ) -> Reply;
    pub fn krl_client_put(handle: *mut Handle, key: u64, bytes: *const u8, length: usize) -> Reply;
    pub fn krl_client_delete(handle: *mut Handle, key: u64) -> Reply;
    pub fn krl_client_take_insert(
        handle: *mut Handle,
        key: u64,
        bytes: *const u8,
        length: usize,
    ) -> Reply;
    pub fn krl_client_take_put(
        handle: *mut Handle,
        key: u64,
        bytes: *const u8,
        length: usize,
    ) -> Reply;
    pub fn krl_client_forget(handle: *mut Handle, lo: u64, hi: u64) -> Reply;
    pub fn krl_client_lower(handle: *mut Handle, lo: u64, hi: u64, keep: u32) -> Reply;
    pub fn krl_client_pin(handle: *mut Handle, lo: u64, hi: u64) -> Reply;
    pub fn krl_client_unpin(handle: *mut Handle, pin: u64) -> Reply;
    pub fn krl_client_leave(handle: *mut Handle) -> Reply;

    pub fn krl_reader_scan_leased(
        reader: *mut Reader,
        lo: u64,
        hi: u64,
        rows: *mut Row,
        room: usize,
    ) -> LeasedScan;
    pub fn krl_reader_held(reader: *mut Reader, point: u64) -> Held;
    pub fn krl_reader_status(reader: *mut Reader) -> ClientState;

    pub fn krl_server_open(
        handle: *mut Handle,
        room: usize,
        reach: usize,
        epoch: u64,
        entries: *const Row,
        entries_length: usize,
        records: *const RawRecord,
        records_length: usize,
    ) -> Reply;
    pub fn krl_server_step(handle: *mut Handle, bytes: *const u8, length: usize) -> Stepped;
    pub fn krl_server_nudge(handle: *mut Handle, client: u64) -> Reply;
    pub fn krl_server_status(handle: *mut Handle) -> ServerState;
    pub fn krl_server_missing(handle: *mut Handle, clients: *mut u64, room: usize) -> Reply;
    pub fn krl_server_record(handle: *mut Handle, client: u64) -> RawRecorded;
    pub fn krl_server_waiter(handle: *mut Handle, client: u64) -> RawWaiting;
    pub fn krl_server_waited_for(
        handle: *mut Handle,
        client: u64,
        clients: *mut u64,
        room: usize,
    ) -> Reply;
    pub fn krl_server_held(handle: *mut Handle, client: u64) -> Reply;
    pub fn krl_server_next_held(handle: *mut Handle, client: u64, from: u64) -> RawHeldSlot;
    pub fn krl_server_may_read(handle: *mut Handle, client: u64, lo: u64, hi: u64) -> Reply;
    pub fn krl_server_rows(
        handle: *mut Handle,
        lo: u64,
        hi: u64,
        rows: *mut Row,
        room: usize,
    ) -> RawPage;

    pub safe fn krl_lease_new() -> Lease;
    pub safe fn krl_lease_take_terms(lease: &mut Lease, stamp: u64, length: u64, now: u64);
    pub safe fn krl_lease_holds(lease: &Lease, now: u64) -> bool;
    pub safe fn krl_leased_scan_answer(scan: &mut LeasedScan, lease: &Lease, now: u64) -> Reply;
    pub safe fn krl_lease_table_new(terms: &Terms, longest: u64) -> LeaseTable;
    pub safe fn krl_lease_table_store_has(
        table: &mut LeaseTable,
        client: u64,
        stored: &StoredLease,
    ) -> Reply;
    pub safe fn krl_lease_table_shows(table: &LeaseTable, client: u64) -> LeaseShown;
    pub safe fn krl_lease_table_commit(table: &mut LeaseTable) -> Reply;
    pub safe fn krl_lease_table_committed(table: &mut LeaseTable, commit: u64) -> Reply;
    pub safe fn krl_lease_table_open(table: &mut LeaseTable, now: u64) -> Reply;
    pub safe fn krl_lease_table_sign(
        table: &mut LeaseTable,
        client: u64,
        sign: &RawSign,
        now: u64,
    ) -> Reply;
    pub safe fn krl_lease_table_take_terms(table: &mut LeaseTable, client: u64) -> RawGrant;
    pub safe fn krl_lease_table_admit(
        table: &mut LeaseTable,
        client: u64,
        incarnation: u64,
        now: u64,
    ) -> Reply;
    pub safe fn krl_lease_table_register(
        table: &mut LeaseTable,
        client: u64,
        incarnation: u64,
        now: u64,
    ) -> Reply;
    pub safe fn krl_lease_table_leave(table: &mut LeaseTable, client: u64) -> Reply;
    pub safe fn krl_lease_table_evict(table: &mut LeaseTable, client: u64, now: u64) -> Reply;
    pub safe fn krl_lease_table_succeed(
        table: &mut LeaseTable,
        client: u64,
        incarnation: u64,
    ) -> Reply;
    pub safe fn krl_lease_table_revise(table: &mut LeaseTable, now: u64) -> Reply;

    pub fn krl_shard_of(bounds: *const u64, bounds_length: usize, point: u64) -> Reply;
    pub fn krl_parts(
        bounds: *const u64,
        bounds_length: usize,
        lo: u64,
        hi: u64,
        parts: *mut RawPart,
        room: usize,
    ) -> Reply;

    #[cfg(test)]
    pub safe fn krl_version() -> u32;

    pub fn krl_confirm(handle: *mut Handle, count: u64) -> Reply;
    pub fn krl_take(handle: *mut Handle, bytes: *mut u8, room: usize) -> Reply;
    pub fn krl_close(handle: *mut Handle);
}

#[cfg(test)]
mod tests {
    use super::*;
    use krl_testing::header::compiles;
    use krl_testing::layout;
    use std::fmt::Write;
    use std::mem::offset_of;

    #[test]
    fn the_library_has_the_version_of_this_crate() {
        let parts = env!("CARGO_PKG_VERSION").split('.').map(|part| part.parse::<u32>().unwrap());
        assert_eq!(krl_version(), parts.fold(0, |version, part| version * 1000 + part));
    }

    /// Each struct is laid out as a C compiler lays that of `krl.h` out.
    #[test]
    fn layouts() {
        let header = concat!(env!("CARGO_MANIFEST_DIR"), "/../../crates/krl_embed/krl.h");
        let mut program = format!("#include \"{header}\"\n");
        layout!(program, Handle, "krl_handle", is_open at);
        layout!(program, Reader, "krl_reader", is_open at);
        layout!(program, Reply, "krl_reply", code detail);
        layout!(program, Row, "krl_row", key);
        let length = offset_of!(Row, value);
        for (field, at) in [("length", length), ("bytes", length + size_of::<u64>())] {
            let is_there = format!("offsetof(krl_row, {field}) == {at}");
            writeln!(program, "_Static_assert({is_there}, \"{field}\");").unwrap();
        }
        layout!(program, RawRecord, "krl_record", client incarnation last outcome left);
        layout!(program, RawRecorded, "krl_recorded", reply record);
        layout!(program, RawChange, "krl_change", kind outcome client number write row);
        layout!(program, Stepped, "krl_stepped", reply change);
        layout!(program, ClientState, "krl_client_state", reply epoch seen lock write number
            outcome);
        layout!(program, Held, "krl_held", reply range key);
        layout!(program, ServerState, "krl_server_state", reply epoch phase);
        layout!(program, RawWaiting, "krl_waiting", reply request point hi mode waits);
        layout!(program, RawHeldSlot, "krl_held_slot", reply lo hi mode holds);
        layout!(program, RawPage, "krl_page", reply next after);
        layout!(program, Lease, "krl_lease", end length stamp);
        layout!(program, LeasedScan, "krl_leased_scan", found waits);
        layout!(program, Terms, "krl_terms", length drift);
        layout!(program, RawSign, "krl_sign", incarnation stamp length over is_vouched);
        layout!(program, StoredLease, "krl_stored_lease", incarnation has_left is_unleased);
        layout!(program, RawGrant, "krl_grant", reply incarnation stamp length is_there);
        layout!(program, LeaseShown, "krl_lease_shown", reply registered end signer longest
            is_present is_unleased);
        layout!(program, LeaseTable, "krl_lease_table",);
        layout!(program, RawPart, "krl_part", shard lo hi);
        assert!(compiles(&program, true));
        layout!(program, Terms, "krl_sign",);
        assert!(!compiles(&program, false));
    }
}
