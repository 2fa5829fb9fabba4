use super::*;
use crate::proved::client_handle::ClientHandle;
use crate::wire::frames::split;

/// A server without rows, and its epoch.
fn open() -> (ServerHandle, u64) {
    ServerHandle::open(&Snapshot::default(), Room::default(), Reach::default()).unwrap()
}

/// A server without rows whose epoch is kept.
fn started() -> ServerHandle {
    let (mut server, epoch) = open();
    server.confirm(&[Change::Started { epoch }]).unwrap();
    server
}

/// The first message of a client.
fn hello(client: u8) -> Vec<u8> {
    let mut frames = Vec::new();
    ClientHandle::open(client, 1).unwrap().take(&mut frames).unwrap();
    split(&frames).next().unwrap().0.to_vec()
}

fn register(server: &mut ServerHandle, client: u8) -> Change {
    let change = server.step(&hello(client)).unwrap().unwrap();
    assert_eq!(change, Change::Registered { client, incarnation: 1 });
    change
}

#[test]
fn messages_wait_for_the_start_and_for_each_change() {
    let (mut server, epoch) = open();
    assert_eq!(server.take(&mut Vec::new()), Ok(0), "nothing is sent");
    let change = register(&mut server, 0);
    assert_eq!(server.take(&mut Vec::new()), Err(Code::Unkept));
    server.confirm(&[Change::Started { epoch }, change]).unwrap();
    assert!(server.take(&mut Vec::new()).unwrap() > 0);
    assert_eq!(server.take(&mut Vec::new()), Ok(0), "it leaves once");
}

#[test]
fn a_change_that_gets_lost_before_the_commit_is_missed() {
    let mut server = started();
    register(&mut server, 0);
    let kept = register(&mut server, 1);
    assert_eq!(server.confirm(&[kept]), Err(Code::Unkept));
}

#[test]
fn a_change_that_was_not_reported_is_refused() {
    let mut server = started();
    let change = register(&mut server, 0);
    assert_eq!(server.confirm(&[change, change]), Err(Code::NotReported));
}

#[test]
fn rows_are_not_shown_before_what_they_rest_on_is_confirmed() {
    let value = "a".try_into().unwrap();
    let rows = (0..5).map(|key| (10 * key, value)).collect();
    let snapshot = Snapshot { rows, ..Snapshot::default() };
    let (mut server, epoch) =
        ServerHandle::open(&snapshot, Room::default(), Reach::default()).unwrap();
    let read = |server: &mut ServerHandle, keys, most| {
        let mut room = vec![Row::default(); most];
        let (rows, next) = server.rows(keys, &mut room)?;
        Ok((next, rows.iter().map(|row| row.key).collect::<Vec<_>>()))
    };
    assert_eq!(read(&mut server, 0..9, 3), Err(Code::Unkept), "its epoch is not kept");
    server.confirm(&[Change::Started { epoch }]).unwrap();
    assert_eq!(read(&mut server, 5..41, 9), Ok((41, vec![10, 20, 30, 40])));
    assert_eq!(read(&mut server, 10..40, 2), Ok((30, vec![10, 20])), "30 is left out");
    assert_eq!(read(&mut server, 30..40, 2), Ok((40, vec![30])));
    assert_eq!(read(&mut server, 20..21, 1), Ok((21, vec![20])));
    assert_eq!(read(&mut server, 11..20, 0), Ok((20, vec![])));
    let (greater, smaller) = (9, 1);
    assert_eq!(read(&mut server, greater..smaller, 2), Ok((1, vec![])));
    let change = register(&mut server, 0);
    assert_eq!(read(&mut server, 0..9, 3), Err(Code::Unkept));
    server.confirm(&[change]).unwrap();
    assert_eq!(read(&mut server, 0..9, 3), Ok((9, vec![0])));
}

#[test]
fn a_hello_waits_for_its_incarnation() {
    let mut handle = Handle::closed();
    // SAFETY: the handle stays in its place, and `&mut` gives it to this call only.
    done(unsafe { ffi::krl_client_open(handle.raw(), 5, 1) }).unwrap();
    assert_eq!(handle.take(&mut Vec::new()), Err(Code::Unkept));
    assert_eq!(handle.confirm(2), Err(Code::NotReported));
    assert_eq!(handle.confirm(1), Ok(1));
    let mut frames = Vec::new();
    handle.take(&mut frames).unwrap();
    assert_eq!(split(&frames).count(), 1);
}
