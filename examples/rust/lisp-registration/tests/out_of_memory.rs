//! That no memory is a fault and that none is kept: this program's `malloc`, `realloc` and `free` count what the library takes
//! and refuse it, over those of the GNU C library. Rust's own memory goes around them.
#![cfg(all(target_os = "linux", target_env = "gnu"))]
#![allow(missing_docs)]

mod common;

use common::{
    accept, address, map_notify, map_register, notification, record, registration, CONFIGURATION,
    FIRST_NOTICE, ROUTER, ROUTER_ADDRESS, SECRET, SERVER_ADDRESSES,
};
use lisp_registration::router::{self, Due, Router, Seen, SendError};
use lisp_registration::server::{MapServer, NoticeError, Received, Refusal, StartError};
use lisp_registration::{write, write_into, EidPrefix, Error, Message, ReplyError, MESSAGE_ROOM};
use std::alloc::{GlobalAlloc, Layout};
use std::cell::Cell;
use std::ffi::c_void;
use std::ptr::null_mut;

extern "C" {
    fn __libc_malloc(size: usize) -> *mut c_void;
    fn __libc_memalign(alignment: usize, size: usize) -> *mut c_void;
    fn __libc_realloc(pointer: *mut c_void, size: usize) -> *mut c_void;
    fn __libc_free(pointer: *mut c_void);
}

/// What the calls of a thread come to.
#[derive(Clone, Copy)]
struct Calls {
    /// How many more calls get memory.
    granted: usize,
    /// How many were made.
    made: usize,
    /// How many pieces were taken and not given back.
    held: isize,
}

thread_local! {
    static CALLS: Cell<Calls> = const { Cell::new(Calls { granted: usize::MAX, made: 0, held: 0 }) };
}

/// Whether this call gets memory.
fn grants() -> bool {
    let calls = CALLS.get();
    let granted = calls.granted.saturating_sub(1);
    CALLS.set(Calls { granted, made: calls.made + 1, ..calls });
    calls.granted > 0
}

fn hold(pieces: isize) {
    let calls = CALLS.get();
    CALLS.set(Calls { held: calls.held + pieces, ..calls });
}

#[no_mangle]
extern "C" fn malloc(size: usize) -> *mut c_void {
    if !grants() {
        return null_mut();
    }
    hold(1);
    // SAFETY: any size may be asked for.
    unsafe { __libc_malloc(size) }
}

/// # Safety
///
/// As C has it: the pointer is null or to memory of this allocator.
#[no_mangle]
unsafe extern "C" fn realloc(pointer: *mut c_void, size: usize) -> *mut c_void {
    if !grants() {
        return null_mut();
    }
    hold(isize::from(pointer.is_null()));
    // SAFETY: the caller's pointer is of the same allocator.
    unsafe { __libc_realloc(pointer, size) }
}

/// # Safety
///
/// As C has it: the pointer is null or to memory of this allocator.
#[no_mangle]
unsafe extern "C" fn free(pointer: *mut c_void) {
    hold(-isize::from(!pointer.is_null()));
    // SAFETY: the caller's pointer is of the same allocator.
    unsafe { __libc_free(pointer) }
}

/// Rust's own memory, which is neither counted nor refused.
struct Uncounted;

// SAFETY: each function does as that of the C library, which keeps what the trait asks.
unsafe impl GlobalAlloc for Uncounted {
    unsafe fn alloc(&self, layout: Layout) -> *mut u8 {
        // SAFETY: alignments of layouts are powers of two.
        unsafe { __libc_memalign(layout.align().max(16), layout.size()).cast() }
    }

    unsafe fn dealloc(&self, pointer: *mut u8, _layout: Layout) {
        // SAFETY: the pointer came from `alloc`.
        unsafe { __libc_free(pointer.cast()) }
    }
}

#[global_allocator]
static UNCOUNTED: Uncounted = Uncounted;

/// Does what takes memory, where so many calls get some: what comes of it, and what the calls came to.
fn counted<T>(granted: usize, does: impl FnOnce() -> T) -> (T, Calls) {
    CALLS.set(Calls { granted, made: 0, held: 0 });
    let result = does();
    let calls = CALLS.replace(Calls { granted: usize::MAX, made: 0, held: 0 });
    (result, calls)
}

/// Writes two of the worked records where so many calls get memory: what comes of it, and what the calls came to.
fn written(granted: usize, buffer: &mut [u8]) -> (Result<usize, Error>, Calls) {
    let records = [record(), record()];
    counted(granted, || write_into(&registration(), &records, SECRET, buffer))
}

#[test]
fn each_call_that_gets_no_memory_is_a_fault() {
    let mut buffer = [0; 200];
    let (result, calls) = written(usize::MAX, &mut buffer);
    assert_eq!((result, calls.held), (Ok(map_register().len() + 28), 0));
    assert!(calls.made > 0);
    for granted in 0..calls.made {
        let mut buffer = [0xee; 200];
        let (result, calls) = written(granted, &mut buffer);
        assert_eq!(result, Err(Error::OutOfMemory));
        assert_eq!(calls.held, 0);
        assert_eq!(buffer, [0xee; 200]);
    }
    assert_eq!(Error::OutOfMemory.number(), 105);
}

#[test]
fn a_start_that_gets_no_memory_keeps_none() {
    let (server, calls) = counted(usize::MAX, || MapServer::start(CONFIGURATION));
    assert!(calls.made > 0 && calls.held > 0);
    let (_, stopped) = counted(usize::MAX, || drop(server));
    assert_eq!((stopped.made, stopped.held), (0, -calls.held));
    let mut numbers = Vec::with_capacity(calls.made);
    for granted in 0..calls.made {
        let (result, calls) = counted(granted, || MapServer::start(CONFIGURATION));
        let error = result.unwrap_err();
        assert!(matches!(error, StartError::ConfigurationOutOfMemory | StartError::OutOfMemory));
        assert_eq!(calls.held, 0);
        numbers.push(error.number());
    }
    numbers.dedup();
    assert_eq!(numbers, [24, 105]);
}

/// The worked exchange, where so many calls get memory: the length of the reply, and what the calls came to.
fn exchanged(
    server: &mut MapServer,
    kept: Option<u64>,
    granted: usize,
    buffer: &mut [u8],
) -> (Result<usize, Refusal>, Calls) {
    let (bytes, from) = (map_register(), address(ROUTER_ADDRESS));
    counted(granted, || match server.receive(kept, from, &bytes, 0, buffer)? {
        Received::Accepted { reply, .. } => Ok(reply.map_or(0, <[u8]>::len)),
        Received::NoticeDone { .. } => panic!("no notice stands"),
    })
}

/// The exchange where too few calls get memory, then again where all do, on a Map-Server of its own: the number of the refusal.
fn refused_at_first(kept: Option<u64>, granted: usize) -> u16 {
    let (server, start) = counted(usize::MAX, || MapServer::start(CONFIGURATION));
    let (mut server, mut buffer) = (server.unwrap(), [0xee; 200]);
    let (refusal, refused) = exchanged(&mut server, kept, granted, &mut buffer);
    assert_eq!(buffer, [0xee; 200]);
    let (length, accepted) = exchanged(&mut server, kept, usize::MAX, &mut buffer);
    assert_eq!(buffer[..length.unwrap()], map_notify());
    let ((), stopped) = counted(usize::MAX, || drop(server));
    assert_eq!(start.held + refused.held + accepted.held + stopped.held, 0);
    refusal.unwrap_err().number()
}

#[test]
fn a_refusal_for_no_memory_changes_nothing() {
    for kept in [None, Some(0)] {
        let mut server = MapServer::start(CONFIGURATION).unwrap();
        let (_, calls) = exchanged(&mut server, kept, usize::MAX, &mut [0; 200]);
        assert!(calls.made > 0);
        for granted in 0..calls.made {
            let number = refused_at_first(kept, granted);
            assert_eq!(number, Refusal::OutOfMemory.number());
        }
    }
    assert_eq!(Refusal::OutOfMemory.number(), 58);
}

/// Does what takes memory with one thing after another that is made for it, where more and more calls get some until it succeeds:
/// the numbers of its faults, each once in their order. Nothing that is made keeps memory once it is dropped.
fn faults<T, V>(
    mut make: impl FnMut() -> T,
    mut does: impl FnMut(&mut T) -> Result<V, u16>,
) -> Vec<u16> {
    let mut numbers = Vec::new();
    for granted in 0.. {
        let (mut it, made) = counted(usize::MAX, &mut make);
        let (result, calls) = counted(granted, || does(&mut it));
        let ((), dropped) = counted(usize::MAX, || drop(it));
        assert_eq!(made.held + calls.held + dropped.held, 0);
        match result {
            Ok(_) => break,
            Err(number) => numbers.push(number),
        }
    }
    numbers.dedup();
    numbers
}

/// A Map-Server that accepted the worked Map-Register.
fn registered() -> MapServer {
    let mut server = MapServer::start(CONFIGURATION).unwrap();
    accept(&mut server, &map_register(), 0);
    server
}

/// A Map-Server to whose router a notice is due 3 s after time 0.
fn notified() -> MapServer {
    let mut server = registered();
    let _ = server.notify(None, ROUTER, 0, &mut [0; MESSAGE_ROOM]).unwrap();
    server
}

#[test]
fn a_reload_that_gets_no_memory_changes_nothing() {
    let another_secret = CONFIGURATION.replace("secret = \"73", "secret = \"74");
    for (configuration, goes_on) in [(CONFIGURATION, true), (&another_secret, false)] {
        let numbers = faults(registered, |server| {
            let result = server.reload(configuration).map_err(StartError::number);
            assert!(result.is_err() || result == Ok(goes_on));
            assert_eq!(server.rows(0).count(), usize::from(result != Ok(false)));
            result
        });
        assert_eq!(numbers, [24, 105]);
    }
}

#[test]
fn a_notice_that_gets_no_memory_is_none() {
    for kept in [None, Some(0)] {
        let numbers = faults(registered, |server| {
            let mut buffer = [0xee; MESSAGE_ROOM];
            let result = server.notify(kept, ROUTER, 0, &mut buffer);
            let result = result.map(|notice| notice.nonce).map_err(NoticeError::number);
            assert!(result.is_ok() || buffer == [0xee; MESSAGE_ROOM]);
            assert_eq!(server.due(3_000), result.is_ok().then_some(ROUTER));
            result
        });
        assert_eq!(numbers, [66]);
    }
    let numbers = faults(notified, |server| {
        let mut buffer = [0xee; MESSAGE_ROOM];
        let result = server.resend(ROUTER, 3_000, &mut buffer);
        let result = result.map(|_| ()).map_err(NoticeError::number);
        assert!(result.is_ok() || buffer == [0xee; MESSAGE_ROOM]);
        assert_eq!(server.due(3_000), result.is_err().then_some(ROUTER));
        result
    });
    assert_eq!(numbers, [66]);
}

#[test]
fn a_map_reply_that_gets_no_memory_is_none() {
    let asked = EidPrefix { address: address("10.1.0.9"), mask_len: 32 };
    let numbers = faults(registered, |server| {
        let mut buffer = [0xee; MESSAGE_ROOM];
        let result = server.reply(asked, 1, false, 0, &mut buffer);
        let result = result.map(|_| ()).map_err(ReplyError::number);
        assert!(result.is_ok() || buffer == [0xee; MESSAGE_ROOM]);
        result
    });
    assert_eq!(numbers, [105]);
    let numbers = faults(started, |router| {
        let mut buffer = [0xee; MESSAGE_ROOM];
        let result = router.reply(asked, 1, false, None, &mut buffer);
        let result = result.map(|_| ()).map_err(ReplyError::number);
        assert!(result.is_ok() || buffer == [0xee; MESSAGE_ROOM]);
        result
    });
    assert_eq!(numbers, [105]);
}

/// What the router has to send to its first Map-Server.
const FIRST: Due = Due { server: 0, part: 0 };

fn started() -> Router {
    Router::start(CONFIGURATION, "r1", None, 0).unwrap()
}

#[test]
fn a_router_that_gets_no_memory_is_none() {
    let start = |_: &mut ()| Router::start(CONFIGURATION, "r1", Some(1), 0);
    let numbers = faults(|| (), |it| start(it).map(drop).map_err(StartError::number));
    assert_eq!(numbers, [24, 105]);
    let pair = |_: &mut ()| router::pair(CONFIGURATION, "r1").map_err(StartError::number);
    let numbers = faults(|| (), pair);
    assert_eq!(numbers, [24, 105]);
    let change = |router: &mut Router| router.change(CONFIGURATION, "r2", 0);
    let numbers = faults(started, |router| change(router).map_err(StartError::number));
    assert_eq!(numbers, [24, 105]);
}

#[test]
fn a_map_register_that_gets_no_memory_is_none() {
    let numbers = faults(started, |router| {
        let mut buffer = [0xee; MESSAGE_ROOM];
        let result = router.send(FIRST, 0, &mut buffer);
        let result = result.map(|sent| sent.save).map_err(SendError::number);
        assert!(matches!(result, Ok(Some(1))) || buffer == [0xee; MESSAGE_ROOM]);
        assert_eq!(router.due(0) == Some(FIRST), result.is_err());
        result
    });
    assert_eq!(numbers, [48]);
}

#[test]
fn an_answer_of_a_router_that_gets_no_memory_is_none() {
    let notice = Message { nonce: FIRST_NOTICE, ..notification() };
    let notice = write(&notice, &[record()], SECRET).unwrap();
    for datagram in [map_notify(), notice] {
        let sent = || {
            let mut router = started();
            let _ = router.send(FIRST, 0, &mut [0; MESSAGE_ROOM]).unwrap();
            router
        };
        let numbers = faults(sent, |router| {
            let (from, mut buffer) = (address(SERVER_ADDRESSES[0]), [0xee; 60]);
            let result = router.receive(from, &datagram, 0, &mut buffer);
            let result = result.map(|seen| matches!(seen, Seen::Notice { .. }));
            assert!(result == Ok(true) || buffer == [0xee; 60]);
            result.map_err(router::Refusal::number)
        });
        assert_eq!(numbers, [48]);
    }
}

#[test]
fn what_is_told_takes_no_memory() {
    let (mut server, mut router) = (notified(), started());
    let (told, calls) = counted(0, || {
        let rows = server.rows(0).count();
        let answer = server.answer(address("10.1.0.0"), 0);
        let due = (server.due(3_000), router.due(0));
        (rows, answer, due, server.expire(180_000))
    });
    let (rows, _, due, expired) = told;
    assert_eq!((rows, due, expired), (1, (Some(ROUTER), Some(FIRST)), Ok(())));
    assert_eq!(calls.made, 0);
}

#[test]
fn what_is_stopped_keeps_no_memory() {
    let (router, started) = counted(usize::MAX, || {
        let mut router = started();
        let _ = router.send(FIRST, 0, &mut [0; MESSAGE_ROOM]).unwrap();
        router
    });
    let (server, notified) = counted(usize::MAX, notified);
    assert!(started.held > 0 && notified.held > 0);
    let ((), stopped) = counted(0, || drop((router, server)));
    assert_eq!((stopped.made, stopped.held), (0, -started.held - notified.held));
}

#[test]
fn pairs_and_restarts_take_no_memory() {
    let mut server = MapServer::start(CONFIGURATION).unwrap();
    let _ = exchanged(&mut server, None, usize::MAX, &mut [0; 200]);
    let bytes = map_register();
    let (pair, calls) = counted(0, || lisp_registration::server::pair(&bytes));
    assert!(pair.is_some());
    assert_eq!((calls.made, calls.held), (0, 0));
    let ((), calls) = counted(0, || server.restart());
    assert_eq!(calls.made, 0);
}
