//! Two threads at one key of a shared table, in Rust: the walk of walk.c.

use std::ptr;
use std::sync::mpsc::{channel, Receiver, Sender};
use std::thread;

/// `struct lt_shared` and `struct lt_pass`
#[repr(C)]
struct Handle {
    is_open: bool,
    at: *mut u8,
}

// SAFETY: a handle may go from thread to thread, and serves one call at a time.
unsafe impl Send for Handle {}

const CLOSED: Handle = Handle { is_open: false, at: ptr::null_mut() };

#[repr(C)]
struct Config {
    shards: usize,
    passes: usize,
    max_requests: u64,
    max_waits: u32,
}

#[repr(C)]
struct Terms {
    txn: u64,
    wall: u64,
    logical: u32,
    longest: u32,
}

#[repr(C)]
struct Txn {
    txn: u64,
    wall: u64,
    logical: u32,
}

#[repr(C)]
struct Through {
    number: u64,
    wait: u32,
    pass: u32,
}

extern "C" {
    fn lt_shared_open(table: &mut Handle, config: &Config, start: u64) -> u32;
    fn lt_shared_pass(table: &mut Handle, pass: &mut Handle) -> u32;
    fn lt_shared_close(table: &mut Handle) -> u32;
    fn lt_pass_close(pass: &mut Handle) -> u32;
    fn lt_pass_want(pass: &mut Handle, key: *const u8, key_len: usize, writes: bool) -> u32;
    fn lt_pass_enter(pass: &mut Handle, terms: &Terms) -> u32;
    fn lt_pass_scan(pass: &mut Handle, index: &mut usize) -> u32;
    fn lt_pass_poll(pass: &mut Handle) -> u32;
    fn lt_pass_leave(pass: &mut Handle) -> u32;
    fn lt_pass_acquire(pass: &mut Handle, key: *const u8, key_len: usize, by: &Txn) -> u32;
    fn lt_pass_finish(pass: &mut Handle, key: *const u8, key_len: usize, txn: u64) -> u32;
    fn lt_pass_let(pass: &mut Handle, through: &mut Through) -> u32;
    fn lt_pass_number(pass: &mut Handle) -> u32;
}

const DONE: u32 = 0;
const KEY: &[u8] = b"a";

fn walk_first(pass: &mut Handle, held: Sender<()>, asleep: Receiver<()>, number: u32, wakes: Sender<()>) {
    let by = Txn { txn: 1, wall: 1, logical: 0 };
    let mut through = Through { number: 0, wait: 0, pass: 0 };
    // SAFETY: the handle is this thread's, and each pointer is to what the header says.
    unsafe {
        println!("1 acquire {}", lt_pass_acquire(pass, KEY.as_ptr(), KEY.len(), &by));
        held.send(()).unwrap();
        asleep.recv().unwrap();
        println!("1 finish {}", lt_pass_finish(pass, KEY.as_ptr(), KEY.len(), 1));
        while lt_pass_let(pass, &mut through) == DONE {
            println!("1 let of request {}, wait {}", through.number, through.wait);
            if through.pass == number {
                wakes.send(()).unwrap();
            }
        }
    }
}

/// A channel keeps a wake that comes before the sleep.
fn walk_second(pass: &mut Handle, held: Receiver<()>, asleep: Sender<()>, wakes: Receiver<()>) {
    let by = Txn { txn: 2, wall: 2, logical: 0 };
    let mut index = 0;
    held.recv().unwrap();
    // SAFETY: as above.
    unsafe {
        println!("2 want {}", lt_pass_want(pass, KEY.as_ptr(), KEY.len(), true));
        println!("2 enter {}", lt_pass_enter(pass, &Terms { txn: 2, wall: 2, logical: 0, longest: 0 }));
        println!("2 scan {}", lt_pass_scan(pass, &mut index));
        asleep.send(()).unwrap();
        wakes.recv().unwrap();
        println!("2 poll {}", lt_pass_poll(pass));
        println!("2 scan {}", lt_pass_scan(pass, &mut index));
        println!("2 scan {}", lt_pass_scan(pass, &mut index));
        println!("2 acquire {}", lt_pass_acquire(pass, KEY.as_ptr(), KEY.len(), &by));
        println!("2 leave {}", lt_pass_leave(pass));
        println!("2 finish {}", lt_pass_finish(pass, KEY.as_ptr(), KEY.len(), 2));
    }
}

fn main() {
    let (mut table, mut first, mut second) = (CLOSED, CLOSED, CLOSED);
    let config = Config { shards: 4, passes: 2, max_requests: 100, max_waits: 100 };
    // SAFETY: the handles are closed, and no other thread knows them yet.
    let number = unsafe {
        assert_eq!(lt_shared_open(&mut table, &config, 7), DONE);
        assert_eq!(lt_shared_pass(&mut table, &mut first), DONE);
        assert_eq!(lt_shared_pass(&mut table, &mut second), DONE);
        lt_pass_number(&mut second)
    };
    let ((holds, held), (sleeps, asleep), (wakes, woken)) = (channel(), channel(), channel());
    thread::scope(|scope| {
        scope.spawn(|| walk_first(&mut first, holds, asleep, number, wakes));
        scope.spawn(|| walk_second(&mut second, held, sleeps, woken));
    });
    // SAFETY: both threads have ended.
    unsafe {
        assert_eq!(lt_pass_close(&mut first), DONE);
        assert_eq!(lt_pass_close(&mut second), DONE);
        assert_eq!(lt_shared_close(&mut table), DONE);
    }
}
