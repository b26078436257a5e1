//! What crosses to the archive? The structs and functions of `bindings/c/locktable.h`, the three functions by which the
//! archive takes memory, and [`Handle`], whose methods are safe. No other module has `unsafe` code. `struct lt_through`
//! is [`Through`] itself.

use crate::codes;
use crate::names::Through;
use core::ffi::c_void;

/// `struct lt_txn`
#[repr(C)]
pub(crate) struct RawTxn {
    pub txn: u64,
    pub wall: u64,
    pub logical: u32,
}

/// `struct lt_request`
#[repr(C)]
pub(crate) struct RawRequest {
    pub number: u64,
    pub txn: u64,
    pub wall: u64,
    pub logical: u32,
    pub wait: u32,
    pub pass: u32,
    pub longest: u32,
    pub writes: bool,
}

/// `struct lt_queued`
#[repr(C)]
#[derive(Clone, Copy, Default)]
pub(crate) struct RawQueued {
    pub number: u64,
    pub txn: u64,
    pub wall: u64,
    pub logical: u32,
    pub wait: u32,
    pub pass: u32,
    pub active: bool,
}

/// `struct lt_key`
#[repr(C)]
#[derive(Default)]
pub(crate) struct RawKey {
    pub holder: u64,
    pub wall: u64,
    pub logical: u32,
    pub distinguished: u64,
    pub reservation: RawQueued,
    pub writers: usize,
    pub readers: usize,
}

/// `struct lt_report`
#[repr(C)]
#[derive(Default)]
pub(crate) struct RawReport {
    pub version: u8,
    pub keys: usize,
    pub steps: usize,
    pub line: usize,
}

/// `struct lt_key_name`.
#[repr(C)]
#[derive(Clone, Copy)]
pub(crate) struct RawKeyName {
    pub len: usize,
    pub bytes: [u8; 64],
}

/// `struct lt_table`: all zero at first, and then touched by the archive alone.
#[repr(C)]
struct RawTable {
    is_open: bool,
    at: *mut c_void,
}

/// A step of the archive whose subject is one number: finish or leave.
type StepOfNumber = unsafe extern "C" fn(*mut RawTable, *const u8, usize, u64, *mut Through, usize, *mut usize) -> u32;

/// A step of the archive whose subject is a transaction at a timestamp: acquire or update.
type StepOfTxn =
    unsafe extern "C" fn(*mut RawTable, *const u8, usize, *const RawTxn, *mut Through, usize, *mut usize) -> u32;

/// A query of the archive for a queue of a key.
type QueueOf = unsafe extern "C" fn(*mut RawTable, *const u8, usize, *mut RawQueued, usize, *mut usize) -> u32;

extern "C" {
    fn lt_table_open(table: *mut RawTable, start: u64) -> u32;
    fn lt_table_close(table: *mut RawTable) -> u32;
    fn lt_table_visit(
        table: *mut RawTable,
        key: *const u8,
        key_len: usize,
        request: *const RawRequest,
        lets: *mut Through,
        room: usize,
        count: *mut usize,
    ) -> u32;
    fn lt_table_acquire(
        table: *mut RawTable,
        key: *const u8,
        key_len: usize,
        by: *const RawTxn,
        lets: *mut Through,
        room: usize,
        count: *mut usize,
    ) -> u32;
    fn lt_table_update(
        table: *mut RawTable,
        key: *const u8,
        key_len: usize,
        by: *const RawTxn,
        lets: *mut Through,
        room: usize,
        count: *mut usize,
    ) -> u32;
    fn lt_table_finish(
        table: *mut RawTable,
        key: *const u8,
        key_len: usize,
        txn: u64,
        lets: *mut Through,
        room: usize,
        count: *mut usize,
    ) -> u32;
    fn lt_table_leave(
        table: *mut RawTable,
        key: *const u8,
        key_len: usize,
        number: u64,
        lets: *mut Through,
        room: usize,
        count: *mut usize,
    ) -> u32;
    fn lt_table_lets(table: *mut RawTable, lets: *mut Through, room: usize, count: *mut usize) -> u32;
    fn lt_table_look(table: *mut RawTable, key: *const u8, key_len: usize, number: u64, txn: *mut u64) -> u32;
    fn lt_table_key(table: *mut RawTable, key: *const u8, key_len: usize, out: *mut RawKey) -> u32;
    fn lt_table_writers(
        table: *mut RawTable,
        key: *const u8,
        key_len: usize,
        array: *mut RawQueued,
        room: usize,
        count: *mut usize,
    ) -> u32;
    fn lt_table_readers(
        table: *mut RawTable,
        key: *const u8,
        key_len: usize,
        array: *mut RawQueued,
        room: usize,
        count: *mut usize,
    ) -> u32;
    fn lt_table_keys(
        table: *mut RawTable,
        after: *const u8,
        after_len: usize,
        array: *mut RawKeyName,
        room: usize,
        count: *mut usize,
    ) -> u32;
    fn lt_shard_of(key: *const u8, key_len: usize, shards: usize) -> usize;
    fn lt_check(text: *const u8, len: usize, report: *mut RawReport) -> u32;

    // The C library's heap, which the standard library links.
    fn malloc(size: usize) -> *mut c_void;
    fn aligned_alloc(align: usize, size: usize) -> *mut c_void;
    fn realloc(at: *mut c_void, size: usize) -> *mut c_void;
    fn free(at: *mut c_void);
}

/// An open table of the archive. It is closed when the value is dropped.
pub(crate) struct Handle {
    table: RawTable,
}

// SAFETY: the archive's type is proved to be `Send` (`bindings/c/locktable.h`, THREADS). What it asks holds here: the three
// functions of memory work on every thread, and every call takes the handle by `&mut`, so two calls never meet.
unsafe impl Send for Handle {}

impl Handle {
    /// The handle of a new table, whose keys are hashed from this start, or the code of the refusal.
    pub fn open(start: u64) -> Result<Handle, u32> {
        let mut table = RawTable { is_open: false, at: core::ptr::null_mut() };
        // SAFETY: the struct is all zero, which is a closed table, and nobody else has it.
        let code = unsafe { lt_table_open(&mut table, start) };
        // The struct may be moved, for example into this value: only a second copy of it could do harm, and there is
        // none.
        if code == codes::DONE {
            Ok(Handle { table })
        } else {
            Err(code)
        }
    }

    #[inline]
    pub fn visit(&mut self, key: &[u8], request: &RawRequest, lets: &mut [Through], count: &mut usize) -> u32 {
        // SAFETY: the table is open and borrowed for this call alone. The references point to whole values, the slices
        // to as many elements as they say, and what is written overlaps nothing else.
        unsafe {
            lt_table_visit(&mut self.table, key.as_ptr(), key.len(), request, lets.as_mut_ptr(), lets.len(), count)
        }
    }

    #[inline]
    pub fn acquire(&mut self, key: &[u8], by: &RawTxn, lets: &mut [Through], count: &mut usize) -> u32 {
        self.step_of_txn(lt_table_acquire, key, by, lets, count)
    }

    #[inline]
    pub fn update(&mut self, key: &[u8], by: &RawTxn, lets: &mut [Through], count: &mut usize) -> u32 {
        self.step_of_txn(lt_table_update, key, by, lets, count)
    }

    #[inline]
    pub fn finish(&mut self, key: &[u8], txn: u64, lets: &mut [Through], count: &mut usize) -> u32 {
        self.step_of_number(lt_table_finish, key, txn, lets, count)
    }

    #[inline]
    pub fn leave(&mut self, key: &[u8], number: u64, lets: &mut [Through], count: &mut usize) -> u32 {
        self.step_of_number(lt_table_leave, key, number, lets, count)
    }

    #[inline]
    fn step_of_txn(
        &mut self,
        step: StepOfTxn,
        key: &[u8],
        by: &RawTxn,
        lets: &mut [Through],
        count: &mut usize,
    ) -> u32 {
        // SAFETY: as in `visit`; `step` is one of the archive's two functions of this type.
        unsafe { step(&mut self.table, key.as_ptr(), key.len(), by, lets.as_mut_ptr(), lets.len(), count) }
    }

    #[inline]
    fn step_of_number(
        &mut self,
        step: StepOfNumber,
        key: &[u8],
        number: u64,
        lets: &mut [Through],
        count: &mut usize,
    ) -> u32 {
        // SAFETY: as in `visit`; `step` is one of the archive's two functions of this type.
        unsafe { step(&mut self.table, key.as_ptr(), key.len(), number, lets.as_mut_ptr(), lets.len(), count) }
    }

    /// The next lets of the last step.
    pub fn lets(&mut self, lets: &mut [Through], count: &mut usize) -> u32 {
        // SAFETY: as in `visit`.
        unsafe { lt_table_lets(&mut self.table, lets.as_mut_ptr(), lets.len(), count) }
    }

    #[inline]
    pub fn look(&mut self, key: &[u8], number: u64, txn: &mut u64) -> u32 {
        // SAFETY: as in `visit`.
        unsafe { lt_table_look(&mut self.table, key.as_ptr(), key.len(), number, txn) }
    }

    pub fn key(&mut self, key: &[u8], out: &mut RawKey) -> u32 {
        // SAFETY: as in `visit`.
        unsafe { lt_table_key(&mut self.table, key.as_ptr(), key.len(), out) }
    }

    pub fn writers(&mut self, key: &[u8], array: &mut [RawQueued], count: &mut usize) -> u32 {
        self.queue(lt_table_writers, key, array, count)
    }

    pub fn readers(&mut self, key: &[u8], array: &mut [RawQueued], count: &mut usize) -> u32 {
        self.queue(lt_table_readers, key, array, count)
    }

    fn queue(&mut self, queue: QueueOf, key: &[u8], array: &mut [RawQueued], count: &mut usize) -> u32 {
        // SAFETY: as in `visit`; `queue` is one of the archive's two functions of this type.
        unsafe { queue(&mut self.table, key.as_ptr(), key.len(), array.as_mut_ptr(), array.len(), count) }
    }

    pub fn keys(&mut self, after: &[u8], array: &mut [RawKeyName], count: &mut usize) -> u32 {
        // SAFETY: as in `visit`.
        unsafe { lt_table_keys(&mut self.table, after.as_ptr(), after.len(), array.as_mut_ptr(), array.len(), count) }
    }
}

impl Drop for Handle {
    fn drop(&mut self) {
        // SAFETY: the table is open, and after this call nobody uses the handle.
        unsafe { lt_table_close(&mut self.table) };
    }
}

pub(crate) fn shard_of(key: &[u8], shards: usize) -> usize {
    // SAFETY: the slice has as many bytes as it says, and the call only reads them.
    unsafe { lt_shard_of(key.as_ptr(), key.len(), shards) }
}

pub(crate) fn check(text: &[u8], report: &mut RawReport) -> u32 {
    // SAFETY: the slice has as many bytes as it says, the call only reads them, and `report` is a whole value.
    unsafe { lt_check(text.as_ptr(), text.len(), report) }
}

/// The bytes of a line of cache. A new block of more than one line takes whole lines, so two such blocks share none. The
/// archive does not ask for that, but a shared table is faster so on several threads.
const LINE: usize = 64;

/// What the archive is told of a request for memory. If there is none, `at` is any address but null.
#[repr(C)]
pub struct Block {
    ok: bool,
    at: *mut c_void,
}

fn block_at(at: *mut c_void) -> Block {
    let ok = !at.is_null();
    Block { ok, at: if ok { at } else { core::ptr::NonNull::dangling().as_ptr() } }
}

// SAFETY: the name is the one by which the archive takes memory, and no other crate of this program defines it. The
// block is aligned to 16 bytes or more, and 16 is the most that the archive asks for.
#[no_mangle]
unsafe extern "C" fn rattle_alloc(size: usize, align: usize) -> Block {
    #[cfg(test)]
    if scarce::refuses() {
        return block_at(core::ptr::null_mut());
    }
    match size.checked_next_multiple_of(LINE) {
        Some(lines) if size > LINE => block_at(aligned_alloc(LINE, lines)),
        _ => block_at(malloc(if size > 0 { size } else { align })),
    }
}

// SAFETY: as `rattle_alloc`; `at` is a block that one of these two functions gave and that was not freed.
#[no_mangle]
unsafe extern "C" fn rattle_realloc(at: *mut c_void, _kept: usize, size: usize, align: usize) -> Block {
    #[cfg(test)]
    if scarce::refuses() {
        return block_at(core::ptr::null_mut());
    }
    block_at(realloc(at, if size > 0 { size } else { align }))
}

// SAFETY: as `rattle_realloc`.
#[no_mangle]
unsafe extern "C" fn rattle_dealloc(at: *mut c_void) {
    free(at);
}

/// For tests: which requests of the archive for memory fail on this thread.
#[cfg(test)]
pub(crate) mod scarce {
    use std::cell::Cell;

    std::thread_local! {
        /// How many requests succeed, and how many fail after them.
        static NEXT: Cell<(u32, u32)> = const { Cell::new((0, 0)) };
    }

    pub(crate) fn fail(after: u32, many: u32) {
        NEXT.set((after, many));
    }

    /// No more requests fail. Answers whether all that were to fail did.
    pub(crate) fn stop() -> bool {
        NEXT.replace((0, 0)).1 == 0
    }

    /// Whether this request fails.
    pub(super) fn refuses() -> bool {
        let (after, many) = NEXT.get();
        NEXT.set(if after > 0 { (after - 1, many) } else { (0, many.saturating_sub(1)) });
        after == 0 && many > 0
    }
}
