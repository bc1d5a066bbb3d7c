//! Memory at a chosen address, and the trace of every single store into it: the memory is made read-only, a store faults, is let through alone
//! by the processor's single-step flag, and is written down. x86-64 Linux.

use core::ffi::c_void;

unsafe extern "C" {
    fn mmap(at: *mut c_void, len: usize, prot: i32, flags: i32, fd: i32, offset: i64) -> *mut c_void;
    fn munmap(at: *mut c_void, len: usize) -> i32;
    fn mprotect(at: *mut c_void, len: usize, prot: i32) -> i32;
    fn sigaction(signal: i32, new: *const SigAction, old: *mut SigAction) -> i32;
}

const READ: i32 = 1;
const WRITE: i32 = 2;
const PRIVATE: i32 = 0x02;
const ANONYMOUS: i32 = 0x20;
const NORESERVE: i32 = 0x4000;
const FIXED_NOREPLACE: i32 = 0x10_0000;
const PAGE: usize = 4096;

/// Words of zeroed memory.
pub struct Region {
    at: *mut u64,
    words: usize,
}

impl Region {
    fn map(at: usize, words: usize, flags: i32) -> Option<Region> {
        // SAFETY: new pages, which nothing else names.
        let p = unsafe {
            mmap(at as *mut c_void, bytes(words), READ | WRITE, PRIVATE | ANONYMOUS | NORESERVE | flags, -1, 0)
        };
        if p as isize == -1 {
            return None;
        }
        let region = Region { at: p as *mut u64, words };
        // a kernel that doesn't know the flag takes the address as a hint only
        if at != 0 && p as usize != at {
            return None;
        }
        Some(region)
    }

    pub fn anywhere(words: usize) -> Region {
        Region::map(0, words, 0).expect("memory")
    }

    /// At this very address, if nothing is there yet.
    pub fn at(address: u64, words: usize) -> Option<Region> {
        Region::map(address as usize, words, FIXED_NOREPLACE)
    }

    pub fn as_ptr(&self) -> *mut u64 {
        self.at
    }

    pub fn slice(&self) -> &[u64] {
        // SAFETY: the pages are there as long as the region.
        unsafe { core::slice::from_raw_parts(self.at, self.words) }
    }

    pub fn slice_mut(&mut self) -> &mut [u64] {
        // SAFETY: as above, and the region is lent mutably.
        unsafe { core::slice::from_raw_parts_mut(self.at, self.words) }
    }
}

impl Drop for Region {
    fn drop(&mut self) {
        // SAFETY: the region's own pages.
        unsafe {
            munmap(self.at as *mut c_void, bytes(self.words));
        }
    }
}

fn bytes(words: usize) -> usize {
    (words * 8).max(1).next_multiple_of(PAGE)
}

/// Barriers of kinds 2, 3, 4 as the log has them; a single store is [1, index, word, 0].
pub type Event = [u64; 4];
pub const ROOM: usize = 1 << 16;

pub static mut EVENTS: [Event; ROOM] = [[0; 4]; ROOM];
pub static mut COUNT: usize = 0;

static mut LOW: usize = 0;
static mut HIGH: usize = 0;
static mut STORE: usize = 0;
static mut BESIDE: [u64; 2] = [0; 2];
static mut WIDE: bool = false;

#[repr(C)]
struct SigAction {
    handler: usize,
    mask: [u64; 16],
    flags: i32,
    restorer: usize,
}

const SIGTRAP: i32 = 5;
const SIGSEGV: i32 = 11;
const SA_SIGINFO: i32 = 4;
/// The flags register in the context that a handler is handed: after flags, link and stack (40 bytes) the 18th of the general registers.
const EFLAGS: usize = 40 + 17 * 8;
const TRAP_FLAG: u64 = 0x100;

/// The words before and after a store's, within the region: a store wider than a word would change one.
unsafe fn beside(a: usize) -> [u64; 2] {
    unsafe {
        let before = if a >= LOW + 8 { *((a - 8) as *const u64) } else { 0 };
        let after = if a + 16 <= HIGH { *((a + 8) as *const u64) } else { 0 };
        [before, after]
    }
}

unsafe extern "C" fn on_fault(_: i32, info: *const u8, context: *mut u8) {
    unsafe {
        let a = *(info.add(16) as *const usize);
        if a < LOW || a >= HIGH {
            // not ours: let it kill the program
            set_handler(SIGSEGV, 0);
            return;
        }
        STORE = a;
        BESIDE = beside(a & !7);
        mprotect((a & !(PAGE - 1)) as *mut c_void, PAGE, READ | WRITE);
        *(context.add(EFLAGS) as *mut u64) |= TRAP_FLAG;
    }
}

unsafe extern "C" fn on_step(_: i32, _: *const u8, context: *mut u8) {
    unsafe {
        *(context.add(EFLAGS) as *mut u64) &= !TRAP_FLAG;
        let a = STORE;
        if a % 8 != 0 || beside(a & !7) != BESIDE {
            WIDE = true;
        }
        if COUNT < ROOM {
            EVENTS[COUNT] = [1, ((a - LOW) / 8) as u64, *((a & !7) as *const u64), 0];
            COUNT += 1;
        }
        mprotect((a & !(PAGE - 1)) as *mut c_void, PAGE, READ);
    }
}

unsafe fn set_handler(signal: i32, handler: usize) {
    let new = SigAction { handler, mask: [0; 16], flags: SA_SIGINFO, restorer: 0 };
    // SAFETY: a handler that keeps to its own statics and the region that is traced.
    unsafe {
        assert!(sigaction(signal, &new, core::ptr::null_mut()) == 0);
    }
}

/// Forgets the events of earlier calls.
pub fn clear() {
    // SAFETY: one thread.
    unsafe {
        COUNT = 0;
    }
}

pub fn events() -> &'static [Event] {
    // SAFETY: one thread, and nothing is written while the caller looks.
    unsafe { core::slice::from_raw_parts(&raw const EVENTS as *const Event, COUNT) }
}

/// Runs `call` with every store into the region written down among the events. Says whether each was one word's.
pub fn traced<R>(region: &Region, call: impl FnOnce() -> R) -> (R, bool) {
    // SAFETY: one thread; the region's own pages.
    unsafe {
        LOW = region.at as usize;
        HIGH = LOW + region.words * 8;
        WIDE = false;
        set_handler(SIGSEGV, on_fault as *const () as usize);
        set_handler(SIGTRAP, on_step as *const () as usize);
        let len = bytes(region.words);
        assert!(mprotect(region.at as *mut c_void, len, READ) == 0);
        let r = call();
        assert!(mprotect(region.at as *mut c_void, len, READ | WRITE) == 0);
        set_handler(SIGSEGV, 0);
        set_handler(SIGTRAP, 0);
        (r, !WIDE)
    }
}
