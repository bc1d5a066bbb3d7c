//! Stand-in for the module `aarch64` of the firmware: barriers and TLB invalidations are told to whoever listens, in the order in which they
//! happen. In the bench nobody listens: a barrier is then only an order that the compiler keeps, which favours the Rust.

#[cfg(not(quiet))]
mod told {
    use std::sync::atomic::{AtomicPtr, AtomicUsize, Ordering::Relaxed};

    /// Where to, how many have room, and how many are there.
    pub static TO: AtomicPtr<[u64; 4]> = AtomicPtr::new(core::ptr::null_mut());
    pub static ROOM: AtomicUsize = AtomicUsize::new(0);
    pub static COUNT: AtomicPtr<usize> = AtomicPtr::new(core::ptr::null_mut());

    pub fn tell(event: [u64; 4]) {
        let to = TO.load(Relaxed);
        let count = COUNT.load(Relaxed);
        // SAFETY: the harness lends a buffer of ROOM events and a counter for as long as it calls.
        unsafe {
            let n = *count;
            assert!(n < ROOM.load(Relaxed));
            *to.add(n) = event;
            *count = n + 1;
        }
    }
}

#[cfg(not(quiet))]
pub use told::{COUNT, ROOM, TO};

#[cfg(not(quiet))]
fn tell(kind: u64, a: u64, b: u64) {
    told::tell([kind, a, b, 0]);
}

#[cfg(quiet)]
#[inline(always)]
fn tell(_: u64, a: u64, b: u64) {
    core::hint::black_box((a, b));
    core::sync::atomic::compiler_fence(core::sync::atomic::Ordering::SeqCst);
}

/// The sizes of a range invalidation. The numbers are the names' bytes.
#[derive(Clone, Copy)]
pub enum TlbiSize {
    KB4 = 4 << 10,
    KB16 = 16 << 10,
    KB64 = 64 << 10,
    MB2 = 2 << 20,
    MB32 = 32 << 20,
    MB512 = 512 << 20,
}

pub fn dsb_oshst() {
    tell(2, 0, 0);
}

pub fn tlbi_rpalos(address: usize, size: TlbiSize) {
    tell(3, address as u64, size as u64);
}

pub fn dsb_osh() {
    tell(4, 0, 0);
}

// Only `enable` uses these, which is not ported: a kind that no record has, so that one of them would be seen.
pub fn dsb_sy() {
    tell(16, 0, 0);
}

pub fn isb() {
    tell(17, 0, 0);
}

pub fn tlbi_paallos() {
    tell(18, 0, 0);
}
