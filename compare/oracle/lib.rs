//! The oracle: gpt.rs and gpt/table.rs as they are, behind a C interface, so that one harness runs against any build of them.
//! The build lays this file, aarch64.rs and the two files of the Rust side by side; the two are not kept in this repository.
//! Nothing here says what a call should answer: errors become the names' numbers, and InvalidL1Entry becomes 9.

#![allow(dead_code)]

pub mod aarch64;
pub mod gpt;

use gpt::{Error, GPIAccessType, GranuleError, GranuleProtection, PA};

/// The number of an error of `discover`.
fn error_number(e: Error) -> u64 {
    match e {
        Error::InvalidConfiguration => 1,
        Error::GptNotInitialized => 2,
        Error::MisalignedL0Buffer => 99,
    }
}

/// The number of an error of `lookup` and `set`. Both of document 01's 9 and 10 are InvalidL1Entry: the harness tells them apart by what was stored.
fn granule_number(e: GranuleError) -> u64 {
    match e {
        GranuleError::InvalidRequest => 6,
        GranuleError::InvalidL0Entry => 7,
        GranuleError::InvalidL1Entry => 9,
    }
}

/// Puts the fields into the registers; `flags` is the byte of docs/ABI.md.
pub fn configure(pps: u8, pgs: u8, l0gptsz: u8, flags: u8, l0: *mut u64) {
    arm_sysregs::put(pps, pgs, l0gptsz, flags & 0x3f, flags & 0x40 != 0, flags & 0x80 != 0, l0 as u64);
}

/// # Safety
/// The L0 table that the registers name, and every table that it names, is there while the object lives.
pub unsafe fn discover() -> Result<GranuleProtection<'static>, u64> {
    unsafe { GranuleProtection::discover() }.map_err(error_number)
}

/// answer + 2^8 * gpi
#[inline(never)]
pub fn lookup(gpt: &GranuleProtection<'static>, address: u64) -> u64 {
    match gpt.lookup(PA(address as usize)) {
        Ok(gpi) => u64::from(gpi) << 8,
        Err(e) => granule_number(e),
    }
}

/// The answer.
#[inline(never)]
pub fn set(gpt: &mut GranuleProtection<'static>, address: u64, gpi: GPIAccessType) -> u64 {
    match gpt.set(PA(address as usize), gpi) {
        Ok(()) => 0,
        Err(e) => granule_number(e),
    }
}

/// # Safety
/// `to` has room for so many events, `count` is a counter, both for all later calls.
#[cfg(not(quiet))]
#[unsafe(no_mangle)]
pub unsafe extern "C" fn oracle_listen(to: *mut [u64; 4], room: usize, count: *mut usize) {
    use std::sync::atomic::Ordering::Relaxed;
    aarch64::TO.store(to, Relaxed);
    aarch64::ROOM.store(room, Relaxed);
    aarch64::COUNT.store(count, Relaxed);
}

/// # Safety
/// As `discover`.
#[unsafe(no_mangle)]
pub unsafe extern "C" fn oracle_lookup(pps: u8, pgs: u8, l0gptsz: u8, flags: u8, l0: *mut u64, address: u64) -> u64 {
    configure(pps, pgs, l0gptsz, flags, l0);
    match unsafe { discover() } {
        Ok(gpt) => lookup(&gpt, address),
        Err(e) => e,
    }
}

/// Answers 255 where the number is no GPI's: such a set can't be asked of the Rust.
///
/// # Safety
/// As `discover`.
#[unsafe(no_mangle)]
pub unsafe extern "C" fn oracle_set(pps: u8, pgs: u8, l0gptsz: u8, flags: u8, l0: *mut u64, address: u64, gpi: u64) -> u64 {
    configure(pps, pgs, l0gptsz, flags, l0);
    match unsafe { discover() } {
        Ok(mut gpt) => match GPIAccessType::try_from(gpi) {
            Ok(gpi) => set(&mut gpt, address, gpi),
            Err(()) => 255,
        },
        Err(e) => e,
    }
}
