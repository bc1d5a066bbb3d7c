//! Granule protection tables over lent memory: a safe Rust face of the proved library. Numbers and packed answers of the C interface
//! (docs/ABI.md) become enums and results here; nothing is decided in this crate.

#![no_std]

mod raw {
    unsafe extern "C" {
        pub fn gpt_lookup(
            pps: u8, pgs: u8, l0gptsz: u8, flags: u8,
            l0: *const u64, l0_len: usize, arena: *const u64, arena_len: usize, base: u64,
            address: u64,
        ) -> u64;
        pub fn gpt_set(
            pps: u8, pgs: u8, l0gptsz: u8, flags: u8,
            l0: *const u64, l0_len: usize, arena: *mut u64, arena_len: usize, base: u64,
            log: *mut u64, log_len: usize, address: u64, gpi: u64,
        ) -> u64;
        pub fn gpt_mend(
            pps: u8, pgs: u8, l0gptsz: u8, flags: u8,
            l0: *const u64, l0_len: usize, arena: *mut u64, arena_len: usize, base: u64,
            address: u64, limit: u64,
        ) -> u64;
        pub fn gpt_check(
            pps: u8, pgs: u8, l0gptsz: u8, flags: u8,
            l0: *const u64, l0_len: usize, arena: *const u64, arena_len: usize, base: u64,
            address: u64,
        ) -> u64;
    }
}

/// Which world may use a granule.
#[derive(Debug, Clone, Copy, PartialEq, Eq)]
#[repr(u8)]
pub enum Gpi {
    NoAccess = 0,
    SystemAgent = 4,
    NonSecureProtected = 5,
    NoAccess6 = 6,
    NoAccess7 = 7,
    Secure = 8,
    NonSecure = 9,
    Root = 10,
    Realm = 11,
    NonSecureOnly = 13,
    Any = 15,
}

impl Gpi {
    fn of(number: u64) -> Gpi {
        match number {
            0 => Gpi::NoAccess,
            4 => Gpi::SystemAgent,
            5 => Gpi::NonSecureProtected,
            6 => Gpi::NoAccess6,
            7 => Gpi::NoAccess7,
            8 => Gpi::Secure,
            9 => Gpi::NonSecure,
            10 => Gpi::Root,
            11 => Gpi::Realm,
            13 => Gpi::NonSecureOnly,
            15 => Gpi::Any,
            _ => unreachable!("a lookup hands back a GPI's number"),
        }
    }
}

/// Why a call was refused, with the library's number.
#[derive(Debug, Clone, Copy, PartialEq, Eq)]
#[repr(u8)]
pub enum Refusal {
    InvalidConfiguration = 1,
    GptNotInitialized = 2,
    FewL0Words = 3,
    BadArena = 4,
    ShortLog = 5,
    InvalidRequest = 6,
    InvalidL0Entry = 7,
    OutsideArena = 8,
    InvalidL1Entry = 9,
}

impl Refusal {
    fn of(answer: u64) -> Refusal {
        match answer {
            1 => Refusal::InvalidConfiguration,
            2 => Refusal::GptNotInitialized,
            3 => Refusal::FewL0Words,
            4 => Refusal::BadArena,
            5 => Refusal::ShortLog,
            6 => Refusal::InvalidRequest,
            7 => Refusal::InvalidL0Entry,
            8 => Refusal::OutsideArena,
            9 => Refusal::InvalidL1Entry,
            _ => unreachable!("the answers are 0 to 10"),
        }
    }
}

/// The register fields and features, by value.
#[derive(Debug, Clone, Copy, PartialEq, Eq, Default)]
pub struct Config {
    pub pps: u8,
    pub pgs: u8,
    pub l0gptsz: u8,
    pub gpc: bool,
    pub sa: bool,
    pub nsp: bool,
    pub na6: bool,
    pub na7: bool,
    pub nso: bool,
    pub gdi: bool,
    pub gpc2: bool,
}

impl Config {
    fn flags(&self) -> u8 {
        let bits = [self.gpc, self.sa, self.nsp, self.na6, self.na7, self.nso, self.gdi, self.gpc2];
        bits.iter().rev().fold(0, |f, b| 2 * f + *b as u8)
    }
}

/// What a set did: its records in the log, and its stores.
#[derive(Debug, Clone, Copy, PartialEq, Eq)]
pub struct Tally {
    pub records: usize,
    pub stores: u64,
}

/// A set that wasn't refused.
#[derive(Debug, Clone, Copy, PartialEq, Eq)]
pub enum Changed {
    Done(Tally),
    /// The granule is stored, and the fuse scan met an invalid entry: the Rust's InvalidL1Entry, number 10.
    Stopped(Tally),
}

/// A record of the log.
#[derive(Debug, Clone, Copy, PartialEq, Eq)]
pub enum Record {
    Fill { index: u64, count: u64, word: u64 },
    DsbOshst,
    TlbiRange { address: u64, bytes: u64 },
    DsbOsh,
    GranuleStore { index: u64, granule: u64, word: u64 },
}

/// The words that a log holds at least.
pub const LOG_WORDS: usize = 52;

/// The records of a set, in order.
pub fn records(log: &[u64], tally: Tally) -> impl Iterator<Item = Record> + '_ {
    log.chunks_exact(4).take(tally.records).filter_map(|r| match r[0] {
        1 => Some(Record::Fill { index: r[1], count: r[2], word: r[3] }),
        2 => Some(Record::DsbOshst),
        3 => Some(Record::TlbiRange { address: r[1], bytes: r[2] }),
        4 => Some(Record::DsbOsh),
        5 => Some(Record::GranuleStore { index: r[1], granule: r[2], word: r[3] }),
        _ => None,
    })
}

/// The GPI of an address.
pub fn lookup(c: &Config, l0: &[u64], arena: &[u64], base: u64, address: u64) -> Result<Gpi, Refusal> {
    // SAFETY: both slices are there for the call, which only reads them, and it is proved for every other argument.
    let r = unsafe {
        raw::gpt_lookup(
            c.pps, c.pgs, c.l0gptsz, c.flags(), l0.as_ptr(), l0.len(), arena.as_ptr(), arena.len(), base, address,
        )
    };
    match r & 0xff {
        0 => Ok(Gpi::of(r >> 8)),
        n => Err(Refusal::of(n)),
    }
}

/// The granule of an address given to another world, with barriers and stores told in the log.
pub fn set(
    c: &Config,
    l0: &[u64],
    arena: &mut [u64],
    base: u64,
    log: &mut [u64],
    address: u64,
    gpi: Gpi,
) -> Result<Changed, Refusal> {
    // SAFETY: the slices are there for the call, those that it writes are lent to it alone, and it is proved for every other argument.
    let r = unsafe {
        raw::gpt_set(
            c.pps, c.pgs, c.l0gptsz, c.flags(), l0.as_ptr(), l0.len(), arena.as_mut_ptr(), arena.len(), base,
            log.as_mut_ptr(), log.len(), address, gpi as u64,
        )
    };
    let tally = Tally { records: (r >> 8 & 0xff) as usize, stores: r >> 16 };
    match r & 0xff {
        0 => Ok(Changed::Done(tally)),
        10 => Ok(Changed::Stopped(tally)),
        n => Err(Refusal::of(n)),
    }
}

/// The L1 table of an address made normal by at most `limit` stores; hands back how many were made.
pub fn mend(c: &Config, l0: &[u64], arena: &mut [u64], base: u64, address: u64, limit: u64) -> Result<u64, Refusal> {
    // SAFETY: as `set`.
    let r = unsafe {
        raw::gpt_mend(
            c.pps, c.pgs, c.l0gptsz, c.flags(), l0.as_ptr(), l0.len(), arena.as_mut_ptr(), arena.len(), base, address, limit,
        )
    };
    match r & 0xff {
        0 => Ok(r >> 16),
        n => Err(Refusal::of(n)),
    }
}

/// Whether the L1 table of an address is normal.
pub fn check(c: &Config, l0: &[u64], arena: &[u64], base: u64, address: u64) -> Result<bool, Refusal> {
    // SAFETY: as `lookup`.
    let r = unsafe {
        raw::gpt_check(
            c.pps, c.pgs, c.l0gptsz, c.flags(), l0.as_ptr(), l0.len(), arena.as_ptr(), arena.len(), base, address,
        )
    };
    match r & 0xff {
        0 => Ok(r >> 8 == 1),
        n => Err(Refusal::of(n)),
    }
}
