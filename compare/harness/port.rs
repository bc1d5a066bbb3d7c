//! The two sides, as they are linked: the port's archive (docs/ABI.md) and the oracle's shared library.

unsafe extern "C" {
    pub fn gpt_lookup(
        pps: u8,
        pgs: u8,
        l0gptsz: u8,
        flags: u8,
        l0: *const u64,
        l0_len: usize,
        arena: *const u64,
        arena_len: usize,
        base: u64,
        address: u64,
    ) -> u64;

    pub fn gpt_set(
        pps: u8,
        pgs: u8,
        l0gptsz: u8,
        flags: u8,
        l0: *const u64,
        l0_len: usize,
        arena: *mut u64,
        arena_len: usize,
        base: u64,
        log: *mut u64,
        log_len: usize,
        address: u64,
        gpi: u64,
    ) -> u64;

    pub fn gpt_mend(
        pps: u8,
        pgs: u8,
        l0gptsz: u8,
        flags: u8,
        l0: *const u64,
        l0_len: usize,
        arena: *mut u64,
        arena_len: usize,
        base: u64,
        address: u64,
        limit: u64,
    ) -> u64;

    pub fn gpt_check(
        pps: u8,
        pgs: u8,
        l0gptsz: u8,
        flags: u8,
        l0: *const u64,
        l0_len: usize,
        arena: *const u64,
        arena_len: usize,
        base: u64,
        address: u64,
    ) -> u64;

    pub fn oracle_listen(to: *mut [u64; 4], room: usize, count: *mut usize);
    pub fn oracle_lookup(pps: u8, pgs: u8, l0gptsz: u8, flags: u8, l0: *mut u64, address: u64) -> u64;
    pub fn oracle_set(pps: u8, pgs: u8, l0gptsz: u8, flags: u8, l0: *mut u64, address: u64, gpi: u64) -> u64;
}
