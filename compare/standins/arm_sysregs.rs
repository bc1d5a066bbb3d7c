//! Stand-in for the crate `arm_sysregs`: the registers that gpt.rs reads are fields that the harness writes. A field is as wide as a byte; where
//! its bits stand in the real register isn't in the source, and nothing here depends on it.

use std::sync::atomic::{AtomicU32, AtomicU64, Ordering::Relaxed};

static GPCCR: AtomicU32 = AtomicU32::new(0);
static GPTBR: AtomicU64 = AtomicU64::new(0);
static FEATURES: AtomicU32 = AtomicU32::new(0);

/// What the harness puts into the registers. `flags` has GPC, SA, NSP, NA6, NA7, NSO in bits 0 to 5.
pub fn put(pps: u8, pgs: u8, l0gptsz: u8, flags: u8, gdi: bool, gpc2: bool, l0: u64) {
    let word = u32::from_le_bytes([pps, pgs, l0gptsz, flags]);
    GPCCR.store(word, Relaxed);
    GPTBR.store(l0 >> 12, Relaxed);
    FEATURES.store(gdi as u32 + 2 * gpc2 as u32, Relaxed);
}

pub mod el1 {
    pub struct IdAa64mmfr4El1(bool);
    pub struct IdAa64pfr0El1(bool);

    impl IdAa64mmfr4El1 {
        pub fn is_feat_rme_gdi_present(self) -> bool {
            self.0
        }
    }

    impl IdAa64pfr0El1 {
        pub fn is_feat_rme_gpc2_present(self) -> bool {
            self.0
        }
    }

    pub mod accessors {
        use super::*;
        use crate::{FEATURES, Relaxed};

        pub fn read_id_aa64mmfr4_el1() -> IdAa64mmfr4El1 {
            IdAa64mmfr4El1(FEATURES.load(Relaxed) & 1 != 0)
        }

        pub fn read_id_aa64pfr0_el1() -> IdAa64pfr0El1 {
            IdAa64pfr0El1(FEATURES.load(Relaxed) & 2 != 0)
        }
    }
}

pub mod el3 {
    pub mod registers {
        #[derive(Debug, Clone, Copy, PartialEq, Eq)]
        pub struct GpccrEl3(pub(crate) u32);

        impl GpccrEl3 {
            pub const GPC: Self = Self(1 << 24);
            pub const SA: Self = Self(1 << 25);
            pub const NSP: Self = Self(1 << 26);
            pub const NA6: Self = Self(1 << 27);
            pub const NA7: Self = Self(1 << 28);
            pub const NSO: Self = Self(1 << 29);

            pub fn contains(self, other: Self) -> bool {
                self.0 & other.0 == other.0
            }

            pub fn pps(self) -> u8 {
                self.0 as u8
            }

            pub fn pgs(self) -> u8 {
                (self.0 >> 8) as u8
            }

            pub fn l0gptsz(self) -> u8 {
                (self.0 >> 16) as u8
            }
        }

        impl core::ops::Sub for GpccrEl3 {
            type Output = Self;

            fn sub(self, other: Self) -> Self {
                Self(self.0 & !other.0)
            }
        }

        #[derive(Clone, Copy)]
        pub struct GptbrEl3(pub(crate) u64);

        impl GptbrEl3 {
            pub fn empty() -> Self {
                Self(0)
            }

            pub fn with_baddr(self, baddr: u64) -> Self {
                Self(baddr)
            }

            pub fn baddr(self) -> u64 {
                self.0
            }
        }
    }

    pub mod accessors {
        use super::registers::*;
        use crate::{GPCCR, GPTBR, Relaxed};

        pub fn read_gpccr_el3() -> GpccrEl3 {
            GpccrEl3(GPCCR.load(Relaxed))
        }

        pub fn read_gptbr_el3() -> GptbrEl3 {
            GptbrEl3(GPTBR.load(Relaxed))
        }

        /// # Safety
        /// None is needed here; the real one asks for it.
        pub unsafe fn write_gpccr_el3(value: GpccrEl3) {
            GPCCR.store(value.0, Relaxed);
        }

        /// # Safety
        /// None is needed here; the real one asks for it.
        pub unsafe fn write_gptbr_el3(value: GptbrEl3) {
            GPTBR.store(value.0, Relaxed);
        }
    }
}
