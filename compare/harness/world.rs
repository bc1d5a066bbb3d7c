//! What is asked: arrangements (configuration, L0 table, arena) from a seeded generator.

use crate::random::*;
use crate::sys::Region;

/// Which parts of the generator a run uses.
#[derive(Clone, Copy, PartialEq)]
pub enum Scale {
    Full,
    /// For the list that is kept in the repository: small tables, and few different words.
    Compact,
}

pub struct World {
    pub pps: u8,
    pub pgs: u8,
    pub l0gptsz: u8,
    pub flags: u8,
    /// the widths that the fields mean, where the configuration is in order
    pub bits: Option<(u64, u64, u64)>,
    pub entries: usize,
    pub l0: Vec<(usize, u64)>,
    pub base: u64,
    pub words: usize,
    pub rust: Region,
    pub port: Region,
    pub model: Region,
    pub scale: Scale,
}

pub const MOST_ENTRIES: usize = 1 << 22;

pub fn widths(pps: u8, pgs: u8, l0gptsz: u8) -> Option<(u64, u64, u64)> {
    let p = *[32, 36, 40, 42, 44, 48, 52].get(pps as usize)?;
    let g = *[12, 16, 14].get(pgs as usize)?;
    let l = match l0gptsz {
        0 => 30,
        4 => 34,
        6 => 36,
        9 => 39,
        _ => return None,
    };
    Some((p, g, l))
}

/// The address in an L0 table word.
pub fn table_address(w: u64) -> u64 {
    w & 0xF_FFFF_FFFF_F000
}

impl World {
    /// The fields of the n-th arrangement: first each combination in turn, then by chance.
    fn fields(rng: &mut Rng, n: u64, scale: Scale) -> (u8, u8, u8, u8) {
        let mut flags = match rng.below(3) {
            0 => 0xff,
            1 => 1,
            _ => rng.next() as u8 | 1,
        };
        if n < 84 && scale == Scale::Full {
            return ((n / 12) as u8, (n % 3) as u8, [0, 4, 6, 9][(n / 3 % 4) as usize], flags);
        }
        if rng.percent(4) {
            // the registers' fields are of 3, 2 and 4 bits
            if rng.percent(50) {
                flags &= !1;
            }
            let l = if rng.percent(50) { rng.pick(&[0, 4, 6, 9]) } else { rng.below(16) };
            return (rng.below(8) as u8, rng.below(4) as u8, l as u8, flags);
        }
        let l = match rng.below(100) {
            0 => 9,
            1..6 => 6,
            6..20 => 4,
            _ => 0,
        };
        if scale == Scale::Compact {
            // small L0 tables; and one of the larger L1 tables, that of 64 KB granules
            return match rng.below(8) {
                0 => (1 + rng.below(2) as u8, 1, 4, flags),
                _ => (rng.below(4) as u8, rng.below(3) as u8, 0, flags),
            };
        }
        (rng.below(7) as u8, rng.below(3) as u8, l, flags)
    }

    pub fn new(rng: &mut Rng, l0: &mut Region, n: u64, scale: Scale) -> World {
        let (pps, pgs, l0gptsz, flags) = World::fields(rng, n, scale);
        let bits = widths(pps, pgs, l0gptsz).filter(|(p, _, l)| flags & 1 != 0 && p >= l);
        let (entries, table) = match bits {
            Some((p, g, l)) => (1usize << (p - l), 1usize << (l - g - 4)),
            None => (4, 1024),
        };
        let words = match rng.below(6) {
            0 | 1 => table,
            2 => table + 512 * rng.below(5) as usize,
            3 => table + table / 2,
            4 => table + rng.below(table as u64 + 1) as usize,
            _ if table > 1 << 18 => table,
            _ => 3 * table,
        };
        let (base, rust) = loop {
            let k = 17 + rng.below(30);
            let base = rng.below(1 << k) & !0xfff;
            if base < 1 << 16 || base + 8 * words as u64 > 1 << 47 {
                continue;
            }
            if let Some(r) = Region::at(base, words) {
                break (base, r);
            }
        };
        let mut world = World {
            pps,
            pgs,
            l0gptsz,
            flags,
            bits,
            entries,
            l0: Vec::new(),
            base,
            words,
            rust,
            port: Region::anywhere(words),
            model: Region::anywhere(words),
            scale,
        };
        let mut places = vec![0, entries - 1];
        for _ in 0..5 {
            places.push(rng.below(entries as u64) as usize);
        }
        places.sort();
        places.dedup();
        for (k, i) in places.into_iter().enumerate() {
            let w = world.l0_word(rng, table, k == 0);
            world.l0.push((i, w));
            l0.slice_mut()[i] = w;
        }
        world
    }

    /// The L0 table as it was before this world.
    pub fn clear_l0(&self, l0: &mut Region) {
        for (i, _) in &self.l0 {
            l0.slice_mut()[*i] = 0;
        }
    }

    fn l0_word(&self, rng: &mut Rng, table: usize, first: bool) -> u64 {
        let pages = ((self.words - table) / 512) as u64;
        let other = noise(rng, 52) | (rng.next() & 0xff0);
        match if first { 0 } else { rng.below(20) } {
            0..12 => (self.base + 4096 * rng.below(pages + 1)) | other | 3,
            12 => (table_address(self.base.wrapping_add(rng.below(1 << 24)).wrapping_sub(1 << 23))) | other | 3,
            13 => table_address(rng.next()) | other | 3,
            14 | 15 => (rng.next() << 8) | rng.pick(&KNOWN) << 4 | 1,
            16 => (rng.next() << 8) | rng.pick(&RESERVED) << 4 | 1,
            _ => (rng.next() << 4) | rng.pick(&[0, 2, 4, 5, 7, 8, 9, 15]),
        }
    }

    /// The word offset of the table that an L0 word names, if the table lies in the first `len` words from `base`.
    pub fn inside(&self, w: u64, base: u64, len: usize) -> Option<usize> {
        let (_, g, l) = self.bits?;
        let a = table_address(w);
        let n = 1u64 << (l - g - 4);
        let end = base as u128 + 8 * len as u128;
        (a >= base && a as u128 + 8 * n as u128 <= end).then(|| ((a - base) / 8) as usize)
    }
}
