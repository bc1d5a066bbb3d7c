//! A seeded generator of numbers, and of words: contiguous ones, granules, invalid ones of each kind, with noise in the ignored bits.

pub struct Rng(pub u64);

impl Rng {
    pub fn next(&mut self) -> u64 {
        self.0 = self.0.wrapping_add(0x9E37_79B9_7F4A_7C15);
        let mut z = self.0;
        z = (z ^ (z >> 30)).wrapping_mul(0xBF58_476D_1CE4_E5B9);
        z = (z ^ (z >> 27)).wrapping_mul(0x94D0_49BB_1331_11EB);
        z ^ (z >> 31)
    }

    pub fn below(&mut self, n: u64) -> u64 {
        self.next() % n
    }

    /// True n times in a hundred.
    pub fn percent(&mut self, n: u64) -> bool {
        self.below(100) < n
    }

    pub fn pick(&mut self, from: &[u64]) -> u64 {
        from[self.below(from.len() as u64) as usize]
    }
}

pub const KNOWN: [u64; 11] = [0, 4, 5, 6, 7, 8, 9, 10, 11, 13, 15];
pub const RESERVED: [u64; 5] = [1, 2, 3, 12, 14];
pub const UNIFORM: u64 = 0x1111_1111_1111_1111;

pub fn known(gpi: u64) -> bool {
    KNOWN.contains(&gpi)
}

// ---- words

pub fn noise(rng: &mut Rng, shift: u64) -> u64 {
    match rng.below(3) {
        0 => rng.next() << shift,
        1 => 1 << (shift + rng.below(64 - shift)),
        _ => 0,
    }
}

pub fn contiguous(rng: &mut Rng, size: u64, gpi: u64, clean: bool) -> u64 {
    let n = if clean { 0 } else { noise(rng, 10) };
    n | size << 8 | gpi << 4 | 1
}

/// Some word that reads g throughout.
pub fn reads(rng: &mut Rng, g: u64) -> u64 {
    match rng.below(4) {
        0 => UNIFORM * g,
        s => contiguous(rng, s, g, false),
    }
}

pub fn granules(rng: &mut Rng) -> u64 {
    (0..16).fold(0, |w, i| w | rng.pick(&KNOWN) << (4 * i))
}

/// An invalid word of each kind: a reserved nibble at each place, a contiguous word of a reserved GPI, one of size 0.
pub fn invalid(rng: &mut Rng) -> u64 {
    match rng.below(5) {
        0 => noise(rng, 10) | (1 + rng.below(3)) << 8 | rng.pick(&RESERVED) << 4 | 1,
        1 => noise(rng, 10) | rng.pick(&KNOWN) << 4 | 1,
        2 => (granules(rng) & !0xf) | rng.pick(&[2, 3, 12, 14]),
        _ => {
            let i = 4 * (1 + rng.below(15));
            let g = if rng.percent(50) { granules(rng) } else { UNIFORM * rng.pick(&KNOWN) };
            (g & !(0xf << i)) | rng.pick(&RESERVED) << i
        }
    }
}

pub fn any_word(rng: &mut Rng) -> u64 {
    match rng.below(8) {
        0 => rng.next(),
        1 => invalid(rng),
        2 | 3 => granules(rng),
        4 => UNIFORM * rng.pick(&KNOWN),
        _ => {
            let size = 1 + rng.below(3);
            let gpi = rng.pick(&KNOWN);
            contiguous(rng, size, gpi, false)
        }
    }
}
