//! What is asked: requests in an arrangement, with the words around their place.

use crate::random::*;
use crate::world::*;

pub struct Request {
    pub address: u64,
    /// the GPI's number; none for a lookup
    pub set: Option<u64>,
    pub l0_len: usize,
    pub arena_len: usize,
    pub base: u64,
    pub log_len: usize,
    /// words written between the requests: the place of the first, and how many may differ
    pub written: (usize, usize),
}

/// Fills and single words around an index, by the three ranges' words.
struct Around<'a> {
    words: &'a mut [u64],
    /// 2, 32, 512 MB
    span: [usize; 3],
    /// the index in `words`, which starts with the 512 MB range
    i: usize,
}

impl Around<'_> {
    fn range(&self, level: usize) -> core::ops::Range<usize> {
        let n = self.span[level];
        let low = self.i / n * n;
        low..low + n
    }

    /// A place in the range of a level that isn't in the one below: the lowest, the highest, or some.
    fn outside(&self, rng: &mut Rng, level: usize) -> usize {
        let outer = self.range(level);
        let inner = if level == 0 { self.i..self.i + 1 } else { self.range(level - 1) };
        let fixed = match rng.below(4) {
            0 => outer.start,
            1 => outer.end - 1,
            2 if inner.start > outer.start => inner.start - 1,
            3 if inner.end < outer.end => inner.end,
            _ => inner.start,
        };
        if !inner.contains(&fixed) {
            return fixed;
        }
        loop {
            let k = outer.start + rng.below(outer.len() as u64) as usize;
            if !inner.contains(&k) {
                return k;
            }
        }
    }
}

/// Arranges the words around the index, and says which GPI makes for an interesting set.
fn arrange(rng: &mut Rng, a: &mut Around, granule: u64, compact: bool) -> u64 {
    let g = rng.pick(&KNOWN);
    let mut other = rng.pick(&KNOWN);
    if other == g {
        other = if g == 9 { 10 } else { 9 };
    }
    let i = a.i;
    match rng.below(20) {
        // a range of one contiguous word
        0..4 => {
            let level = rng.below(3) as usize;
            let clean = rng.percent(60);
            let w = contiguous(rng, level as u64 + 1, g, clean);
            let r = a.range(level);
            a.words[r].fill(w);
            if rng.percent(50) { g } else { other }
        }
        // all of one GPI up to some level, spoiled above
        4..15 => {
            if compact || rng.percent(50) {
                let w = reads(rng, g);
                a.words.fill(w);
            } else {
                a.words.fill_with(|| reads(rng, g));
            }
            let level = rng.below(4) as usize;
            if level < 3 {
                for _ in 0..1 + rng.below(4) / 3 {
                    let k = a.outside(rng, level);
                    a.words[k] = match rng.below(5) {
                        0 | 1 => invalid(rng),
                        2 => reads(rng, other),
                        3 => UNIFORM * g ^ (g ^ other) << (4 * rng.below(16)),
                        _ => granules(rng),
                    };
                }
            }
            a.words[i] = match rng.below(8) {
                0..4 => UNIFORM * g ^ (g ^ other) << (4 * granule),
                4 => reads(rng, g),
                5 => {
                    let size = 1 + rng.below(3);
                    let h = if rng.percent(70) { g } else { other };
                    contiguous(rng, size, h, false)
                }
                6 => UNIFORM * g ^ (g ^ other) << (4 * rng.below(16)),
                _ => a.words[i],
            };
            if rng.percent(85) { g } else { other }
        }
        // any words
        15 | 16 => {
            let level = if compact { 0 } else { rng.below(3) as usize };
            let r = a.range(level);
            a.words[r].fill_with(|| any_word(rng));
            g
        }
        17 => {
            a.words[i] = invalid(rng);
            g
        }
        18 => {
            a.words[i] = any_word(rng);
            g
        }
        // as the last request left it
        _ => g,
    }
}

impl World {
    fn copy_out(&mut self, at: usize, n: usize) {
        self.port.slice_mut()[at..at + n].copy_from_slice(&self.rust.slice()[at..at + n]);
    }

    /// The next request, with the words around its place arranged in the Rust's arena and the port's. The model stays as it was.
    pub fn request(&mut self, rng: &mut Rng) -> Request {
        let mut q = Request {
            address: rng.next() >> rng.below(40),
            set: rng.percent(75).then(|| rng.pick(&KNOWN)),
            l0_len: self.entries,
            arena_len: self.words,
            base: self.base,
            log_len: 52 + rng.below(8) as usize,
            written: (0, 0),
        };
        let Some((p, g, l)) = self.bits else {
            q.l0_len = rng.below(5) as usize;
            return q;
        };
        // the address
        q.address &= (1 << p) - 1;
        if rng.percent(97) {
            let (i, w) = self.l0[rng.below(self.l0.len() as u64) as usize];
            q.address = (i as u64) << l | (q.address & ((1 << l) - 1));
            match rng.below(8) {
                0 => q.address &= !((1 << g) - 1),
                1 => q.address |= (1 << g) - 1,
                2 => q.address &= !((1 << 29) - 1),
                3 => q.address |= (1 << 29) - 1,
                4 => q.address &= !((1 << 21) - 1),
                5 => q.address |= (1 << 25) - 1,
                _ => {}
            }
            if let Some(o) = self.inside(w, self.base, self.words).filter(|_| w & 15 == 3) {
                let index = ((q.address & ((1 << l) - 1)) >> (g + 4)) as usize;
                let unit = 1usize << (21 - g - 4);
                let n = 256 * unit;
                let low = o + index / n * n;
                let mut around = Around {
                    words: &mut self.rust.slice_mut()[low..low + n],
                    span: [unit, 16 * unit, n],
                    i: index % n,
                };
                let wish = arrange(rng, &mut around, q.address >> g & 15, self.scale == Scale::Compact);
                if q.set.is_some() && rng.percent(85) {
                    q.set = Some(wish);
                }
                q.written = (low, n);
                self.copy_out(low, n);
            }
        }
        // out of order, now and then
        match rng.below(200) {
            0 => q.address = 1 << p,
            1 => q.address = (1 << p) + rng.below(1 << p),
            2 => q.address = u64::MAX - rng.below(3),
            3 => q.l0_len = rng.below(self.entries as u64) as usize,
            4 if self.entries < MOST_ENTRIES => q.l0_len += 1,
            5 => q.arena_len = rng.below(self.words as u64 + 1) as usize,
            6 => q.base ^= 1 << rng.below(12),
            7 => q.base = (1 << 52) - 4096 * rng.below(3),
            8 => q.log_len = rng.below(52) as usize,
            9 if q.set.is_some() => q.set = Some(rng.pick(&RESERVED)),
            10 if q.set.is_some() => q.set = Some(16 + (rng.next() >> rng.below(60)) / 2),
            _ => {}
        }
        q
    }
}
