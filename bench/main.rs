//! The bench: the port's archive against the unchanged Rust, in one run, in turns, on the same memory. A row is the median over the rounds of the
//! time of one call, and the ratio of the two medians. The Rust's object is made once, outside what is timed; the port checks its configuration
//! at each call, as its interface asks.

#[path = "../compare/harness/port.rs"]
#[allow(dead_code)]
mod port;
#[path = "../compare/harness/sys.rs"]
#[allow(dead_code)]
mod sys;

use oracle::gpt::GPIAccessType;
use std::hint::black_box;
use std::time::Instant;
use sys::Region;

const BASE: u64 = 0x5000_0000_0000;
const ROOT: u64 = 10;
const REALM: u64 = 11;

fn median(mut v: Vec<f64>) -> f64 {
    v.sort_by(f64::total_cmp);
    v[v.len() / 2]
}

fn row(name: &str, port: Vec<f64>, rust: Vec<f64>) {
    let (p, r) = (median(port), median(rust));
    println!("| {name} | {p:.1} | {r:.1} | {:.2} |", p / r);
}

/// One arrangement: PPS 36 bits, an L0 table with a block at entry 0 and a table at entry 1.
struct Bench {
    pgs: u8,
    l0: Region,
    arena: Region,
    rounds: usize,
}

impl Bench {
    fn new(pgs: u8, rounds: usize) -> Bench {
        let mut l0 = Region::anywhere(64);
        l0.slice_mut()[0] = 0x91;
        l0.slice_mut()[1] = BASE | 3;
        let words = [1 << 14, 1 << 10, 1 << 12][pgs as usize];
        Bench { pgs, l0, arena: Region::at(BASE, words).expect("memory at its physical base"), rounds }
    }

    fn name(&self) -> &'static str {
        ["4 KB", "64 KB", "16 KB"][self.pgs as usize]
    }

    fn port_lookup(&self, address: u64) -> u64 {
        // SAFETY: the regions' own lengths.
        unsafe {
            port::gpt_lookup(1, self.pgs, 0, 1, self.l0.as_ptr(), 64, self.arena.as_ptr(), self.arena.slice().len(), BASE, address)
        }
    }

    fn port_set(&self, log: &mut [u64; 52], address: u64, gpi: u64) -> u64 {
        // SAFETY: the regions' own lengths.
        unsafe {
            port::gpt_set(
                1, self.pgs, 0, 1, self.l0.as_ptr(), 64, self.arena.as_ptr(), self.arena.slice().len(), BASE, log.as_mut_ptr(), 52,
                address, gpi,
            )
        }
    }

    fn rust(&self) -> oracle::gpt::GranuleProtection<'static> {
        oracle::configure(1, self.pgs, 0, 1, self.l0.as_ptr());
        // SAFETY: both tables are mapped for as long as the bench runs.
        unsafe { oracle::discover() }.expect("a configuration in order")
    }

    /// Lookups of many addresses of one kind.
    fn lookups(&self, name: &str, addresses: &[u64]) {
        let gpt = self.rust();
        let (mut port, mut rust) = (Vec::new(), Vec::new());
        let calls = 20 * addresses.len();
        for a in addresses {
            assert_eq!(self.port_lookup(*a), oracle::lookup(&gpt, *a));
        }
        for _ in 0..self.rounds {
            let t = Instant::now();
            for _ in 0..20 {
                for a in addresses {
                    black_box(self.port_lookup(black_box(*a)));
                }
            }
            port.push(t.elapsed().as_nanos() as f64 / calls as f64);
            let t = Instant::now();
            for _ in 0..20 {
                for a in addresses {
                    black_box(oracle::lookup(black_box(&gpt), black_box(*a)));
                }
            }
            rust.push(t.elapsed().as_nanos() as f64 / calls as f64);
        }
        row(name, port, rust);
    }

    /// A set there and one back, timed apart, from the same words.
    fn there_and_back(&mut self, there: &str, back: &str, address: u64, first: u64, second: u64, words: impl Fn(&mut [u64])) {
        words(self.arena.slice_mut());
        let mut gpt = self.rust();
        let [a, b] = [first, second].map(|g| GPIAccessType::try_from(g).expect("a GPI"));
        let mut log = [0; 52];
        let mut times: [Vec<f64>; 4] = Default::default();
        for _ in 0..self.rounds * 4 {
            let t = Instant::now();
            let r = self.port_set(&mut log, black_box(address), first);
            times[0].push(t.elapsed().as_nanos() as f64);
            assert_eq!(r & 0xff, 0);
            let t = Instant::now();
            let r = self.port_set(&mut log, black_box(address), second);
            times[1].push(t.elapsed().as_nanos() as f64);
            assert_eq!(r & 0xff, 0);
            let t = Instant::now();
            let r = oracle::set(black_box(&mut gpt), black_box(address), a);
            times[2].push(t.elapsed().as_nanos() as f64);
            assert_eq!(r, 0);
            let t = Instant::now();
            let r = oracle::set(black_box(&mut gpt), black_box(address), b);
            times[3].push(t.elapsed().as_nanos() as f64);
            assert_eq!(r, 0);
        }
        let [p, q, r, s] = times;
        row(there, p, r);
        row(back, q, s);
    }
}

/// Mend and check of the largest table, 2^23 words of 64 bits: gigabytes a second, beside a plain read of the same words.
fn whole_tables(rounds: usize) {
    const WORDS: usize = 1 << 23;
    let mut l0 = Region::anywhere(8);
    l0.slice_mut()[0] = BASE | 3;
    let mut arena = Region::at(BASE, WORDS).expect("memory at its physical base");
    let speed = |t: Instant| (WORDS * 8) as f64 / t.elapsed().as_nanos() as f64;
    println!();
    println!("| table of 2^23 words | check, GB/s | mend, GB/s | plain read, GB/s |");
    println!("|---|---|---|---|");
    let mixed = |i: usize| 0x9AB8_9AB8_9AB8_9AB8u64.rotate_left(4 * (i as u32 % 16));
    // a reserved nibble in each word, so that no range ends before its last word
    let noise = |i: usize| ((i as u64).wrapping_mul(0x9E37_79B9_7F4A_7C15) & !15) | 2;
    let root = |_: usize| 0x3A1;
    let off = |i: usize| if i == WORDS - 1 { 0x1A1 } else { 0x3A1 };
    let uniform = |_: usize| 0xAAAA_AAAA_AAAA_AAAA;
    let kinds: [(&str, &dyn Fn(usize) -> u64); 5] = [
        ("normal, contiguous", &root),
        ("normal, granules", &mixed),
        ("one word off, the last", &off),
        ("all garbage", &noise),
        ("all to be written", &uniform),
    ];
    for (name, word) in kinds {
        let mut times: [Vec<f64>; 3] = Default::default();
        for _ in 0..rounds.div_ceil(4) {
            for (i, w) in arena.slice_mut().iter_mut().enumerate() {
                *w = word(i);
            }
            let t = Instant::now();
            black_box(black_box(arena.slice()).iter().fold(0, |a, x| a ^ x));
            times[2].push(speed(t));
            // SAFETY: the regions' own lengths.
            unsafe {
                let t = Instant::now();
                let r = port::gpt_check(3, 0, 9, 1, l0.as_ptr(), 8, arena.as_ptr(), WORDS, BASE, 0);
                times[0].push(speed(t));
                assert_eq!(r & 0xff, 0);
                let t = Instant::now();
                let r = port::gpt_mend(3, 0, 9, 1, l0.as_ptr(), 8, arena.as_ptr(), WORDS, BASE, 0, u64::MAX);
                times[1].push(speed(t));
                assert_eq!(r & 0xff, 0);
            }
        }
        let [check, mend, plain] = times.map(median);
        // a check that ends at the first word that isn't normal reads next to nothing
        let check = if check > 100.0 { "ends at once".into() } else { format!("{check:.2}") };
        println!("| {name} | {check} | {mend:.2} | {plain:.2} |");
    }
}

fn main() {
    let rounds = std::env::args().nth(1).map_or(51, |s| s.parse().expect("a number of rounds"));
    println!("| call | port, ns | Rust, ns | ratio |");
    println!("|---|---|---|---|");
    for pgs in [0, 2, 1] {
        let mut b = Bench::new(pgs, rounds);
        let k = b.name();
        let spread: Vec<u64> = (0..1000u64).map(|i| 0x4000_0000 + (i * 0x9E37_79B9 & 0x3fff_ffff)).collect();
        for (i, w) in b.arena.slice_mut().iter_mut().enumerate() {
            *w = 0x9AB8_9AB8_9AB8_9AB8u64.rotate_left(4 * (i as u32 % 16));
        }
        b.lookups(&format!("lookup, granules, {k}"), &spread);
        b.arena.slice_mut().fill(0x3A1);
        b.lookups(&format!("lookup, contiguous, {k}"), &spread);
        let low: Vec<u64> = spread.iter().map(|a| a - 0x4000_0000).collect();
        b.lookups(&format!("lookup, L0 block, {k}"), &low);
        let x = 0x4000_0000 + 0x1234_5678;
        let (shatter, fuse) = (format!("set, shatters 512 MB, {k}"), format!("set, fuses 512 MB, {k}"));
        b.there_and_back(&shatter, &fuse, x, REALM, ROOT, |w| w.fill(0x3A1));
        let (one, two) = (format!("set, granules, no fusing, {k}"), format!("set, granules, back, {k}"));
        b.there_and_back(&one, &two, x, REALM, ROOT, |w| w.fill(0x9AB8_9AB8_9AB8_9AB8));
    }
    whole_tables(rounds);
}
