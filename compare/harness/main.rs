//! The differential run: requests from a seeded generator go to the port and to the unchanged Rust, and everything that can be seen of both is
//! compared: answer, GPI, every arena word, every barrier with its operands, and on a part of the requests the order of every single store.

mod classes;
mod emit;
#[allow(dead_code)]
mod port;
mod random;
mod request;
mod sys;
mod world;

use sys::Region;
use classes::{Class, Tally, expected, granule_name, size_name};
use random::Rng;
use request::Request;
use world::{Scale, World};

const CANARY: u64 = 0xC0FF_EE00_C0FF_EE00;
const LOG: usize = 64;

/// What the port answered, taken apart.
pub struct Ported {
    pub answer: u64,
    pub gpi: u64,
    pub records: usize,
    pub stores: u64,
    pub log: [u64; LOG],
}

pub fn ask_port(w: &mut World, l0: &Region, q: &Request) -> Ported {
    let mut log = [CANARY; LOG];
    let arena = w.port.as_ptr();
    // SAFETY: the lengths are at most those of the regions.
    let r = unsafe {
        match q.set {
            None => port::gpt_lookup(
                w.pps, w.pgs, w.l0gptsz, w.flags, l0.as_ptr(), q.l0_len, arena, q.arena_len, q.base, q.address,
            ),
            Some(gpi) => port::gpt_set(
                w.pps, w.pgs, w.l0gptsz, w.flags, l0.as_ptr(), q.l0_len, arena, q.arena_len, q.base,
                log.as_mut_ptr(), q.log_len, q.address, gpi,
            ),
        }
    };
    match q.set {
        None => Ported { answer: r & 0xff, gpi: r >> 8, records: 0, stores: 0, log },
        Some(_) => Ported { answer: r & 0xff, gpi: 0, records: (r >> 8 & 0xff) as usize, stores: r >> 16, log },
    }
}

/// What the Rust answered: the number, the GPI.
fn ask_rust(w: &World, l0: &Region, q: &Request) -> (u64, u64) {
    // SAFETY: the tables that the L0 word names are mapped where it says, or the Rust isn't asked.
    let r = unsafe {
        match q.set {
            None => port::oracle_lookup(w.pps, w.pgs, w.l0gptsz, w.flags, l0.as_ptr(), q.address),
            Some(gpi) => port::oracle_set(w.pps, w.pgs, w.l0gptsz, w.flags, l0.as_ptr(), q.address, gpi),
        }
    };
    // 10 is an InvalidL1Entry after something was done
    let n = r & 0xff;
    (if n == 9 && q.set.is_some() && !sys::events().is_empty() { 10 } else { n }, r >> 8)
}

/// Why the Rust can't be asked, by document 01's order, and what that document answers there.
fn beyond(w: &World, l0: &Region, q: &Request) -> Option<&'static [u64]> {
    let (p, _, l) = w.bits?;
    if q.l0_len < w.entries {
        return Some(&[3]);
    }
    if q.base % 4096 != 0 || q.base as u128 + 8 * q.arena_len as u128 > 1 << 52 {
        return Some(&[4]);
    }
    if q.set.is_some() && q.log_len < 52 {
        return Some(&[5]);
    }
    if q.address >> p != 0 {
        return None;
    }
    if q.set.is_some_and(|g| !random::known(g)) {
        return Some(&[6]);
    }
    let word = l0.slice()[(q.address >> l) as usize];
    if word & 15 == 3 && w.inside(word, q.base, q.arena_len).is_none() {
        // whether the GPI is supported comes before
        return Some(if q.set.is_some() { &[6, 8] } else { &[8] });
    }
    None
}

/// The port's log against its counts, the model and the Rust's events; leaves the model as the log says the arena is. Says what is wrong.
fn check_log(w: &mut World, q: &Request, a: &Ported, events: &[sys::Event], traced: bool) -> Result<(u64, u64), String> {
    let n = 4 * a.records;
    if n > LOG || a.log[n..].iter().any(|x| *x != CANARY) {
        return Err("words past the last record".into());
    }
    let done = a.answer == 0 || a.answer == 10;
    if !done && (a.records != 0 || a.stores != 0) {
        return Err("counts of a refusal".into());
    }
    let model = w.model.slice_mut();
    let mut seen = events.iter();
    let mut stores = 0;
    let (mut shatter, mut fuse) = (0, 0);
    let mut groups = 0;
    let granule_bytes = w.bits.map_or(0, |(_, g, _)| 1u64 << g);
    for (k, r) in a.log[..n].chunks(4).enumerate() {
        let [kind, x, y, z] = [r[0], r[1], r[2], r[3]];
        match kind {
            1 | 5 => {
                let (at, count) = if kind == 1 { (x as usize, y) } else { (x as usize, 1) };
                if count == 0 || at + count as usize > q.arena_len || (kind == 5 && y > 15) {
                    return Err(format!("record {k}"));
                }
                model[at..at + count as usize].fill(z);
                stores += count;
                if traced {
                    for i in 0..count {
                        if seen.next() != Some(&[1, at as u64 + i, z, 0]) {
                            return Err(format!("store order, record {k}, its store {i}"));
                        }
                    }
                }
                if kind == 1 && k + 1 == a.records {
                    fuse = count * 16 * granule_bytes;
                }
            }
            2..=4 => {
                if seen.next() != Some(&[kind, x, y, z]) {
                    return Err(format!("barrier, record {k}"));
                }
                if kind == 3 {
                    groups += 1;
                    if groups == 1 {
                        shatter = y;
                    }
                }
            }
            _ => return Err(format!("kind of record {k}")),
        }
    }
    if seen.next().is_some() {
        return Err("the Rust did more".into());
    }
    if stores != a.stores {
        return Err("store count".into());
    }
    Ok((if groups == 2 { shatter } else { 0 }, fuse))
}

struct Run {
    rng: Rng,
    l0: Region,
    tally: Tally,
    trace_every: u64,
}

impl Run {
    /// One request: both sides, compared.
    fn one(&mut self, w: &mut World) {
        let q = w.request(&mut self.rng);
        let (at, n) = q.written;
        w.model.slice_mut()[at..at + n].copy_from_slice(&w.rust.slice()[at..at + n]);
        let small = w.words <= 1 << 15;
        let a = ask_port(w, &self.l0, &q);
        if let Some(answers) = beyond(w, &self.l0, &q) {
            *self.tally.beyond.entry(a.answer).or_default() += 1;
            let still = a.records == 0 && a.log.iter().all(|x| *x == CANARY);
            if !answers.contains(&a.answer) || !still || (small && w.port.slice() != w.model.slice()) {
                self.differs(w, &q, &a, "refused otherwise than document 01 says", (255, 0));
            }
            return;
        }
        *self.tally.combinations.entry((w.pps, w.pgs, w.l0gptsz)).or_default() += 1;
        sys::clear();
        // a store costs some microseconds when it is traced: fewer of those with many
        let often = if w.pgs == 0 { 16 * self.trace_every } else { self.trace_every };
        let traced = q.set.is_some() && self.rng.below(often) == 0;
        let (r, single) = if traced {
            sys::traced(&w.rust, || ask_rust(w, &self.l0, &q))
        } else {
            (ask_rust(w, &self.l0, &q), true)
        };
        self.tally.compared += 1;
        self.tally.traced += traced as u64;
        self.tally.stores_traced += if traced { a.stores } else { 0 };
        if !single {
            self.differs(w, &q, &a, "the Rust's store is of more than a word", r);
        }
        if (a.answer, a.gpi) != r {
            self.differs(w, &q, &a, "answer", r);
            return;
        }
        let mut class = Class { call: "lookup", answer: a.answer, granule: granule_name(w), shatter: "-", fuse: "-" };
        if q.set.is_some() {
            class.call = "set";
            match check_log(w, &q, &a, sys::events(), traced) {
                Ok((shatter, fuse)) => {
                    class.shatter = size_name(shatter);
                    class.fuse = size_name(fuse);
                }
                Err(what) => {
                    self.differs(w, &q, &a, &what, r);
                    return;
                }
            }
        }
        let window = if small { 0..w.words } else { at..at + n };
        if w.rust.slice()[window.clone()] != w.port.slice()[window.clone()] {
            self.differs(w, &q, &a, "arena words", r);
        } else if w.model.slice()[window.clone()] != w.port.slice()[window] {
            self.differs(w, &q, &a, "the log doesn't tell the stores", r);
        } else {
            *self.tally.classes.entry(class).or_default() += 1;
        }
    }

    fn differs(&mut self, w: &mut World, q: &Request, a: &Ported, what: &str, r: (u64, u64)) {
        self.tally.differ += 1;
        if self.tally.differ <= 5 {
            let word = w.bits.and_then(|(p, _, l)| (q.address >> p == 0).then(|| self.l0.slice()[(q.address >> l) as usize]));
            println!(
                "differ: {what}: pps {} pgs {} l0gptsz {} flags {:#04x} base {:#x} words {} l0 {} log {} address {:#x} {} L0 word {:#x?}: port {} (gpi {}, {} records, {} stores), Rust {} (gpi {})",
                w.pps, w.pgs, w.l0gptsz, w.flags, q.base, q.arena_len, q.l0_len, q.log_len, q.address,
                q.set.map_or("lookup".into(), |g| format!("set {g}")), word, a.answer, a.gpi, a.records, a.stores, r.0, r.1
            );
        }
        // both from the Rust's words again
        let now = w.rust.slice().to_vec();
        w.port.slice_mut().copy_from_slice(&now);
        w.model.slice_mut().copy_from_slice(&now);
    }

    fn world(&mut self, n: u64, most: u64) {
        let mut w = World::new(&mut self.rng, &mut self.l0, n, Scale::Full);
        for _ in 0..most.min(if w.bits.is_some() { 40 } else { 8 }) {
            self.one(&mut w);
            if self.tally.differ >= 20 {
                break;
            }
        }
        // every word of the large arenas, and the L0 table, once for each arrangement
        if w.rust.slice() != w.port.slice() || w.model.slice() != w.port.slice() {
            self.tally.differ += 1;
            println!("differ: arena words far from the requests' places");
        }
        if w.l0.iter().any(|(i, x)| self.l0.slice()[*i] != *x) {
            self.tally.differ += 1;
            println!("differ: the L0 table was written");
        }
        w.clear_l0(&mut self.l0);
    }
}

fn main() {
    let args: Vec<String> = std::env::args().skip(1).collect();
    let number = |i: usize, d: u64| args.get(i).map_or(d, |s| s.parse().expect("a number"));
    // SAFETY: the buffer is static.
    unsafe {
        port::oracle_listen(&raw mut sys::EVENTS as *mut _, sys::ROOM, &raw mut sys::COUNT);
    }
    if args.first().is_some_and(|s| s == "emit") {
        emit::emit(&args[1], number(2, 1), number(3, 1000));
        return;
    }
    let (seed, count, trace_every) = (number(0, 1), number(1, 1_000_000), number(2, 24));
    let mut run = Run { rng: Rng(seed), l0: Region::anywhere(world::MOST_ENTRIES), tally: Tally::default(), trace_every };
    let mut n = 0;
    while run.tally.compared < count && run.tally.differ < 20 {
        let left = count - run.tally.compared;
        run.world(n, left);
        n += 1;
    }
    let mut t = run.tally;
    let listed = t.combinations.keys().filter(|(p, g, l)| world::widths(*p, *g, *l).is_some()).count();
    println!("seed {seed}: {n} arrangements, {listed} of the 84 listed combinations of PPS, PGS and L0GPTSZ");
    println!("{:<8}{:>7}{:>9}{:>9}{:>9}{:>10}", "call", "answer", "granule", "shatter", "fuse", "requests");
    for c in expected() {
        t.classes.entry(c).or_default();
    }
    let mut empty = 0;
    for (c, k) in &t.classes {
        println!(
            "{:<8}{:>7}{:>9}{:>9}{:>9}{:>10}{}",
            c.call, c.answer, c.granule, c.shatter, c.fuse, k, if *k == 0 { "  EMPTY" } else { "" }
        );
        empty += (*k == 0) as u64;
    }
    let skipped: u64 = t.beyond.values().sum();
    let each: Vec<String> = t.beyond.iter().map(|(answer, k)| format!("{k} x {answer}")).collect();
    println!("{skipped} beyond the Rust (3, 4, 5, 8, an unknown GPI), held to document 01's rule alone: {}", each.join(", "));
    println!("{} with the order of all their stores, {} stores", t.traced, t.stores_traced);
    println!("{empty} classes empty");
    println!("{} compared, {} differ", t.compared, t.differ);
    std::process::exit((t.differ != 0) as i32);
}
