//! The list for the program `replay`: requests, and what the unchanged Rust answered, stored and told. Records of four words of 64 bits, lowest
//! byte first; crates/replay/README.md says what each means.

use crate::sys::{self, Region};
use crate::random::Rng;
use crate::world::{Scale, World};
use crate::{ask_port, ask_rust, beyond};

/// What the program has room for.
const L0_WORDS: usize = 4096;
const ARENA_WORDS: usize = 16384;

/// The runs of equal new words, where `new` differs from `old`.
fn runs(old: &[u64], new: &[u64]) -> Vec<[u64; 3]> {
    let mut out: Vec<[u64; 3]> = Vec::new();
    for (i, (a, b)) in old.iter().zip(new).enumerate() {
        if a == b {
            continue;
        }
        match out.last_mut() {
            Some([at, n, w]) if *at + *n == i as u64 && *w == *b => *n += 1,
            _ => out.push([i as u64, 1, *b]),
        }
    }
    out
}

pub fn emit(path: &str, seed: u64, count: u64) {
    let mut rng = Rng(seed);
    let mut l0 = Region::anywhere(crate::world::MOST_ENTRIES);
    let mut list: Vec<[u64; 4]> = Vec::new();
    let mut asked = 0;
    while asked < count {
        let mut w = World::new(&mut rng, &mut l0, 0, Scale::Compact);
        if w.entries > L0_WORDS || w.words > ARENA_WORDS {
            w.clear_l0(&mut l0);
            continue;
        }
        let fields = [w.pps, w.pgs, w.l0gptsz, w.flags];
        list.push([1 | u64::from(u32::from_le_bytes(fields)) << 8, w.base, w.words as u64, w.entries as u64]);
        for (i, x) in &w.l0 {
            list.push([2, *i as u64, 1, *x]);
        }
        for _ in 0..12.min(count - asked) {
            let mut q = w.request(&mut rng);
            q.l0_len = w.entries;
            let apart = q.base != w.base || q.arena_len != w.words || q.log_len < 52;
            if apart || beyond(&w, &l0, &q).is_some() {
                // not the Rust's: as if it hadn't been asked
                let before = w.model.slice().to_vec();
                w.rust.slice_mut().copy_from_slice(&before);
                w.port.slice_mut().copy_from_slice(&before);
                continue;
            }
            for [i, n, x] in runs(w.model.slice(), w.rust.slice()) {
                list.push([3, i, n, x]);
            }
            let before = w.rust.slice().to_vec();
            let a = ask_port(&mut w, &l0, &q);
            sys::clear();
            let (answer, gpi) = ask_rust(&w, &l0, &q);
            assert!(a.answer == answer && a.gpi == gpi && w.rust.slice() == w.port.slice(), "a difference: compare/run shows it");
            match q.set {
                None => list.push([4, q.address, answer + 256 * gpi, 0]),
                Some(g) => {
                    list.push([5, q.address, answer, g]);
                    list.extend(sys::events().iter().map(|[kind, x, y, _]| [6 | kind << 8, *x, *y, 0]));
                    list.extend(runs(&before, w.rust.slice()).into_iter().map(|[i, n, x]| [7, i, n, x]));
                    list.push([8, 0, 0, 0]);
                }
            }
            let after = w.rust.slice().to_vec();
            w.model.slice_mut().copy_from_slice(&after);
            asked += 1;
        }
        w.clear_l0(&mut l0);
    }
    let mut bytes = Vec::new();
    for r in core::iter::once([0, list.len() as u64, asked, 0]).chain(list) {
        for x in r {
            bytes.extend(x.to_le_bytes());
        }
    }
    std::fs::write(path, &bytes).expect("the list written");
    println!("{asked} requests, {} bytes", bytes.len());
}
