//! The classes that requests fall into, and how many did.

use crate::world::World;
use std::collections::BTreeMap;

/// The largest size in bytes, named.
pub fn size_name(bytes: u64) -> &'static str {
    match bytes {
        0 => "-",
        0x20_0000 => "2 MB",
        0x200_0000 => "32 MB",
        0x2000_0000 => "512 MB",
        _ => "?",
    }
}

#[derive(PartialEq, Eq, PartialOrd, Ord)]
pub struct Class {
    pub call: &'static str,
    pub answer: u64,
    pub granule: &'static str,
    pub shatter: &'static str,
    pub fuse: &'static str,
}

#[derive(Default)]
pub struct Tally {
    pub compared: u64,
    pub traced: u64,
    pub stores_traced: u64,
    pub differ: u64,
    pub beyond: BTreeMap<u64, u64>,
    pub classes: BTreeMap<Class, u64>,
    pub combinations: BTreeMap<(u8, u8, u8), u64>,
}

pub fn granule_name(w: &World) -> &'static str {
    match w.bits {
        Some((_, 12, _)) => "4 KB",
        Some((_, 14, _)) => "16 KB",
        Some((_, 16, _)) => "64 KB",
        _ => "-",
    }
}

/// The classes that can be: document 01's answers, and which fuses can follow which shatter. A shattered range is of one GPI, so what follows is
/// at least that large or nothing, and a shattered 512 MB range has no invalid word left.
pub fn expected() -> Vec<Class> {
    let mut all = Vec::new();
    let sizes = ["-", "2 MB", "32 MB", "512 MB"];
    for answer in [1, 2] {
        for call in ["lookup", "set"] {
            all.push(Class { call, answer, granule: "-", shatter: "-", fuse: "-" });
        }
    }
    for granule in ["4 KB", "16 KB", "64 KB"] {
        for answer in [0, 6, 7, 9] {
            all.push(Class { call: "lookup", answer, granule, shatter: "-", fuse: "-" });
        }
        for answer in [6, 7, 9] {
            all.push(Class { call: "set", answer, granule, shatter: "-", fuse: "-" });
        }
        for (s, shatter) in sizes.into_iter().enumerate() {
            for (f, fuse) in sizes.into_iter().enumerate() {
                if f == 0 || f >= s {
                    all.push(Class { call: "set", answer: 0, granule, shatter, fuse });
                }
            }
            if s < 3 {
                all.push(Class { call: "set", answer: 10, granule, shatter, fuse: "-" });
            }
        }
    }
    all
}
