//! Document 01's cases in arrangement B, by the safe crate.

use ansedgul::*;

const BASE: u64 = 0x8000_0000;

fn b() -> (Config, [u64; 4], Vec<u64>, [u64; 64]) {
    let config = Config { pgs: 1, gpc: true, ..Config::default() };
    (config, [0x91, 0x8000_0003, 0x01, 0x0], vec![0x3A1; 1024], [7; 64])
}

#[test]
fn lookups() {
    let (c, l0, mut arena, _) = b();
    assert_eq!(lookup(&c, &l0, &arena, BASE, 0x3FFF_FFFF), Ok(Gpi::NonSecure));
    assert_eq!(lookup(&c, &l0, &arena, BASE, 0x4000_0000), Ok(Gpi::Root));
    assert_eq!(lookup(&c, &l0, &arena, BASE, 0xC000_0000), Err(Refusal::InvalidL0Entry));
    assert_eq!(lookup(&c, &l0, &arena, BASE, 0x1_0000_0000), Err(Refusal::InvalidRequest));
    assert_eq!(lookup(&c, &l0, &arena[..1023], BASE, 0x4000_0000), Err(Refusal::OutsideArena));
    assert_eq!(lookup(&c, &l0[..3], &arena, BASE, 0), Err(Refusal::FewL0Words));
    assert_eq!(lookup(&c, &l0, &[], 1 << 52, 0), Ok(Gpi::NonSecure));
    arena[0] = 0x0A1;
    assert_eq!(lookup(&c, &l0, &arena, BASE, 0x4000_0000), Err(Refusal::InvalidL1Entry));
    let narrow = Config { l0gptsz: 4, ..c };
    assert_eq!(lookup(&narrow, &l0, &arena, BASE, 0), Err(Refusal::InvalidConfiguration));
    assert_eq!(lookup(&Config { gpc: false, ..narrow }, &l0, &arena, BASE, 0), Err(Refusal::GptNotInitialized));
}

#[test]
fn set_and_back() {
    let (c, l0, mut arena, mut log) = b();
    let done = set(&c, &l0, &mut arena, BASE, &mut log, 0x4000_0000, Gpi::Realm);
    let tally = Tally { records: 10, stores: 513 };
    assert_eq!(done, Ok(Changed::Done(tally)));
    assert_eq!(arena[..2], [0xAAAA_AAAA_AAAA_AAAB, 0xAAAA_AAAA_AAAA_AAAA]);
    assert!(arena[2..32].iter().all(|w| *w == 0x1A1) && arena[32..512].iter().all(|w| *w == 0x2A1));
    let told: Vec<Record> = records(&log, tally).collect();
    assert_eq!(told.len(), 10);
    assert_eq!(told[4], Record::TlbiRange { address: 0x4000_0000, bytes: 0x2000_0000 });
    assert_eq!(told[6], Record::GranuleStore { index: 0, granule: 0, word: 0xAAAA_AAAA_AAAA_AAAB });
    assert!(log[40..].iter().all(|w| *w == 7));
    let done = set(&c, &l0, &mut arena, BASE, &mut log, 0x4000_0000, Gpi::Root);
    assert_eq!(done, Ok(Changed::Done(Tally { records: 5, stores: 513 })));
    assert!(arena.iter().all(|w| *w == 0x3A1));
}

#[test]
fn refused_sets() {
    let (c, l0, mut arena, mut log) = b();
    assert_eq!(set(&c, &l0, &mut arena, BASE, &mut log[..51], 0x4000_0000, Gpi::Realm), Err(Refusal::ShortLog));
    assert_eq!(set(&c, &l0, &mut arena, BASE, &mut log, 0, Gpi::NonSecure), Err(Refusal::InvalidRequest));
    assert_eq!(set(&c, &l0, &mut arena, BASE, &mut log, 0x4000_0000, Gpi::NonSecureOnly), Err(Refusal::InvalidRequest));
    arena[0] = 0xAAAA_AAAA_AAAA_AAAA;
    arena[1] = 0x2;
    let stopped = set(&c, &l0, &mut arena, BASE, &mut log, 0x4000_0000, Gpi::Root);
    assert_eq!(stopped, Ok(Changed::Stopped(Tally { records: 4, stores: 1 })));
}

#[test]
fn mend_and_check() {
    let (c, l0, mut arena, _) = b();
    assert_eq!(check(&c, &l0, &arena, BASE, 0x4000_0000), Ok(true));
    arena[..512].fill(0xAAAA_AAAA_AAAA_AAAA);
    assert_eq!(check(&c, &l0, &arena, BASE, 0x4000_0000), Ok(false));
    assert_eq!(mend(&c, &l0, &mut arena, BASE, 0x4000_0000, 1), Ok(1));
    assert_eq!(mend(&c, &l0, &mut arena, BASE, 0x4000_0000, u64::MAX), Ok(511));
    assert!(arena.iter().all(|w| *w == 0x3A1));
    assert_eq!(check(&c, &l0, &arena, BASE, 0x4000_0000), Ok(true));
    assert_eq!(check(&c, &l0, &arena, BASE, 0), Err(Refusal::InvalidRequest));
}
