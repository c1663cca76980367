//! A few values that several tests use.
use sigatuda::*;

pub const fn id(n: u8) -> [u8; 16] {
    let mut id = [0; 16];
    id[15] = n;
    id
}

pub const VID: VolumeId = VolumeId(id(1));
pub const LOCAL: LogId = LogId(id(10));
pub const REMOTE: LogId = LogId(id(11));

pub fn lsn(n: u64) -> Lsn {
    Lsn::new(n).unwrap()
}

pub fn page(n: u32) -> PageIdx {
    PageIdx::new(n).unwrap()
}

pub fn pages(of: &[u32]) -> PageSet {
    PageSet::of(of.iter().map(|&n| page(n))).unwrap()
}
