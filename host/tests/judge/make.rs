//! Random values and tables in form.
use super::Kind;

/// Numbers drawn from a seed (xorshift).
pub struct Random(u64);

impl Random {
    pub fn new(seed: u64) -> Self {
        Random(seed | 1)
    }

    pub fn u64(&mut self) -> u64 {
        self.0 ^= self.0 << 13;
        self.0 ^= self.0 >> 7;
        self.0 ^= self.0 << 17;
        self.0
    }

    pub fn below(&mut self, n: usize) -> usize {
        (self.u64() >> 8) as usize % n
    }

    pub fn bytes(&mut self, n: usize) -> Vec<u8> {
        (0..n).map(|_| self.below(256) as u8).collect()
    }

    /// An identifier, few of them different, so that keys collide.
    pub fn id(&mut self) -> Vec<u8> {
        let mut id = vec![0; 15];
        id.push(self.below(5) as u8);
        id
    }

    /// An LSN that is not 0: small, at the end, or any.
    pub fn lsn(&mut self) -> u64 {
        match self.below(3) {
            0 => 1 + self.below(9) as u64,
            1 => u64::MAX - self.below(3) as u64,
            _ => self.u64() | 1,
        }
    }

    /// A page that is not 0.
    pub fn page(&mut self) -> u32 {
        match self.below(3) {
            0 => 1 + self.below(200) as u32,
            1 => u32::MAX - self.below(70) as u32,
            _ => self.u64() as u32 | 1,
        }
    }
}

/// A byte string that grows by fields.
#[derive(Default)]
struct Form(Vec<u8>);

impl Form {
    fn put(mut self, bytes: impl AsRef<[u8]>) -> Self {
        self.0.extend_from_slice(bytes.as_ref());
        self
    }

    /// Zeros up to a size.
    fn to(mut self, size: usize) -> Vec<u8> {
        assert!(self.0.len() <= size);
        self.0.resize(size, 0);
        self.0
    }

    /// A flag with these bytes, or zeros, by chance.
    fn maybe(self, r: &mut Random, bytes: Vec<u8>) -> Self {
        if r.below(2) == 0 { self.put(vec![0; 1 + bytes.len()]) } else { self.put([1]).put(bytes) }
    }
}

pub fn set(r: &mut Random) -> Vec<u8> {
    let count = [0, 1, 2, 5, 31, 32][r.below(6)];
    let reach = [40, 67_108_864][r.below(2)];
    let mut windows = std::collections::BTreeSet::new();
    while windows.len() < count {
        windows.insert(if r.below(40) == 0 { 67_108_863 } else { r.below(reach) as u32 });
    }
    let places = windows.into_iter().map(|window| {
        let mask = if r.below(2) == 0 { 1 << (1 + r.below(63)) } else { r.u64() | 2 };
        (window, if window == 0 { mask & !1 } else { mask })
    });
    let form = Form::default().put([count as u8]);
    places.fold(form, |form, (window, mask)| form.put(window.to_be_bytes()).put(mask.to_be_bytes())).to(385)
}

pub fn segment(r: &mut Random) -> Vec<u8> {
    let set = set(r);
    let start = super::starting_page(&set);
    let wanted = [0, 1, 2, 15, 16][r.below(5)];
    let mut lasts: Vec<u32> = (0..wanted).map(|_| start.saturating_add(r.below(4000) as u32)).collect();
    lasts.sort();
    lasts.dedup();
    let mut left = u64::MAX;
    let form = Form::default().put(r.id()).put(&set).put([lasts.len() as u8]);
    lasts
        .into_iter()
        .fold(form, |form, last| {
            let size = [0, 100, left / 2, left][r.below(4)].min(left);
            left -= size;
            form.put(size.to_be_bytes()).put(last.to_be_bytes())
        })
        .to(594)
}

pub fn range(r: &mut Random) -> Vec<u8> {
    let (a, b) = (r.lsn() - 1, r.lsn());
    Form::default().put(r.id()).put(a.min(b).to_be_bytes()).put(a.max(b).to_be_bytes()).put(set(r)).to(417)
}

pub fn snapshot(r: &mut Random) -> Vec<u8> {
    let length = r.below(9);
    let form = Form::default().put([0]).put((r.u64() as u32).to_be_bytes()).put([length as u8]);
    (0..length)
        .fold(form, |form, _| {
            let (a, b) = (r.lsn(), r.lsn());
            form.put(r.id()).put(a.min(b).to_be_bytes()).put(a.max(b).to_be_bytes())
        })
        .to(262)
}

fn volume(r: &mut Random) -> Vec<u8> {
    let form = Form::default().put([0]).put(r.id()).put([0]).put(r.id()).put(r.id());
    let form = match r.below(3) {
        0 => form.put([0; 18]),
        1 => form.put([1]).put(r.lsn().to_be_bytes()).put([0; 9]),
        _ => form.put([1]).put(r.lsn().to_be_bytes()).put([1]).put(r.lsn().to_be_bytes()),
    };
    let pending = Form::default().put(r.lsn().to_be_bytes()).put(r.lsn().to_be_bytes()).put(r.bytes(32)).to(48);
    form.maybe(r, pending).to(117)
}

fn tag(r: &mut Random) -> Vec<u8> {
    let length = [1, 2, 31, 32][r.below(4)];
    let mut name = r.bytes(length);
    name[0] %= 4;
    let name = Form::default().put(name).to(32);
    Form::default().put([0]).put(name).put([length as u8]).put(r.id()).to(50)
}

fn commit(r: &mut Random) -> Vec<u8> {
    let form = Form::default().put([0]).put(r.id()).put((!r.lsn()).to_be_bytes()).put((r.u64() as u32).to_be_bytes());
    let hash = r.bytes(32);
    let form = form.maybe(r, hash);
    let segment = segment(r);
    let form = form.maybe(r, segment);
    let listed = r.below(9);
    let form = form.put([listed as u8]);
    (0..listed).fold(form, |form, _| form.put(r.lsn().to_be_bytes())).to(722)
}

fn checkpoint(r: &mut Random) -> Vec<u8> {
    Form::default().put([0]).put(r.id()).put((!r.lsn()).to_be_bytes()).to(25)
}

fn index_entry(r: &mut Random) -> Vec<u8> {
    Form::default().put([0]).put(r.id()).put(r.page().to_be_bytes()).put((!r.lsn()).to_be_bytes()).to(29)
}

fn present_page(r: &mut Random) -> Vec<u8> {
    Form::default().put([0]).put(r.id()).put((!r.page()).to_be_bytes()).to(21)
}

/// A record of a table.
pub fn record(kind: &Kind, r: &mut Random) -> Vec<u8> {
    match kind.name {
        "volumes" => volume(r),
        "tags" => tag(r),
        "commits" => commit(r),
        "checkpoints" => checkpoint(r),
        "index" => index_entry(r),
        "presence" => present_page(r),
        other => unreachable!("{other}"),
    }
}

/// A table of up to twelve records, with room to spare that holds anything.
pub fn table(kind: &Kind, r: &mut Random) -> Vec<u8> {
    let mut records: Vec<_> = (0..r.below(13)).map(|_| record(kind, r)).collect();
    records.sort();
    records.dedup_by(|b, a| a[..kind.key] == b[..kind.key]);
    let spare = r.below(3 * kind.record);
    let spare = if r.below(2) == 0 { vec![0; spare] } else { r.bytes(spare) };
    Form::default().put((records.len() as u16).to_be_bytes()).put(records.concat()).put(spare).0
}
