//! The same books at two sizes: what a tester holds, and the largest tables that are of use.
//!
//! One log of N commits, LSNs 1 to N, each of 16 pages in a row and all its pages present; the pages go round, 2,000 of them at the large size. Volume 1 has it as its local
//! log; volume 2 follows it as its remote log, one commit behind, and has nothing of its own. The last commit, of 15 pages, is the one that a write or a save stores.

/// Pages of a commit.
const EACH: u32 = 16;
/// Pages there are.
const PAGES: u32 = 2000;

/// The log of the commits; another that has none.
pub const LOG: [u8; 16] = [7; 16];
pub const NO_LOG: [u8; 16] = [8; 16];
pub const LOCAL_VOLUME: [u8; 16] = [1; 16];
pub const REMOTE_VOLUME: [u8; 16] = [2; 16];

/// A size: its name and its commits.
#[derive(Clone, Copy)]
pub struct Size {
    pub name: &'static str,
    pub commits: u32,
}

pub const SIZES: [Size; 2] = [Size { name: "tester", commits: 32 }, Size { name: "full", commits: 4096 }];

impl Size {
    /// The pages of the commit at an LSN, rising: the last commit has one less, so that 4,096 of them have 65,535.
    pub fn pages(self, lsn: u32) -> Vec<u32> {
        let each = if lsn == self.commits { EACH - 1 } else { EACH };
        let mut pages: Vec<u32> = (0..each).map(|k| 1 + ((lsn - 1) * EACH + k) % PAGES).collect();
        pages.sort();
        pages
    }

    /// The segment of the commit at an LSN.
    pub fn sid(self, lsn: u32) -> [u8; 16] {
        let mut sid = [0x51; 16];
        sid[12..].copy_from_slice(&lsn.to_be_bytes());
        sid
    }

    /// The page count of all commits.
    pub fn count(self) -> u32 {
        PAGES.min(self.commits * EACH)
    }

    /// The page set of the commit at an LSN, in its form.
    pub fn set(self, lsn: u32) -> Vec<u8> {
        let mut set = vec![0; 385];
        let mut windows: Vec<(u32, u64)> = vec![];
        for page in self.pages(lsn) {
            match windows.last_mut() {
                Some((window, mask)) if *window == page / 64 => *mask |= 1 << (page % 64),
                _ => windows.push((page / 64, 1 << (page % 64))),
            }
        }
        set[0] = windows.len() as u8;
        for (place, (window, mask)) in set[1..].chunks_exact_mut(12).zip(windows) {
            place[..4].copy_from_slice(&window.to_be_bytes());
            place[4..].copy_from_slice(&mask.to_be_bytes());
        }
        set
    }

    /// The commit at an LSN, in its form.
    pub fn commit(self, lsn: u32) -> Vec<u8> {
        let mut b = vec![0; 722];
        b[1..17].copy_from_slice(&LOG);
        b[17..25].copy_from_slice(&(!u64::from(lsn)).to_be_bytes());
        b[25..29].copy_from_slice(&self.count().to_be_bytes());
        b[62] = 1;
        b[63..79].copy_from_slice(&self.sid(lsn));
        b[79..464].copy_from_slice(&self.set(lsn));
        b
    }

    /// The tables of the first so many commits, with room for all: volumes, commits, checkpoints, index, presence.
    pub fn tables(self, held: u32) -> [Vec<u8>; 5] {
        let volumes = vec![volume(LOCAL_VOLUME, LOG, NO_LOG, None), volume(REMOTE_VOLUME, NO_LOG, LOG, Some(u64::from(held) - 1))];
        let commits = (1..=held).map(|lsn| self.commit(lsn)).collect();
        let entry = |lsn: u32, page: u32| [&[0], &LOG[..], &page.to_be_bytes(), &(!u64::from(lsn)).to_be_bytes()].concat();
        let index = (1..=held).flat_map(|lsn| self.pages(lsn).into_iter().map(move |p| entry(lsn, p))).collect();
        let present = |lsn: u32, page: u32| [&[0], &self.sid(lsn)[..], &(!page).to_be_bytes()].concat();
        let presence = (1..=held).flat_map(|lsn| self.pages(lsn).into_iter().map(move |p| present(lsn, p))).collect();
        let (commits_room, pages_room) = (self.commits as usize, (self.commits * EACH - 1) as usize);
        [
            table(volumes, 117, 4),
            table(commits, 722, commits_room),
            table(vec![], 25, 32),
            table(index, 29, pages_room),
            table(presence, 21, pages_room),
        ]
    }
}

fn volume(vid: [u8; 16], local: [u8; 16], remote: [u8; 16], sync: Option<u64>) -> Vec<u8> {
    let mut b = vec![0; 117];
    b[1..17].copy_from_slice(&vid);
    b[18..34].copy_from_slice(&local);
    b[34..50].copy_from_slice(&remote);
    if let Some(lsn) = sync {
        b[50] = 1;
        b[51..59].copy_from_slice(&lsn.to_be_bytes());
    }
    b
}

/// The table of some records, in the order of their bytes, with room for so many.
fn table(mut records: Vec<Vec<u8>>, size: usize, room: usize) -> Vec<u8> {
    records.sort();
    let mut bytes = (records.len() as u16).to_be_bytes().to_vec();
    bytes.extend(records.concat());
    bytes.resize(2 + room * size, 0);
    bytes
}

/// The page of the k-th search: all over the pages that some commit holds.
pub fn searched(size: Size, k: u32) -> u32 {
    1 + k * 617 % (size.count() - 1)
}
