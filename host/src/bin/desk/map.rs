//! Which commit holds which page of a volume, as its reader sees it now.
use crate::words;
use sigatuda::{Checkpoints, Commits, Index, Presence, Refusal, Snapshot, Tables, Tags, Volume, VolumeId, Volumes, WalkItem};
use std::collections::BTreeMap;

/// The pages of a row.
pub const ACROSS: u64 = 64;
/// The most rows that are drawn; the list of commits has every page.
const MOST_ROWS: usize = 4096;

/// A volume, its snapshot, and what each commit gives its reader.
pub struct Map {
    pub volume: Volume,
    pub snapshot: Snapshot,
    pub items: Vec<WalkItem>,
}

/// Pages of the map, in rising order.
pub enum Row {
    /// From a page on, the item that holds each page, if any.
    Pages(u64, Vec<Option<usize>>),
    /// From a page to a page, none is held.
    Bare(u64, u64),
    /// From a page on, the rest is not drawn.
    Rest(u64),
}

impl Map {
    /// The map of a volume: 20, 4.
    pub fn of_volume(volumes: &mut [u8], commits: &mut [u8], vid: VolumeId) -> Result<Map, Refusal> {
        let t = Tables {
            volumes: Volumes::lend(volumes),
            tags: Tags::lend(&mut []),
            commits: Commits::lend(commits),
            checkpoints: Checkpoints::lend(&mut []),
            index: Index::lend(&mut []),
            presence: Presence::lend(&mut []),
        };
        let (snapshot, volume) = (t.snapshot(vid)?, t.volumes.read(vid)?);
        // a commit gives once, so the commits held are places enough
        let mut list = vec![0; t.commits.held().unwrap_or(0) * WalkItem::SIZE];
        let items = t.commits.walk(&snapshot, &mut list)?.collect();
        Ok(Map { volume, snapshot, items })
    }

    /// Whose log an item's commit is in.
    pub fn whose(&self, item: &WalkItem) -> &'static str {
        if item.log == self.volume.local { "local" } else { "remote" }
    }

    /// The rows: those that hold a page, and what lies between them.
    pub fn rows(&self) -> Vec<Row> {
        let mut held: BTreeMap<u64, [Option<usize>; ACROSS as usize]> = BTreeMap::new();
        let mut cut = u64::MAX; // the first row that is not drawn
        for (i, item) in self.items.iter().enumerate() {
            for page in item.gift.pages().map(|page| u64::from(page.get()) - 1) {
                held.entry(page / ACROSS).or_insert([None; ACROSS as usize])[(page % ACROSS) as usize] = Some(i);
            }
            while held.len() > MOST_ROWS {
                cut = held.pop_last().map_or(cut, |(row, _)| cut.min(row));
            }
        }
        self.with_gaps(held.range(..cut).map(|(&row, cells)| (row, &cells[..])), cut < u64::MAX)
    }

    /// Rows that hold a page, with what lies between them up to the page count or to where the map is cut.
    fn with_gaps<'a>(&self, held: impl Iterator<Item = (u64, &'a [Option<usize>])>, cut: bool) -> Vec<Row> {
        let count = u64::from(self.snapshot.count.0);
        let (mut rows, mut next) = (Vec::new(), 1);
        for (row, cells) in held {
            let (first, last) = (row * ACROSS + 1, count.min((row + 1) * ACROSS));
            if next < first {
                rows.push(Row::Bare(next, first - 1));
            }
            rows.push(Row::Pages(first, cells.iter().copied().take((last + 1 - first) as usize).collect()));
            next = last + 1;
        }
        if cut {
            rows.push(Row::Rest(next));
        } else if next <= count {
            rows.push(Row::Bare(next, count));
        }
        rows
    }

    /// The map as text: the ranges that are read, what each commit gives, then the pages, 64 in a row, each by its commit's sign.
    pub fn text(&self) -> String {
        let held: usize = self.items.iter().map(|item| item.gift.len().0 as usize).sum();
        let mut text = format!("map vid={} count={} held={held}\n", words::hex(&self.volume.vid.0), self.snapshot.count.0);
        for range in self.snapshot.path.iter() {
            text += &format!("range log={} first={} last={}\n", words::hex(&range.log.0), range.start.get(), range.end.get());
        }
        for (i, item) in self.items.iter().enumerate() {
            let (log, lsn) = (words::hex(&item.log.0), item.lsn.get());
            text += &format!("gift sign={} from={} log={log} lsn={lsn} pages={}\n", sign(i), self.whose(item), words::pages(&item.gift));
        }
        for row in self.rows() {
            text += &match row {
                Row::Pages(first, cells) => {
                    format!("{first:>10} {}\n", cells.iter().map(|cell| cell.map_or('.', sign)).collect::<String>())
                }
                Row::Bare(first, last) => format!("{first:>10} no commit up to page {last}\n"),
                Row::Rest(first) => format!("{first:>10} and on: see the gifts above\n"),
            };
        }
        text
    }
}

/// The sign of an item, by its place in the walk: a letter or a digit, `*` for the 63rd and all after it.
pub fn sign(item: usize) -> char {
    let signs = "abcdefghijklmnopqrstuvwxyzABCDEFGHIJKLMNOPQRSTUVWXYZ0123456789";
    signs.chars().nth(item).unwrap_or('*')
}
