//! Each function of the archive once, on plain numbers and byte slices. Every input can be spelled here, wrong ones among them;
//! the types of the other modules leave most wrong ones out.
//!
//! An out value is written only with code 0, and with found 1 where the call can find nothing; else it stays as it was.

use crate::raw::{self, Part, Reply};

/// Makes a function of the archive's of each signature: a slice crosses as a pointer and a length, anything else as it is.
///
/// SAFETY, of the block in `crossed!`: each pointer and length is a live slice or number of the caller for the whole call; what Rattle takes as `&mut` is
/// borrowed exclusively, so Rust's own borrows keep the arguments apart.
macro_rules! calls {
    ($($(#[$note:meta])* fn $name:ident = $raw:ident($($parameters:tt)*) -> $answer:ty;)*) => {
        $($(#[$note])*
        #[allow(clippy::too_many_arguments)]
        pub fn $name($($parameters)*) -> $answer {
            crossed!($raw [] $($parameters)*,)
        })*
    };
}

/// The call of a function, its parameters crossed one after another.
macro_rules! crossed {
    ($raw:ident [$($done:expr),*] $(,)?) => { unsafe { raw::$raw($($done),*) } };
    ($raw:ident [$($done:expr),*] $next:ident: &mut [u8], $($rest:tt)*) => {
        crossed!($raw [$($done,)* $next.as_mut_ptr(), $next.len()] $($rest)*)
    };
    ($raw:ident [$($done:expr),*] $next:ident: &[u8], $($rest:tt)*) => {
        crossed!($raw [$($done,)* $next.as_ptr(), $next.len()] $($rest)*)
    };
    ($raw:ident [$($done:expr),*] $next:ident: $kind:ty, $($rest:tt)*) => {
        crossed!($raw [$($done,)* $next] $($rest)*)
    };
}

mod lent;
pub use lent::*;

calls! {
    /// The LSN after `n`: 1 for LSN 0, 18 for the last.
    fn lsn_next = sigatuda_lsn_next(n: u64, out: &mut u64) -> Reply;

    /// The LSN before `n`, or nothing before 1: 1 for LSN 0.
    fn lsn_prev = sigatuda_lsn_prev(n: u64, out: &mut u64) -> Reply;

    /// The LSN after `n`, and the last for the last: 1 for LSN 0.
    fn lsn_saturating_next = sigatuda_lsn_saturating_next(n: u64, out: &mut u64) -> Reply;

    /// The LSN before `n`, and 1 for 1: 1 for LSN 0.
    fn lsn_saturating_prev = sigatuda_lsn_saturating_prev(n: u64, out: &mut u64) -> Reply;

    /// The page after `p`, and the last for the last: 1 for page 0.
    fn page_next = sigatuda_page_next(p: u32, out: &mut u32) -> Reply;

    /// The page before `p`, and 1 for 1: 1 for page 0.
    fn page_prev = sigatuda_page_prev(p: u32, out: &mut u32) -> Reply;

    /// The count after `n`, and the last for the last.
    fn count_next = sigatuda_count_next(n: u32, out: &mut u32) -> Reply;

    /// The count before `n`, and 0 for 0.
    fn count_prev = sigatuda_count_prev(n: u32, out: &mut u32) -> Reply;

    /// The page at which `n` pages end, or nothing for none.
    fn count_last_page = sigatuda_count_last_page(n: u32, out: &mut u32) -> Reply;

    /// The set of the pages from `first` to `last`: 1, 2, 3 for `out`, 22.
    fn set_range = sigatuda_set_range(first: u32, last: u32, out: &mut [u8]) -> Reply;

    /// The set with `page` in it, and whether it is new: 1, 3, 22. `out` is written in both cases.
    fn set_insert = sigatuda_set_insert(set: &[u8], page: u32, out: &mut [u8]) -> Reply;

    /// The pages of both sets: 3, 22.
    fn set_union = sigatuda_set_union(a: &[u8], b: &[u8], out: &mut [u8]) -> Reply;

    /// The number of pages: 3.
    fn set_size = sigatuda_set_size(set: &[u8], out: &mut u32) -> Reply;

    /// The first page, or nothing: 3.
    fn set_first = sigatuda_set_first(set: &[u8], out: &mut u32) -> Reply;

    /// The last page, or nothing: 3.
    fn set_last = sigatuda_set_last(set: &[u8], out: &mut u32) -> Reply;

    /// Whether `page` is in the set: 1, 3.
    fn set_contains = sigatuda_set_contains(set: &[u8], page: u32) -> Reply;

    /// Whether some page from `first` to `last` is in the set: 1, 2, 3.
    fn set_contains_any = sigatuda_set_contains_any(set: &[u8], first: u32, last: u32) -> Reply;

    /// Whether all pages from `first` to `last` are in the set: 1, 2, 3.
    fn set_contains_all = sigatuda_set_contains_all(set: &[u8], first: u32, last: u32) -> Reply;

    /// The set without the pages above `count`: 3.
    fn set_truncate = sigatuda_set_truncate(set: &[u8], count: u32, out: &mut [u8]) -> Reply;

    /// The common pages, and the left set without them: 3.
    fn set_cut = sigatuda_set_cut(left: &[u8], right: &[u8], common: &mut [u8], rest: &mut [u8]) -> Reply;

    /// The set without the pages from `first` to `last`: 1, 2, 3.
    fn set_remove = sigatuda_set_remove(set: &[u8], first: u32, last: u32, out: &mut [u8]) -> Reply;

    /// The segment's frames, one range after another, and their number: 3, 19. `list` holds the whole ranges that fit; what lies past
    /// the answer stays.
    fn frame_list = sigatuda_frame_list(segment: &[u8], list: &mut [u8], items: &mut u32) -> Reply;

    /// The frame that holds `page`, or nothing: 1, 3.
    fn frame_of_page = sigatuda_frame_of_page(segment: &[u8], page: u32, out: &mut [u8]) -> Reply;

    /// Two ranges joined, or nothing where they cannot be: 2, 3, 22.
    fn join = sigatuda_join(a: &[u8], b: &[u8], out: &mut [u8]) -> Reply;

    /// The LSNs from the base's next to the head, or nothing: 1, 16. A flag of 0 says missing, any other there.
    fn changes = sigatuda_changes(has_base: u32, base: u64, has_head: u32, head: u64, start: &mut u64, end: &mut u64) -> Reply;

    /// A snapshot of one range: 1, 2, 3.
    fn snapshot_new = sigatuda_snapshot_new(log: &[u8; 16], start: u64, end: u64, count: u32, out: &mut [u8]) -> Reply;

    /// The snapshot with a range after its path: 1, 2, 3.
    fn snapshot_append = sigatuda_snapshot_append(snapshot: &[u8], log: &[u8; 16], start: u64, end: u64, out: &mut [u8]) -> Reply;

    /// The log of the first range and its last LSN, or nothing for an empty path: 1, 2, 3.
    fn snapshot_head = sigatuda_snapshot_head(snapshot: &[u8], log: &mut [u8; 16], lsn: &mut u64) -> Reply;

    /// Whether bytes are a table of volumes: 20 where they are not.
    fn volumes_formed = sigatuda_volumes_formed(volumes: &[u8]) -> Reply;

    /// Whether bytes are a table of tags: 20 where they are not.
    fn tags_formed = sigatuda_tags_formed(tags: &[u8]) -> Reply;

    /// Whether bytes are a table of commits: 20 where they are not.
    fn commits_formed = sigatuda_commits_formed(commits: &[u8]) -> Reply;

    /// Whether bytes are a table of checkpoints: 20 where they are not.
    fn checkpoints_formed = sigatuda_checkpoints_formed(checkpoints: &[u8]) -> Reply;

    /// Whether bytes are a page index: 20 where they are not.
    fn index_formed = sigatuda_index_formed(index: &[u8]) -> Reply;

    /// Whether bytes are a table of present pages: 20 where they are not.
    fn presence_formed = sigatuda_presence_formed(presence: &[u8]) -> Reply;

    /// The number of the byte forms that the archive keeps.
    fn format = sigatuda_format() -> u32;

    /// The bytes of a record of table 0 to 5 (volumes, tags, commits, checkpoints, index, presence), 0 for any other.
    fn record_size = sigatuda_record_size(table: u32) -> u32;

    /// The bytes of an entry of list 0 to 6 (volumes, tags, stored LSNs, commits of a snapshot, frames of a segment, walk, missing frames), 0 for any other.
    fn entry_size = sigatuda_entry_size(list: u32) -> u32;

    /// The bytes of table 0 to 5 with room for so many records, 0 for any other table and for more than 65,535 records. A fresh table is so many zeros.
    fn table_bytes = sigatuda_table_bytes(table: u32, records: u32) -> u32;
}

/// The check of each table, in the order of docs/TABLES.md.
pub const FORMED: [fn(&[u8]) -> Reply; 6] =
    [volumes_formed, tags_formed, commits_formed, checkpoints_formed, index_formed, presence_formed];

/// The bytes of the frame that holds `page`, as a part of `lent`, or nothing: 1, 3, 23. `part` is written where it is found.
pub fn frame_bytes<'a>(segment: &[u8], page: u32, lent: &'a [u8], part: &mut &'a [u8]) -> Reply {
    let mut out = Part { ptr: lent.as_ptr(), len: 0 };
    // SAFETY: as in `calls!`, and `out` is of this call alone
    let reply = unsafe { raw::sigatuda_frame_bytes(segment.as_ptr(), segment.len(), page, lent.as_ptr(), lent.len(), &mut out) };
    if reply.found == 1 {
        // taken from `lent` by its place, so that no pointer of the archive is followed
        let at = (out.ptr as usize).wrapping_sub(lent.as_ptr() as usize);
        *part = at.checked_add(out.len).and_then(|end| lent.get(at..end)).expect("the part lies in the lent slice");
    }
    reply
}
