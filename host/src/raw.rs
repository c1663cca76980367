//! The archive's functions, as the Rattle crate `boundary_c` exports them. `tests/declarations.rs` compares this file with that
//! crate's source, parameter by parameter.
//!
//! How Rattle's parameters cross: `&[u8]` and `&mut [u8]` are two, a pointer and a length; `&[u8; 16]`, `&[u8; 32]`, `&mut [u8; 16]`, `&mut u32`
//! and `&mut u64` are one pointer; `&mut &[u8]` is a pointer to a pointer and a length, which is `Part`.

/// What every call answers: document 01's number, and whether an answer was found.
///
/// `found` is 1 where there is an answer (or "yes", "new", "joined", "changed"), 0 for nothing and no, and for every refusal.
#[repr(C)]
#[derive(Clone, Copy, Debug, PartialEq, Eq)]
pub struct Reply {
    /// Document 01's number: 0 is done.
    pub code: u32,
    /// 1 where an answer was found, else 0.
    pub found: u32,
}

/// A part of a lent slice, as Rattle lays a slice out in memory.
#[repr(C)]
pub(crate) struct Part {
    pub ptr: *const u8,
    pub len: usize,
}

#[rustfmt::skip]
unsafe extern "C" {
    // numbers
    pub(crate) fn sigatuda_lsn_next(n: u64, out: *mut u64) -> Reply;
    pub(crate) fn sigatuda_lsn_prev(n: u64, out: *mut u64) -> Reply;
    pub(crate) fn sigatuda_lsn_saturating_next(n: u64, out: *mut u64) -> Reply;
    pub(crate) fn sigatuda_lsn_saturating_prev(n: u64, out: *mut u64) -> Reply;
    pub(crate) fn sigatuda_page_next(p: u32, out: *mut u32) -> Reply;
    pub(crate) fn sigatuda_page_prev(p: u32, out: *mut u32) -> Reply;
    pub(crate) fn sigatuda_count_next(n: u32, out: *mut u32) -> Reply;
    pub(crate) fn sigatuda_count_prev(n: u32, out: *mut u32) -> Reply;
    pub(crate) fn sigatuda_count_last_page(n: u32, out: *mut u32) -> Reply;
    // sets
    pub(crate) fn sigatuda_set_range(first: u32, last: u32, out: *mut u8, out_len: usize) -> Reply;
    pub(crate) fn sigatuda_set_insert(set: *const u8, set_len: usize, page: u32, out: *mut u8, out_len: usize) -> Reply;
    pub(crate) fn sigatuda_set_union(a: *const u8, a_len: usize, b: *const u8, b_len: usize, out: *mut u8, out_len: usize) -> Reply;
    pub(crate) fn sigatuda_set_size(set: *const u8, set_len: usize, out: *mut u32) -> Reply;
    pub(crate) fn sigatuda_set_first(set: *const u8, set_len: usize, out: *mut u32) -> Reply;
    pub(crate) fn sigatuda_set_last(set: *const u8, set_len: usize, out: *mut u32) -> Reply;
    pub(crate) fn sigatuda_set_contains(set: *const u8, set_len: usize, page: u32) -> Reply;
    pub(crate) fn sigatuda_set_contains_any(set: *const u8, set_len: usize, first: u32, last: u32) -> Reply;
    pub(crate) fn sigatuda_set_contains_all(set: *const u8, set_len: usize, first: u32, last: u32) -> Reply;
    pub(crate) fn sigatuda_set_truncate(set: *const u8, set_len: usize, count: u32, out: *mut u8, out_len: usize) -> Reply;
    pub(crate) fn sigatuda_set_cut(left: *const u8, left_len: usize, right: *const u8, right_len: usize, common: *mut u8, common_len: usize, rest: *mut u8, rest_len: usize) -> Reply;
    pub(crate) fn sigatuda_set_remove(set: *const u8, set_len: usize, first: u32, last: u32, out: *mut u8, out_len: usize) -> Reply;
    // frames
    pub(crate) fn sigatuda_frame_list(segment: *const u8, segment_len: usize, list: *mut u8, list_len: usize, items: *mut u32) -> Reply;
    pub(crate) fn sigatuda_frame_of_page(segment: *const u8, segment_len: usize, page: u32, out: *mut u8, out_len: usize) -> Reply;
    pub(crate) fn sigatuda_frame_bytes(segment: *const u8, segment_len: usize, page: u32, lent: *const u8, lent_len: usize, part: *mut Part) -> Reply;
    pub(crate) fn sigatuda_join(a: *const u8, a_len: usize, b: *const u8, b_len: usize, out: *mut u8, out_len: usize) -> Reply;
    // volumes and snapshots
    pub(crate) fn sigatuda_changes(has_base: u32, base: u64, has_head: u32, head: u64, start: *mut u64, end: *mut u64) -> Reply;
    pub(crate) fn sigatuda_snapshot_new(log: *const [u8; 16], start: u64, end: u64, count: u32, out: *mut u8, out_len: usize) -> Reply;
    pub(crate) fn sigatuda_snapshot_append(snapshot: *const u8, snapshot_len: usize, log: *const [u8; 16], start: u64, end: u64, out: *mut u8, out_len: usize) -> Reply;
    pub(crate) fn sigatuda_snapshot_head(snapshot: *const u8, snapshot_len: usize, log: *mut [u8; 16], lsn: *mut u64) -> Reply;
    // the check of a table
    pub(crate) fn sigatuda_volumes_formed(volumes: *const u8, volumes_len: usize) -> Reply;
    pub(crate) fn sigatuda_tags_formed(tags: *const u8, tags_len: usize) -> Reply;
    pub(crate) fn sigatuda_commits_formed(commits: *const u8, commits_len: usize) -> Reply;
    pub(crate) fn sigatuda_checkpoints_formed(checkpoints: *const u8, checkpoints_len: usize) -> Reply;
    pub(crate) fn sigatuda_index_formed(index: *const u8, index_len: usize) -> Reply;
    pub(crate) fn sigatuda_presence_formed(presence: *const u8, presence_len: usize) -> Reply;
    // over tables: volumes
    pub(crate) fn sigatuda_volume_read(volumes: *const u8, volumes_len: usize, vid: *const [u8; 16], out: *mut u8, out_len: usize) -> Reply;
    pub(crate) fn sigatuda_volume_exists(volumes: *const u8, volumes_len: usize, vid: *const [u8; 16]) -> Reply;
    pub(crate) fn sigatuda_volume_list(volumes: *const u8, volumes_len: usize, list: *mut u8, list_len: usize, items: *mut u32) -> Reply;
    pub(crate) fn sigatuda_volume_delete(volumes: *mut u8, volumes_len: usize, vid: *const [u8; 16]) -> Reply;
    pub(crate) fn sigatuda_open(volumes: *mut u8, volumes_len: usize, commits: *const u8, commits_len: usize, has_vid: u32, vid: *const [u8; 16], has_local: u32, local: *const [u8; 16], has_remote: u32, remote: *const [u8; 16], spare_vid: *const [u8; 16], spare_local: *const [u8; 16], spare_remote: *const [u8; 16], out: *mut u8, out_len: usize) -> Reply;
    pub(crate) fn sigatuda_drop(volumes: *mut u8, volumes_len: usize, vid: *const [u8; 16]) -> Reply;
    // over tables: tags
    pub(crate) fn sigatuda_tag_read(tags: *const u8, tags_len: usize, name: *const u8, name_len: usize, vid: *mut [u8; 16]) -> Reply;
    pub(crate) fn sigatuda_tag_exists(tags: *const u8, tags_len: usize, name: *const u8, name_len: usize) -> Reply;
    pub(crate) fn sigatuda_tag_list(tags: *const u8, tags_len: usize, list: *mut u8, list_len: usize, items: *mut u32) -> Reply;
    pub(crate) fn sigatuda_tag_delete(tags: *mut u8, tags_len: usize, name: *const u8, name_len: usize) -> Reply;
    pub(crate) fn sigatuda_tag_replace(tags: *mut u8, tags_len: usize, name: *const u8, name_len: usize, vid: *const [u8; 16], earlier: *mut [u8; 16]) -> Reply;
    // over tables: commits
    pub(crate) fn sigatuda_commit_read(commits: *const u8, commits_len: usize, log: *const [u8; 16], lsn: u64, out: *mut u8, out_len: usize) -> Reply;
    pub(crate) fn sigatuda_latest_commit(commits: *const u8, commits_len: usize, log: *const [u8; 16], out: *mut u8, out_len: usize) -> Reply;
    pub(crate) fn sigatuda_latest_lsn(commits: *const u8, commits_len: usize, log: *const [u8; 16], lsn: *mut u64) -> Reply;
    pub(crate) fn sigatuda_page_count(commits: *const u8, commits_len: usize, log: *const [u8; 16], lsn: u64, count: *mut u32) -> Reply;
    pub(crate) fn sigatuda_stored_lsns(commits: *const u8, commits_len: usize, log: *const [u8; 16], start: u64, end: u64, list: *mut u8, list_len: usize, items: *mut u32) -> Reply;
    pub(crate) fn sigatuda_checkpoint_at(checkpoints: *const u8, checkpoints_len: usize, log: *const [u8; 16], lsn: u64, checkpoint: *mut u64) -> Reply;
    pub(crate) fn sigatuda_write_commit(commits: *mut u8, commits_len: usize, checkpoints: *mut u8, checkpoints_len: usize, index: *mut u8, index_len: usize, commit: *const u8, commit_len: usize) -> Reply;
    // over tables: present pages
    pub(crate) fn sigatuda_page_present(presence: *const u8, presence_len: usize, sid: *const [u8; 16], page: u32) -> Reply;
    pub(crate) fn sigatuda_page_mark(presence: *mut u8, presence_len: usize, sid: *const [u8; 16], page: u32) -> Reply;
    pub(crate) fn sigatuda_page_remove(presence: *mut u8, presence_len: usize, sid: *const [u8; 16], page: u32) -> Reply;
    pub(crate) fn sigatuda_pages_remove(presence: *mut u8, presence_len: usize, sid: *const [u8; 16], first: u32, last: u32) -> Reply;
    // over tables: snapshots
    pub(crate) fn sigatuda_snapshot(volumes: *const u8, volumes_len: usize, commits: *const u8, commits_len: usize, vid: *const [u8; 16], out: *mut u8, out_len: usize) -> Reply;
    pub(crate) fn sigatuda_latest_check(volumes: *const u8, volumes_len: usize, commits: *const u8, commits_len: usize, vid: *const [u8; 16], snapshot: *const u8, snapshot_len: usize) -> Reply;
    pub(crate) fn sigatuda_snapshot_commits(commits: *const u8, commits_len: usize, snapshot: *const u8, snapshot_len: usize, list: *mut u8, list_len: usize, items: *mut u32) -> Reply;
    pub(crate) fn sigatuda_search(commits: *const u8, commits_len: usize, index: *const u8, index_len: usize, snapshot: *const u8, snapshot_len: usize, page: u32, out: *mut u8, out_len: usize) -> Reply;
    pub(crate) fn sigatuda_walk(commits: *const u8, commits_len: usize, snapshot: *const u8, snapshot_len: usize, list: *mut u8, list_len: usize, items: *mut u32) -> Reply;
    pub(crate) fn sigatuda_missing_frames(commits: *const u8, commits_len: usize, presence: *const u8, presence_len: usize, snapshot: *const u8, snapshot_len: usize, list: *mut u8, list_len: usize, items: *mut u32) -> Reply;
    // over tables: saving and sending
    pub(crate) fn sigatuda_save(volumes: *const u8, volumes_len: usize, commits: *mut u8, commits_len: usize, checkpoints: *mut u8, checkpoints_len: usize, index: *mut u8, index_len: usize, presence: *mut u8, presence_len: usize, vid: *const [u8; 16], snapshot: *const u8, snapshot_len: usize, count: u32, sid: *const [u8; 16], pages: *const u8, pages_len: usize, out: *mut u8, out_len: usize) -> Reply;
    pub(crate) fn sigatuda_sync(volumes: *mut u8, volumes_len: usize, commits: *const u8, commits_len: usize, vid: *const [u8; 16]) -> Reply;
    pub(crate) fn sigatuda_prepare(volumes: *mut u8, volumes_len: usize, commits: *const u8, commits_len: usize, vid: *const [u8; 16], local: u64, commit: u64, hash: *const [u8; 32]) -> Reply;
    pub(crate) fn sigatuda_success(volumes: *mut u8, volumes_len: usize, commits: *mut u8, commits_len: usize, checkpoints: *mut u8, checkpoints_len: usize, index: *mut u8, index_len: usize, vid: *const [u8; 16], commit: *const u8, commit_len: usize) -> Reply;
    pub(crate) fn sigatuda_recover(volumes: *mut u8, volumes_len: usize, commits: *mut u8, commits_len: usize, checkpoints: *mut u8, checkpoints_len: usize, index: *mut u8, index_len: usize, vid: *const [u8; 16]) -> Reply;
    // over tables: copies
    pub(crate) fn sigatuda_volume_from_snapshot(volumes: *mut u8, volumes_len: usize, commits: *mut u8, commits_len: usize, checkpoints: *mut u8, checkpoints_len: usize, index: *mut u8, index_len: usize, snapshot: *const u8, snapshot_len: usize, vid: *const [u8; 16], local: *const [u8; 16], remote: *const [u8; 16], out: *mut u8, out_len: usize) -> Reply;
    pub(crate) fn sigatuda_volume_from_logref(volumes: *mut u8, volumes_len: usize, commits: *mut u8, commits_len: usize, checkpoints: *mut u8, checkpoints_len: usize, index: *mut u8, index_len: usize, log: *const [u8; 16], lsn: u64, vid: *const [u8; 16], local: *const [u8; 16], remote: *const [u8; 16], out: *mut u8, out_len: usize) -> Reply;
    // the integrator
    pub(crate) fn sigatuda_format() -> u32;
    pub(crate) fn sigatuda_record_size(table: u32) -> u32;
    pub(crate) fn sigatuda_entry_size(list: u32) -> u32;
    pub(crate) fn sigatuda_table_bytes(table: u32, records: u32) -> u32;
}
