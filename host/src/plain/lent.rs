//! The calls over tables, on lent bytes. A call is lent the tables that it reads or writes, in the order volumes, tags, commits, checkpoints, index,
//! presence; bytes that are no table are 20, before anything else. A refused call leaves every lent byte as it was, but for recover's 8,
//! which drops the pending commit.

use crate::raw::{self, Reply};

calls! {
    /// The volume's record: 20, 3 for `out`, 4.
    fn volume_read = sigatuda_volume_read(volumes: &[u8], vid: &[u8; 16], out: &mut [u8]) -> Reply;

    /// Whether there is a volume of that identifier: 20.
    fn volume_exists = sigatuda_volume_exists(volumes: &[u8], vid: &[u8; 16]) -> Reply;

    /// Every volume in key order, one record after another, and their number: 20, 19. What lies past the answer stays.
    fn volume_list = sigatuda_volume_list(volumes: &[u8], list: &mut [u8], items: &mut u32) -> Reply;

    /// Removes the volume's record; done where there is none: 20.
    fn volume_delete = sigatuda_volume_delete(volumes: &mut [u8], vid: &[u8; 16]) -> Reply;

    /// A volume opened: stored and asked, it is answered; else a new one is stored, with a spare for each identifier that is not asked. A flag of 0
    /// says spare, any other asked: 20, 3 for `out`, 6, 5, 19.
    fn open = sigatuda_open(
        volumes: &mut [u8], commits: &[u8], has_vid: u32, vid: &[u8; 16], has_local: u32, local: &[u8; 16], has_remote: u32,
        remote: &[u8; 16], spare_vid: &[u8; 16], spare_local: &[u8; 16], spare_remote: &[u8; 16], out: &mut [u8]
    ) -> Reply;

    /// Drops the volume's pending commit; done where there is none: 20, 4.
    fn drop = sigatuda_drop(volumes: &mut [u8], vid: &[u8; 16]) -> Reply;

    /// The volume that a tag names, or nothing: 20, 1.
    fn tag_read = sigatuda_tag_read(tags: &[u8], name: &[u8], vid: &mut [u8; 16]) -> Reply;

    /// Whether there is a tag of that name: 20, 1.
    fn tag_exists = sigatuda_tag_exists(tags: &[u8], name: &[u8]) -> Reply;

    /// Every tag in key order, one record after another, and their number: 20, 19. What lies past the answer stays.
    fn tag_list = sigatuda_tag_list(tags: &[u8], list: &mut [u8], items: &mut u32) -> Reply;

    /// Removes a tag; done where there is none: 20, 1.
    fn tag_delete = sigatuda_tag_delete(tags: &mut [u8], name: &[u8]) -> Reply;

    /// Makes a tag name a volume, and answers the one that it named before, or nothing: 20, 1, 19.
    fn tag_replace = sigatuda_tag_replace(tags: &mut [u8], name: &[u8], vid: &[u8; 16], earlier: &mut [u8; 16]) -> Reply;

    /// The commit at a log's LSN, or nothing: 20, 1, 3 for `out`.
    fn commit_read = sigatuda_commit_read(commits: &[u8], log: &[u8; 16], lsn: u64, out: &mut [u8]) -> Reply;

    /// A log's latest commit, or nothing: 20, 3 for `out`.
    fn latest_commit = sigatuda_latest_commit(commits: &[u8], log: &[u8; 16], out: &mut [u8]) -> Reply;

    /// A log's latest LSN, or nothing: 20.
    fn latest_lsn = sigatuda_latest_lsn(commits: &[u8], log: &[u8; 16], lsn: &mut u64) -> Reply;

    /// The page count as of a log's LSN, or nothing: 20, 1.
    fn page_count = sigatuda_page_count(commits: &[u8], log: &[u8; 16], lsn: u64, count: &mut u32) -> Reply;

    /// The LSNs of a log's range that are stored, falling, 8 bytes each, and their number: 20, 1, 2, 19. What lies past the answer stays.
    fn stored_lsns = sigatuda_stored_lsns(commits: &[u8], log: &[u8; 16], start: u64, end: u64, list: &mut [u8], items: &mut u32) -> Reply;

    /// A log's highest checkpoint at or below an LSN, or nothing: 20, 1.
    fn checkpoint_at = sigatuda_checkpoint_at(checkpoints: &[u8], log: &[u8; 16], lsn: u64, checkpoint: &mut u64) -> Reply;

    /// Stores a commit with its checkpoints and index entries, all or nothing: 20, 1, 3, 19.
    fn write_commit = sigatuda_write_commit(commits: &mut [u8], checkpoints: &mut [u8], index: &mut [u8], commit: &[u8]) -> Reply;

    /// Whether a page of a segment is present: 20, 1.
    fn page_present = sigatuda_page_present(presence: &[u8], sid: &[u8; 16], page: u32) -> Reply;

    /// Marks a page of a segment present; done where it is already: 20, 1, 19.
    fn page_mark = sigatuda_page_mark(presence: &mut [u8], sid: &[u8; 16], page: u32) -> Reply;

    /// Removes a present page; done where there is none: 20, 1.
    fn page_remove = sigatuda_page_remove(presence: &mut [u8], sid: &[u8; 16], page: u32) -> Reply;

    /// Removes the present pages of a segment from `first` to `last`: 20, 1, 2.
    fn pages_remove = sigatuda_pages_remove(presence: &mut [u8], sid: &[u8; 16], first: u32, last: u32) -> Reply;

    /// What the volume's reader sees now: 20, 3 for `out`, 4.
    fn snapshot = sigatuda_snapshot(volumes: &[u8], commits: &[u8], vid: &[u8; 16], out: &mut [u8]) -> Reply;

    /// Whether a snapshot is the volume's latest: 20, 1, 2, 3, 4.
    fn latest_check = sigatuda_latest_check(volumes: &[u8], commits: &[u8], vid: &[u8; 16], snapshot: &[u8]) -> Reply;

    /// The commits of a snapshot in path order, LSN falling, one record after another, and their number: 20, 1, 2, 3, 19.
    fn snapshot_commits = sigatuda_snapshot_commits(commits: &[u8], snapshot: &[u8], list: &mut [u8], items: &mut u32) -> Reply;

    /// The commit that holds a page as a snapshot sees it, or nothing: 20, 1, 2, 3, 3 for `out`, 21.
    fn search = sigatuda_search(commits: &[u8], index: &[u8], snapshot: &[u8], page: u32, out: &mut [u8]) -> Reply;

    /// What each commit of a snapshot gives, in path order, one item of 1003 bytes after another, and their number: 20, 1, 2, 3, 19.
    fn walk = sigatuda_walk(commits: &[u8], snapshot: &[u8], list: &mut [u8], items: &mut u32) -> Reply;

    /// The frames that a snapshot needs and that are not present, one range after another, and their number: 20, 1, 2, 3, 19.
    fn missing_frames = sigatuda_missing_frames(
        commits: &[u8], presence: &[u8], snapshot: &[u8], list: &mut [u8], items: &mut u32
    ) -> Reply;

    /// Saves pages of a segment as the volume's next local commit, and answers the snapshot afterwards: 20, 1, 2, 3, 3 for `out`, 4, 7, 18, 5, 19.
    fn save = sigatuda_save(
        volumes: &[u8], commits: &mut [u8], checkpoints: &mut [u8], index: &mut [u8], presence: &mut [u8], vid: &[u8; 16],
        snapshot: &[u8], count: u32, sid: &[u8; 16], pages: &[u8], out: &mut [u8]
    ) -> Reply;

    /// Moves the volume's sync point to the remote's latest: 20, 4, 16, 8.
    fn sync = sigatuda_sync(volumes: &mut [u8], commits: &[u8], vid: &[u8; 16]) -> Reply;

    /// Sets the volume's pending commit before it is sent: 20, 1, 4, 9, 11, 12, 13.
    fn prepare = sigatuda_prepare(volumes: &mut [u8], commits: &[u8], vid: &[u8; 16], local: u64, commit: u64, hash: &[u8; 32]) -> Reply;

    /// The pending commit was taken: writes it, and makes it the sync point: 20, 1, 3, 4, 10, 14, 15, 19.
    fn success = sigatuda_success(
        volumes: &mut [u8], commits: &mut [u8], checkpoints: &mut [u8], index: &mut [u8], vid: &[u8; 16], commit: &[u8]
    ) -> Reply;

    /// Ends a pending commit by what is stored at its place in the remote log: 20, 4, 8 (and the pending commit is dropped), 19.
    fn recover = sigatuda_recover(
        volumes: &mut [u8], commits: &mut [u8], checkpoints: &mut [u8], index: &mut [u8], vid: &[u8; 16]
    ) -> Reply;

    /// A new volume whose local log holds the commits of a snapshot: 20, 1, 2, 3, 3 for `out`, 5, 19.
    fn volume_from_snapshot = sigatuda_volume_from_snapshot(
        volumes: &mut [u8], commits: &mut [u8], checkpoints: &mut [u8], index: &mut [u8], snapshot: &[u8], vid: &[u8; 16],
        local: &[u8; 16], remote: &[u8; 16], out: &mut [u8]
    ) -> Reply;

    /// A new volume whose local log holds the commits of a log up to an LSN, or nothing where that commit is not stored: 20, 1, 3 for `out`,
    /// 5, 19.
    fn volume_from_logref = sigatuda_volume_from_logref(
        volumes: &mut [u8], commits: &mut [u8], checkpoints: &mut [u8], index: &mut [u8], log: &[u8; 16], lsn: u64, vid: &[u8; 16],
        local: &[u8; 16], remote: &[u8; 16], out: &mut [u8]
    ) -> Reply;
}
