//! The calls in safe Rust, on the same bytes: each checks the tables that it is lent (20) and does what document 01 says; false is any refusal.
use crate::rust::*;
use std::collections::BTreeMap;

fn flag(b: &[u8], at: usize, end: usize) -> bool {
    b[at] == 1 || (b[at] == 0 && zeros(&b[at + 1..end]))
}

fn volume_form(b: &[u8]) -> bool {
    let sync = if b[50] == 0 {
        zeros(&b[51..68])
    } else {
        b[50] == 1 && be64(&b[51..59]) != 0 && flag(b, 59, 68) && (b[59] == 0 || be64(&b[60..68]) != 0)
    };
    let pending = flag(b, 68, 117) && (b[68] == 0 || (be64(&b[69..77]) != 0 && be64(&b[77..85]) != 0));
    b[0] == 0 && b[17] == 0 && sync && pending
}

pub fn volumes_formed(volumes: &[u8]) -> bool {
    formed(volumes, 117, 17, volume_form)
}

pub fn commits_formed(commits: &[u8]) -> bool {
    formed(commits, 722, 25, commit_form)
}

pub fn checkpoints_formed(checkpoints: &[u8]) -> bool {
    formed(checkpoints, 25, 25, checkpoint_form)
}

pub fn index_formed(index: &[u8]) -> bool {
    formed(index, 29, 29, index_form)
}

pub fn presence_formed(presence: &[u8]) -> bool {
    formed(presence, 21, 21, present_form)
}

fn commit_key(log: &[u8], lsn: u64) -> [u8; 25] {
    let mut key = [0; 25];
    key[1..17].copy_from_slice(log);
    key[17..].copy_from_slice(&(!lsn).to_be_bytes());
    key
}

fn commit_at(commits: &[u8], at: usize) -> &[u8] {
    &commits[2 + at * 722..2 + (at + 1) * 722]
}

/// The latest commit of a log.
fn latest<'a>(commits: &'a [u8], log: &[u8]) -> Option<&'a [u8]> {
    let at = place(commits, 722, &commit_key(log, u64::MAX)).unwrap_or_else(|at| at);
    let held = be(&commits[..2]) as usize;
    (at < held).then(|| commit_at(commits, at)).filter(|c| &c[1..17] == log)
}

fn lsn_of(commit: &[u8]) -> u64 {
    !be64(&commit[17..25])
}

fn volume_place(volumes: &[u8], vid: &[u8; 16]) -> Option<usize> {
    let mut key = [0; 17];
    key[1..].copy_from_slice(vid);
    place(volumes, 117, &key).ok().map(|at| 2 + at * 117)
}

/// Remote LSN of the sync point, and the watermark.
fn sync_point(volume: &[u8]) -> (Option<u64>, Option<u64>) {
    ((volume[50] == 1).then(|| be64(&volume[51..59])), (volume[59] == 1).then(|| be64(&volume[60..68])))
}

fn put_range(out: &mut [u8], log: &[u8], start: u64, end: u64) {
    let at = 6 + 32 * usize::from(out[5]);
    out[at..at + 16].copy_from_slice(log);
    out[at + 16..at + 24].copy_from_slice(&start.to_be_bytes());
    out[at + 24..at + 32].copy_from_slice(&end.to_be_bytes());
    out[5] += 1;
}

/// The snapshot of a volume, into its place.
fn view(volume: &[u8], commits: &[u8], out: &mut [u8]) {
    let (local, remote) = (&volume[18..34], &volume[34..50]);
    let (sync, watermark) = sync_point(volume);
    out.fill(0);
    let unsent = latest(commits, local).filter(|c| watermark.is_none_or(|w| w < lsn_of(c)));
    let at_sync = sync.and_then(|lsn| place(commits, 722, &commit_key(remote, lsn)).ok()).map(|at| commit_at(commits, at));
    if let Some(c) = unsent {
        out[1..5].copy_from_slice(&c[25..29]);
        put_range(out, local, watermark.map_or(1, |w| w + 1), lsn_of(c));
        if let Some(lsn) = sync {
            put_range(out, remote, 1, lsn);
        }
    } else if let Some(c) = at_sync {
        out[1..5].copy_from_slice(&c[25..29]);
        put_range(out, remote, 1, lsn_of(c));
    }
}

pub fn snapshot(volumes: &[u8], commits: &[u8], vid: &[u8; 16], out: &mut [u8]) -> bool {
    if !volumes_formed(volumes) || !commits_formed(commits) || out.len() != 262 {
        return false;
    }
    let Some(at) = volume_place(volumes, vid) else { return false };
    view(&volumes[at..at + 117], commits, out);
    true
}

/// The ranges of a snapshot's path, or none where it is not in form.
fn path(snapshot: &[u8]) -> Option<Vec<(&[u8], u64, u64)>> {
    if snapshot.len() != 262 || snapshot[0] != 0 || snapshot[5] > 8 || !zeros(&snapshot[6 + 32 * usize::from(snapshot[5])..]) {
        return None;
    }
    let ranges = snapshot[6..].chunks_exact(32).take(usize::from(snapshot[5]));
    let ranges: Vec<_> = ranges.map(|r| (&r[..16], be64(&r[16..24]), be64(&r[24..32]))).collect();
    ranges.iter().all(|r| r.1 != 0 && r.1 <= r.2).then_some(ranges)
}

pub fn search(commits: &[u8], index: &[u8], snapshot: &[u8], page: u32, out: &mut [u8]) -> bool {
    if !commits_formed(commits) || !index_formed(index) || page == 0 || out.len() != 722 {
        return false;
    }
    let Some(path) = path(snapshot) else { return false };
    for (log, start, end) in path {
        let mut low = [0; 29];
        low[1..17].copy_from_slice(log);
        low[17..21].copy_from_slice(&page.to_be_bytes());
        low[21..].copy_from_slice(&(!end).to_be_bytes());
        let at = place(index, 29, &low).unwrap_or_else(|at| at);
        if at == be(&index[..2]) as usize {
            continue;
        }
        let found = &index[2 + at * 29..2 + (at + 1) * 29];
        if found[..21] == low[..21] && !be64(&found[21..]) >= start {
            let Ok(at) = place(commits, 722, &commit_key(log, !be64(&found[21..]))) else { return false };
            out.copy_from_slice(commit_at(commits, at));
            return true;
        }
    }
    true
}

pub fn sync(volumes: &mut [u8], commits: &[u8], vid: &[u8; 16]) -> bool {
    if !volumes_formed(volumes) || !commits_formed(commits) {
        return false;
    }
    let Some(at) = volume_place(volumes, vid) else { return false };
    let volume = &mut volumes[at..at + 117];
    let (sync, watermark) = sync_point(volume);
    let head = |log: &[u8]| latest(commits, log).map(lsn_of);
    let changed = |base: Option<u64>, head: Option<u64>| head.is_some_and(|h| base.is_none_or(|b| b < h));
    let (remote, local) = (head(&volume[34..50]), head(&volume[18..34]));
    if (sync.is_some() && remote.is_none()) || (changed(sync, remote) && watermark.is_some() && local.is_none()) {
        return false;
    }
    if !changed(sync, remote) {
        return true;
    }
    if changed(watermark, local) {
        return false;
    }
    volume[50] = 1;
    volume[51..59].copy_from_slice(&remote.expect("changed").to_be_bytes());
    true
}

/// Whether a snapshot is its volume's latest.
fn is_latest(volume: &[u8], commits: &[u8], path: &[(&[u8], u64, u64)]) -> bool {
    let (sync, _) = sync_point(volume);
    let local = latest(commits, &volume[18..34]).map(lsn_of);
    let mut found = false;
    for &(log, _, end) in path {
        if log == &volume[18..34] {
            if local != Some(end) {
                return false;
            }
        } else if log == &volume[34..50] && sync == Some(end) {
            found = true;
        } else {
            return false;
        }
    }
    if path.is_empty() { local.is_none() && sync.is_none() } else { found == sync.is_some() }
}

/// A save of pages in form, under a segment that was never used.
#[allow(clippy::too_many_arguments)]
pub fn save(
    volumes: &[u8],
    [commits, checkpoints, index, presence]: [&mut [u8]; 4],
    vid: &[u8; 16],
    snapshot: &[u8],
    count: u32,
    sid: &[u8; 16],
    pages: &[u8],
    out: &mut [u8],
) -> bool {
    let logs_formed = commits_formed(commits) && checkpoints_formed(checkpoints) && index_formed(index);
    if !volumes_formed(volumes) || !logs_formed || !presence_formed(presence) {
        return false;
    }
    let (Some(path), Some(at)) = (path(snapshot), volume_place(volumes, vid)) else { return false };
    let volume = &volumes[at..at + 117];
    if !is_latest(volume, commits, &path) {
        return false;
    }
    let mut key = [0; 21];
    key[1..17].copy_from_slice(sid);
    let (at, count_held) = (place(presence, 21, &key).unwrap_or_else(|at| at), be(&presence[..2]) as usize);
    let in_use = at < count_held && presence[2 + at * 21..][..17] == key[..17];
    let held = be(&commits[..2]) as usize;
    if in_use || commits[2..].chunks_exact(722).take(held).any(|c| c[62] == 1 && c[63..79] == *sid) {
        return false;
    }
    let lsn = latest(commits, &volume[18..34]).map_or(1, |c| lsn_of(c) + 1);
    let new: Vec<u32> = pages_down(pages).collect();
    let mut commit = [0; 722];
    commit[..25].copy_from_slice(&commit_key(&volume[18..34], lsn));
    commit[25..29].copy_from_slice(&count.to_be_bytes());
    commit[62] = 1;
    commit[63..79].copy_from_slice(sid);
    commit[79..464].copy_from_slice(pages);
    if new.len() == count as usize {
        commit[657] = 1;
        commit[658..666].copy_from_slice(&lsn.to_be_bytes());
    }
    let room = ((presence.len() - 2) / 21).min(65_535);
    if count_held + new.len() > room || !write_formed(commits, checkpoints, index, &commit) {
        return false;
    }
    presence.copy_within(2 + at * 21..2 + count_held * 21, 2 + (at + new.len()) * 21);
    for (row, page) in presence[2 + at * 21..].chunks_exact_mut(21).zip(&new) {
        key[17..].copy_from_slice(&(!page).to_be_bytes());
        row.copy_from_slice(&key);
    }
    presence[..2].copy_from_slice(&((count_held + new.len()) as u16).to_be_bytes());
    view(volume, commits, out);
    true
}

/// The items of a snapshot's walk: all that was taken is held in one map of windows.
pub fn walk(commits: &[u8], snapshot: &[u8], list: &mut [u8]) -> Option<usize> {
    if !commits_formed(commits) {
        return None;
    }
    let (path, count) = (path(snapshot)?, be32(&snapshot[1..5]));
    let (mut taken, mut items) = (BTreeMap::new(), 0);
    for (log, start, end) in path {
        let first = place(commits, 722, &commit_key(log, end)).unwrap_or_else(|at| at);
        let held = be(&commits[..2]) as usize;
        let ends = |c: &&[u8]| &c[1..17] == log && lsn_of(c) >= start;
        for record in commits[2 + first * 722..].chunks_exact(722).take(held - first).take_while(ends) {
            let gift = gift(record, count, &mut taken);
            if gift[0] == 0 {
                continue;
            }
            put_item(list.get_mut(items * 1003..(items + 1) * 1003)?, record, &gift);
            items += 1;
        }
    }
    Some(items)
}
