//! The time of calls on the original, on the books of host/benches/sizes: a line for each call and size, in microseconds. Its storage here is a stand-in, ordered maps in memory
//! (README.md), so this says nothing of the original on its own storage. Each time is the best of many rounds; a call that stores starts from the same records.
use crate::tables::to_commit;
use graft::core::lsn::LSN;
use graft::core::page::Page;
use graft::core::{LogId, PageCount, PageIdx, SegmentId, VolumeId};
use graft::local::fjall_storage::FjallStorage;
use graft::volume;
use harness::forms;
use std::hint::black_box;
use std::time::Instant;

#[path = "../../../host/benches/sizes/books.rs"]
#[allow(dead_code)] // our own tables of the same records
mod books;
use books::*;

/// Rounds of a read, of eight calls each, and of a call that stores.
const READS: usize = 100;
const STORES: usize = 12;

/// The first so many commits, their pages present, and the two volumes.
fn storage(size: Size, held: u32) -> FjallStorage {
    let storage = FjallStorage::open_temporary().expect("storage in memory");
    for lsn in 1..=held {
        storage.store_commit(to_commit(&size.commit(lsn))).expect("stored");
        for page in size.pages(lsn) {
            storage.write_page(SegmentId::new(size.sid(lsn)), PageIdx::try_new(page).unwrap(), Page::EMPTY).expect("stored");
        }
    }
    let sync = volume::SyncPoint { remote: LSN::new(u64::from(held) - 1), local_watermark: None };
    for (vid, local, remote, sync) in [(LOCAL_VOLUME, LOG, NO_LOG, None), (REMOTE_VOLUME, NO_LOG, LOG, Some(sync))] {
        let volume = volume::Volume::new(VolumeId::new(vid), LogId::new(local), LogId::new(remote), sync, None);
        storage.store_volume(volume).expect("stored");
    }
    storage
}

fn line(call: &str, size: Size, nanoseconds: f64) {
    println!("{call}\t{}\toriginal\t{:.2}", size.name, nanoseconds / 1000.0);
}

/// The best round of eight calls that change nothing.
fn reads(call: &str, size: Size, mut read: impl FnMut()) {
    let mut best = f64::MAX;
    for _ in 0..READS {
        let start = Instant::now();
        (0..8).for_each(|_| read());
        best = best.min(start.elapsed().as_nanos() as f64 / 8.0);
    }
    line(call, size, best);
}

/// The best of some calls that store, each on storage of its own.
fn stores(call: &str, size: Size, held: u32, store: impl Fn(&FjallStorage)) {
    let mut best = f64::MAX;
    for _ in 0..STORES {
        let storage = storage(size, held);
        let start = Instant::now();
        store(&storage);
        best = best.min(start.elapsed().as_nanos() as f64);
    }
    line(call, size, best);
}

/// All calls that are compared.
pub fn measure() {
    for size in SIZES {
        let (last, full) = (size.commits, storage(size, size.commits));
        let (local, remote) = (VolumeId::new(LOCAL_VOLUME), VolumeId::new(REMOTE_VOLUME));
        let snapshot = full.reads().snapshot(&local).expect("a volume");
        reads("snapshot", size, || drop(black_box(full.reads().snapshot(&local).expect("a volume"))));
        let mut k = 0;
        reads("search", size, || {
            k += 1;
            let found = full.reads().search_page(&snapshot, PageIdx::try_new(searched(size, k)).unwrap()).expect("readable");
            assert!(black_box(found).is_some());
        });
        reads("walk", size, || assert!(black_box(full.reads().iter_visible_pages(&snapshot).count()) > 0));
        stores("sync", size, last, |s| s.guarded().sync_remote_to_local(remote.clone()).expect("not diverged"));
        let commit = to_commit(&size.commit(last));
        stores("write", size, last - 1, |s| s.store_commit(commit.clone()).expect("stored"));
        let set = forms::to_set(&size.set(last));
        let before = storage(size, last - 1).reads().snapshot(&local).expect("a volume");
        stores("save", size, last - 1, |s| {
            SegmentId::queue(size.sid(last));
            let pages = set.iter().map(|p| (p, Page::EMPTY)).collect();
            s.guarded().commit(&local, before.clone(), PageCount::new(size.count()), pages).expect("the latest snapshot");
        });
    }
}
