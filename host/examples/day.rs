//! A day of two testers and the results desk: readings are saved, sent and taken in; where both sides have moved, nothing is lost.
//!
//!     cargo run --offline --example day
use Holder::{Desk, Own};
use sigatuda::*;

/// The log that the desk and every tester share.
const DESK: LogId = LogId(id(0xde));

const fn id(n: u8) -> [u8; 16] {
    let mut id = [0; 16];
    id[15] = n;
    id
}

/// A tester: its volume, and the tables that it keeps.
struct Tester {
    vid: VolumeId,
    local: LogId,
    books: OwnedTables,
}

impl Tester {
    /// A tester with a new volume that follows the desk's log; the host draws the spare identifiers.
    fn open(n: u8) -> Result<Tester, Refusal> {
        let room = Capacities { volumes: 4, tags: 4, commits: 32, checkpoints: 32, index: 512, presence: 512 };
        let spares = NewVolume { vid: VolumeId(id(n)), local: LogId(id(0xa0 + n)), remote: LogId(id(0xb0 + n)) };
        let mut books = OwnedTables::new(room);
        let volume = books.lend().open(Asked { remote: Some(DESK), ..Asked::default() }, spares)?;
        Ok(Tester { vid: volume.vid, local: volume.local, books })
    }

    /// Saves readings as the next commit of its own log.
    fn save(&mut self, sid: u8, pages: &[u32]) -> Result<Snapshot, Refusal> {
        let mut t = self.books.lend();
        let before = t.snapshot(self.vid)?;
        t.save(self.vid, &before, PageCount(3), SegmentId(id(sid)), &set(pages)?)
    }

    /// Sends its latest commit: it is pending while it is under way, and the sync point once the desk has it.
    fn push(&mut self) -> Result<Commit, Refusal> {
        let mut t = self.books.lend();
        let saved = t.commits.latest(self.local)?.expect("readings were saved");
        let lsn = t.commits.latest_lsn(DESK)?.map_or(Ok(Lsn::FIRST), Lsn::next)?;
        let hash = CommitHash([7; 32]); // the host works it out over the pages
        t.prepare(self.vid, PendingCommit { local: saved.lsn, commit: lsn, hash })?;
        let sent = Commit { log: DESK, lsn, hash: Some(hash), ..saved };
        t.success(self.vid, &sent)?;
        Ok(sent)
    }

    /// Takes a commit of the desk's log into its tables; its volume stays where it is.
    fn fetch(&mut self, commit: &Commit) -> Result<(), Refusal> {
        self.books.lend().write_commit(commit)
    }

    /// Moves its volume to the desk's latest.
    fn pull(&mut self) -> Result<(), Refusal> {
        self.books.lend().sync(self.vid)
    }

    /// Prints what happened, and which commit holds each of the three pages that its reader sees; they are those that are said.
    fn tell(&mut self, what: &str, said: [Holder; 3]) -> Result<(), Refusal> {
        println!("{what}");
        let t = self.books.lend();
        let snapshot = t.snapshot(self.vid)?;
        for (n, said) in (1..).zip(said) {
            let commit = t.search(&snapshot, PageIdx::new(n)?)?.expect("each page is in a commit");
            let holder = if commit.log == DESK { Desk(commit.lsn.get()) } else { Own(commit.lsn.get()) };
            assert_eq!(holder, said, "page {n}: {what}");
            match holder {
                Own(lsn) => println!("    page {n}: its own commit {lsn}"),
                Desk(lsn) => println!("    page {n}: the desk's commit {lsn}"),
            }
        }
        Ok(())
    }
}

/// The commit that holds a page, by its LSN in the tester's own log or in the desk's.
#[derive(Clone, Copy, Debug, PartialEq, Eq)]
enum Holder {
    Own(u64),
    Desk(u64),
}

fn set(pages: &[u32]) -> Result<PageSet, Refusal> {
    pages.iter().try_fold(PageSet::EMPTY, |mut set, &n| set.insert(PageIdx::new(n)?).map(|_| set))
}

/// The day; tests/day.rs lives it too.
pub fn main() -> Result<(), Refusal> {
    let mut one = Tester::open(1)?;
    one.save(0x51, &[1, 2, 3])?;
    one.tell("Tester 1 saves three pages of readings.", [Own(1); 3])?;
    let sent = one.push()?;
    one.tell("It sends them, and the desk has them as the first commit of its log.", [Desk(1); 3])?;

    let segment = Segment { sid: SegmentId(id(0x52)), pages: set(&[2])?, frames: List::new() };
    let corrected = Commit { lsn: sent.lsn.next()?, hash: None, segment: Some(segment), ..sent };
    one.fetch(&corrected)?;
    one.tell("The desk corrects page 2. Tester 1 has fetched that, and still reads what it read.", [Desk(1); 3])?;
    one.pull()?;
    one.tell("It holds nothing unsent, so it pulls, and the corrected list moves in.", [Desk(1), Desk(2), Desk(1)])?;

    let mut two = Tester::open(2)?;
    two.fetch(&sent)?;
    two.pull()?;
    two.save(0x53, &[3])?;
    two.tell("Tester 2 pulled before the correction, and has a new reading of page 3 that is not sent.", [Desk(1), Desk(1), Own(1)])?;
    two.fetch(&corrected)?;
    let before = two.books.clone();
    let refusal = two.pull().expect_err("both sides have moved");
    assert_eq!(refusal, Refusal::Diverged);
    assert!(two.books == before, "a refused call changes no byte");
    assert_eq!(two.books.lend().commits.read(DESK, corrected.lsn)?, Some(corrected));
    two.tell(
        &format!("The correction reaches it too. Both sides have moved, so a pull is refused ({refusal})."),
        [Desk(1), Desk(1), Own(1)],
    )?;
    println!("Nothing is lost: its reading is there, and the desk's commit 2 waits in its tables.");
    Ok(())
}
