//! `desk` on real files: what it says of tables in form and of damaged ones, of records, of where a volume stands and of its pages; and that no
//! input stops it with a panic.
mod few;
#[allow(dead_code)] // arguments of calls are judged in forms.rs and lent.rs; desk reads tables alone
mod judge;

use few::*;
use judge::make::{self, Random};
use judge::{Kind, TABLES, damage};
use sigatuda::*;
use std::ffi::OsStr;
use std::path::PathBuf;
use std::process::Command;

/// A folder of its own for a test, gone with it.
struct Folder(PathBuf);

impl Folder {
    fn new(name: &str) -> Folder {
        let path = PathBuf::from(env!("CARGO_TARGET_TMPDIR")).join(format!("desk-{name}-{}", std::process::id()));
        std::fs::create_dir_all(&path).unwrap();
        Folder(path)
    }

    fn put(&self, name: &str, bytes: &[u8]) {
        std::fs::write(self.0.join(name), bytes).unwrap();
    }

    fn put_books(&self, books: &OwnedTables) {
        self.put("volumes", books.volumes.as_bytes());
        self.put("tags", books.tags.as_bytes());
        self.put("commits", books.commits.as_bytes());
        self.put("checkpoints", books.checkpoints.as_bytes());
        self.put("index", books.index.as_bytes());
        self.put("presence", books.presence.as_bytes());
    }

    /// Runs the program in this folder: whether all was well, what it prints, and its complaint. It never panics.
    fn desk<A: AsRef<OsStr>>(&self, args: impl IntoIterator<Item = A>) -> (bool, String, String) {
        let ran = Command::new(env!("CARGO_BIN_EXE_desk")).current_dir(&self.0).args(args).output().unwrap();
        let (out, complaint) = (String::from_utf8(ran.stdout).unwrap(), String::from_utf8_lossy(&ran.stderr).to_string());
        assert!(matches!(ran.status.code(), Some(0 | 1)) && !complaint.contains("panicked"), "{:?}: {complaint}", ran.status);
        (ran.status.code() == Some(0), out, complaint)
    }
}

impl Drop for Folder {
    fn drop(&mut self) {
        let _ = std::fs::remove_dir_all(&self.0);
    }
}

/// Tables with one volume and no room to spare for volumes.
fn books(sync: Option<SyncPoint>) -> OwnedTables {
    let room = Capacities { volumes: 1, tags: 4, commits: 8, checkpoints: 4, index: 500, presence: 500 };
    let mut volumes = vec![0, 1];
    volumes.extend(Volume { vid: VID, local: LOCAL, remote: REMOTE, sync, pending: None }.to_bytes());
    OwnedTables { volumes: OwnedTable::from_bytes(volumes), ..OwnedTables::new(room) }
}

/// A commit of some pages.
fn commit(log: LogId, at: u64, of: &[u32]) -> Commit {
    let segment = Segment { sid: SegmentId(id(0x50 + at as u8)), pages: pages(of), frames: List::new() };
    Commit { log, lsn: lsn(at), count: PageCount(70), hash: None, segment: Some(segment), checkpoints: List::new() }
}

/// A commit that has everything.
fn whole_commit() -> Commit {
    let Some(mut segment) = commit(REMOTE, 2, &[2, 3, 70]).segment else { unreachable!() };
    segment.frames = List::from_slice(&[Frame { size: 100, last: page(3) }, Frame { size: 50, last: page(70) }]).unwrap();
    let checkpoints = List::from_slice(&[lsn(2), lsn(1)]).unwrap();
    Commit { hash: Some(CommitHash([7; 32])), segment: Some(segment), checkpoints, ..commit(REMOTE, 2, &[]) }
}

/// One of each record, and a commit more.
fn full_books() -> OwnedTables {
    let mut books = books(Some(SyncPoint { remote: lsn(2), watermark: Some(lsn(1)) }));
    let mut t = books.lend();
    t.write_commit(&whole_commit()).unwrap();
    t.write_commit(&commit(LOCAL, 1, &[1])).unwrap();
    t.tags.replace(b"line 7", VID).unwrap();
    t.presence.mark(SegmentId(id(0x52)), page(2)).unwrap();
    t.prepare(VID, PendingCommit { local: lsn(2), commit: lsn(3), hash: CommitHash([9; 32]) }).unwrap();
    books
}

#[test]
fn tables_in_form() {
    let folder = Folder::new("form");
    folder.put_books(&full_books());
    let (well, out, _) = folder.desk(["check", "volumes", "tags", "commits", "checkpoints", "index", "presence"]);
    let expected = "\
volumes: ok, 1 of 1 volumes: it is full, and a call that needs room in it is refused with 19
tags: ok, 1 of 4 tags
commits: ok, 2 of 8 commits
checkpoints: ok, 2 of 4 checkpoints
index: ok, 4 of 500 index entries
presence: ok, 1 of 500 present pages
";
    assert_eq!((well, out.as_str()), (true, expected));
    folder.put("tester-7.Tags.bin", &[0, 0]);
    let (well, out, _) = folder.desk(["check", "tester-7.Tags.bin", "index=tags"]);
    assert!(!well && out.starts_with("tester-7.Tags.bin: ok, 0 of 0 tags: it is full"), "{out}");
    assert!(out.contains("tags: 20, index entry 1, "), "another kind is said before the name: {out}");
}

/// A byte of a table is changed, and this is said.
#[test]
fn the_place_that_breaks_the_form() {
    let folder = Folder::new("places");
    let books = full_books();
    let tables = [
        books.volumes.as_bytes(),
        books.tags.as_bytes(),
        books.commits.as_bytes(),
        books.checkpoints.as_bytes(),
        books.index.as_bytes(),
        books.presence.as_bytes(),
    ];
    // table, record, byte of the record, what it becomes, what is said
    let (volumes, tags, commits, checkpoints, index, presence) = (0, 1, 2, 3, 4, 5);
    let cases = [
        (volumes, 0, 0, 1, "volume 1, reserved byte: byte 1 is not zero (byte 2 of the file)"),
        (volumes, 0, 50, 2, "volume 1, sync point: its flag is 2, and must be 0 or 1 (byte 52 of the file)"),
        (volumes, 0, 50, 0, "volume 1, sync point: byte 2 is not zero, though it is said to be missing (byte 60 of the file)"),
        (volumes, 0, 58, 0, "volume 1, remote LSN of the sync point: it is 0 (byte 53 of the file)"),
        (volumes, 0, 67, 0, "volume 1, watermark: it is 0 (byte 62 of the file)"),
        (volumes, 0, 84, 0, "volume 1, LSN of the pending commit's remote commit: it is 0 (byte 79 of the file)"),
        (tags, 0, 33, 33, "tag 1, length of the name: it is 33, and must be 1 to 32 (byte 35 of the file)"),
        (tags, 0, 33, 5, "tag 1, name: byte 55 is not zero past the name's length (byte 8 of the file)"),
        (commits, 1, 16, 9, "commit 2, key: it belongs before the record before it (byte 724 of the file)"),
        (commits, 1, 79, 33, "commit 2, number of windows of the page set: it is 33, and at most 32 fit (byte 803 of the file)"),
        (commits, 1, 80, 4, "commit 2, window 1 of the page set: it is 67108864, past the last page's, 67108863 (byte 804 of the file)"),
        (commits, 1, 95, 0, "commit 2, window 2 of the page set: it is 0, not above the one before it (byte 816 of the file)"),
        (commits, 1, 91, 0, "commit 2, window 1 of the page set: it holds no page (byte 808 of the file)"),
        (commits, 1, 91, 3, "commit 2, window 1 of the page set: it holds page 0 (byte 808 of the file)"),
        (commits, 1, 464, 1, "commit 2, frames: byte 50 is not zero past their number (byte 1208 of the file)"),
        (commits, 1, 476, 1, "commit 2, last page of frame 1: it is 1, and must be 2 or more (byte 1197 of the file)"),
        (commits, 1, 488, 3, "commit 2, last page of frame 2: it is 3, and must be 4 or more (byte 1209 of the file)"),
        (commits, 1, 665, 0, "commit 2, checkpoint 1: it is 0 (byte 1382 of the file)"),
        (checkpoints, 1, 24, 253, "checkpoint 2, key: the record before has the same (byte 27 of the file)"),
        (index, 0, 20, 0, "index entry 1, page: it is 0 (byte 19 of the file)"),
        (presence, 0, 20, 255, "present page 1, page: it is 0 (byte 19 of the file)"),
    ];
    for (i, (table, record, at, becomes, _)) in cases.iter().enumerate() {
        let mut bytes = tables[*table].to_vec();
        bytes[2 + record * TABLES[*table].record + at] = *becomes;
        folder.put(&format!("{i}.{}", TABLES[*table].name), &bytes);
    }
    let names: Vec<_> = cases.iter().enumerate().map(|(i, case)| format!("{i}.{}", TABLES[case.0].name)).collect();
    let (well, out, _) = folder.desk(std::iter::once("check").chain(names.iter().map(String::as_str)));
    assert!(!well);
    for ((line, name), case) in out.lines().zip(&names).zip(&cases) {
        assert_eq!(line, format!("{name}: 20, {}", case.4));
    }
    assert_eq!(out.lines().count(), cases.len());
    folder.put("short.index", &[0]);
    folder.put("cut.index", &tables[index][..60]);
    let mut sizes = tables[commits].to_vec();
    sizes[724 + 465..724 + 473].fill(255);
    folder.put("sizes.commits", &sizes);
    let (_, out, _) = folder.desk(["check", "short.index", "cut.index", "sizes.commits"]);
    let said = "short.index: 20, count: a table starts with two bytes of count (byte 0 of the file)\n\
                cut.index: 20, count: it says 4, and only 2 fit: the file may be cut short (byte 0 of the file)\n\
                sizes.commits: 20, commit 2, size of frame 2: the sizes sum to 2^64 or more (byte 1201 of the file)\n";
    assert_eq!(out, said);
}

/// A table of a kind: good, random bytes, or damaged up to three times.
fn drawn(kind: &Kind, r: &mut Random) -> Vec<u8> {
    let mut bytes = make::table(kind, r);
    match r.below(6) {
        0 | 1 => {}
        2 => {
            let size = r.below(3 * kind.record);
            bytes = r.bytes(size);
        }
        _ => {
            for _ in 0..1 + r.below(3) {
                if bytes.len() >= 2 {
                    damage::table(kind, &mut bytes, r);
                }
            }
        }
    }
    bytes
}

#[test]
fn a_place_is_found_wherever_there_is_one() {
    let (folder, mut r) = (Folder::new("damaged"), Random::new(11));
    for kind in &TABLES {
        let tables: Vec<_> = (0..300).map(|_| drawn(kind, &mut r)).collect();
        let names: Vec<_> = (0..tables.len()).map(|i| format!("{i}.{}", kind.name)).collect();
        names.iter().zip(&tables).for_each(|(name, bytes)| folder.put(name, bytes));
        let (_, out, _) = folder.desk(std::iter::once("check").chain(names.iter().map(String::as_str)));
        assert_eq!(out.lines().count(), tables.len());
        for (line, bytes) in out.lines().zip(&tables) {
            let (name, said) = line.split_once(": ").unwrap();
            assert_eq!(said.starts_with("ok, "), kind.formed(bytes), "{name}: {said}");
            assert!(said.starts_with("ok, ") || (said.starts_with("20, ") && said.ends_with(" of the file)")), "{name}: {said}");
        }
        for (name, bytes) in names.iter().zip(&tables).filter(|(_, bytes)| kind.formed(bytes)).take(5) {
            let (well, out, _) = folder.desk(["show", name]);
            let count = usize::from(bytes[0]) * 256 + usize::from(bytes[1]);
            assert_eq!((well, out.lines().count()), (true, count), "a line for each record: {name}");
        }
    }
}

#[test]
fn records_as_lines() {
    let folder = Folder::new("records");
    folder.put_books(&full_books());
    let (well, out, _) = folder.desk(["show", "volumes", "tags", "commits", "checkpoints", "index", "presence"]);
    let text = "\
volume vid=01 local=0a remote=0b sync=2 watermark=1 pending=2 as=3 hash=h9 state=in-step unsent=- unseen=-
tag name=line\\x207 vid=01
commit log=0a lsn=1 count=70 hash=- sid=51 pages=1 frames=- checkpoints=-
commit log=0b lsn=2 count=70 hash=h7 sid=52 pages=2-3,70 frames=100@3,50@70 checkpoints=2,1
checkpoint log=0b lsn=2
checkpoint log=0b lsn=1
entry log=0a page=1 lsn=1
entry log=0b page=2 lsn=2
entry log=0b page=3 lsn=2
entry log=0b page=70 lsn=2
present sid=52 page=2
";
    let short = out.replace(&"0".repeat(30), "").replace(&"09".repeat(32), "h9").replace(&"07".repeat(32), "h7");
    assert_eq!((well, short.as_str()), (true, text));
    let (well, alone, _) = folder.desk(["show", "volumes"]);
    assert!(well && !alone.contains("state="), "where it stands is told over the commits: {alone}");
    let mut bytes = full_books().commits.as_bytes().to_vec();
    bytes[724] = 1;
    folder.put("commits", &bytes);
    let (well, out, _) = folder.desk(["show", "commits"]);
    assert!(!well && out.starts_with("commit log=") && out.lines().count() == 2, "{out}");
    assert!(out.ends_with("commits: 20, commit 2, reserved byte: byte 1 is not zero (byte 724 of the file)\n"), "{out}");
}

#[test]
fn where_a_volume_stands() {
    let folder = Folder::new("standing");
    let stands = |books: &OwnedTables| {
        folder.put_books(books);
        let (well, out, _) = folder.desk(["show", "volumes", "commits"]);
        assert!(well);
        out.lines().next().unwrap().split_once(" state=").unwrap().1.to_string()
    };
    let mut books = books(None);
    assert_eq!(stands(&books), "in-step unsent=- unseen=-");
    books.lend().write_commit(&commit(REMOTE, 1, &[1])).unwrap();
    assert_eq!(stands(&books), "behind unsent=- unseen=1-1");
    books.lend().sync(VID).unwrap();
    assert_eq!(stands(&books), "in-step unsent=- unseen=-");
    books.lend().write_commit(&commit(LOCAL, 1, &[1])).unwrap();
    assert_eq!(stands(&books), "ahead unsent=1-1 unseen=-");
    books.lend().write_commit(&commit(REMOTE, 3, &[1])).unwrap();
    assert_eq!((stands(&books).as_str(), books.lend().sync(VID)), ("diverged unsent=1-1 unseen=2-3", Err(Refusal::Diverged)));
    let mut lost = self::books(Some(SyncPoint { remote: lsn(7), watermark: None }));
    assert_eq!((stands(&lost).as_str(), lost.lend().sync(VID)), ("16 unsent=- unseen=-", Err(Refusal::BaseWithoutHead)));
}

#[test]
fn page_map() {
    let folder = Folder::new("map");
    let mut books = books(Some(SyncPoint { remote: lsn(2), watermark: None }));
    for commit in [commit(REMOTE, 1, &[1, 2, 3, 66]), commit(REMOTE, 2, &[2, 71]), commit(LOCAL, 1, &[3])] {
        books.lend().write_commit(&commit).unwrap();
    }
    folder.put_books(&books);
    let (well, out, _) = folder.desk(["show", "volumes", "commits", "--volume", "1", "--svg", "map.svg"]);
    let map = "\
map vid=01 count=70 held=4
range log=0a first=1 last=1
range log=0b first=1 last=2
gift sign=a from=local log=0a lsn=1 pages=3
gift sign=b from=remote log=0b lsn=2 pages=2
gift sign=c from=remote log=0b lsn=1 pages=1,66
         1 cba.............................................................
        65 .c....
";
    let short = out.replace(&"0".repeat(30), "");
    assert!(well && short.ends_with(map), "{short}");
    let svg = std::fs::read_to_string(folder.0.join("map.svg")).unwrap();
    assert!(svg.starts_with("<svg ") && svg.ends_with("</svg>\n"));
    assert_eq!(svg.matches("<title>").count(), 3 + 4 + 3, "three commits, four runs of the first row, three of the second");
    assert!(svg.contains("<title>page 66: commit 1 of the remote log</title>"), "{svg}");
    for (open, close) in [("<g>", "</g>"), ("<text ", "</text>"), ("<title>", "</title>")] {
        assert_eq!(svg.matches(open).count(), svg.matches(close).count());
    }
}

#[test]
fn page_map_of_far_pages() {
    let folder = Folder::new("far");
    let mut books = books(None);
    let far = Commit { count: PageCount(u32::MAX), ..commit(LOCAL, 1, &[200, u32::MAX]) };
    books.lend().write_commit(&far).unwrap();
    folder.put_books(&books);
    let (well, out, _) = folder.desk(["show", "volumes", "commits", "--volume", "01", "--svg", "map.svg"]);
    let rows: Vec<_> = out.lines().skip_while(|line| !line.starts_with(' ')).collect();
    let dots = |n| ".".repeat(n);
    let expected = [
        "         1 no commit up to page 192".to_string(),
        format!("       193 {}a{}", dots(7), dots(56)),
        "       257 no commit up to page 4294967232".to_string(),
        format!("4294967233 {}a", dots(62)),
    ];
    assert!(well && rows == expected, "{rows:#?}");
    let (well, out, _) = folder.desk(["show", "volumes", "commits", "--volume", "2"]);
    assert!(!well && out.ends_with("4: no volume of that identifier (see: desk explain 4)\n"), "{out}");
}

/// A map has at most 4096 rows; every page is among the gifts.
#[test]
fn page_map_of_many_rows() {
    let folder = Folder::new("rows");
    let mut commits = vec![0, 130];
    for at in (1..=130).rev() {
        let of: Vec<u32> = (0..32).map(|i| 1 + 64 * (32 * (at as u32 - 1) + i)).collect();
        commits.extend(Commit { count: PageCount(u32::MAX), ..commit(LOCAL, at, &of) }.to_bytes());
    }
    folder.put("commits", &commits);
    folder.put("volumes", books(None).volumes.as_bytes());
    let (well, out, _) = folder.desk(["show", "volumes", "commits", "--volume", "1", "--svg", "map.svg"]);
    let rows: Vec<_> = out.lines().skip_while(|line| !line.starts_with(' ')).collect();
    assert!(well && rows.len() == 4097 && rows[4096] == "    262145 and on: see the gifts above", "{} rows", rows.len());
    assert!(rows[..4096].iter().all(|row| row[11..].trim_start_matches(|c| c != '.') == ".".repeat(63)));
    assert_eq!(out.lines().filter(|line| line.starts_with("gift ")).count(), 130);
}

#[test]
fn numbers_explained() {
    let folder = Folder::new("explain");
    for refusal in Refusal::ALL {
        let (well, out, _) = folder.desk(["explain", &refusal.number().to_string()]);
        assert!(well && out.starts_with(&format!("{refusal}\n    ")) && out.len() > 60, "{out}");
    }
    let (well, out, _) = folder.desk(["explain"]);
    assert_eq!((well, out.lines().count()), (true, 50));
    // as docs/CALLS.md has it: without the pull a push would go over commits that were never taken in
    let (_, out, _) = folder.desk(["explain", "12"]);
    let places = ["Fetch", "pull;", "prepare", "refused (8)"].map(|word| out.find(word));
    assert!(places.iter().all(Option::is_some) && places.is_sorted(), "fetch, pull, prepare, and 8: {out}");
    for wrong in ["25", "-1", "", "eight", "99999999999999999999"] {
        let (well, out, complaint) = folder.desk(["explain", wrong]);
        assert!(!well && out.is_empty() && complaint.contains("they go from 0 to 24"), "{complaint}");
    }
}

#[test]
fn odd_arguments() {
    let folder = Folder::new("odd");
    folder.put_books(&full_books());
    folder.put("a.commits", &[0, 0]);
    folder.put("c.svg", full_books().commits.as_bytes());
    std::fs::create_dir_all(folder.0.join("index.d")).unwrap();
    let long = "0".repeat(33);
    let complaints: [(&[&str], &str); 17] = [
        (&[], "what is wanted?"),
        (&["chekc"], "there is no command chekc"),
        (&["check"], "which files"),
        (&["show"], "which files"),
        (&["show", "readings.bin"], "which table is it?"),
        (&["show", "volumes", "--volume"], "--volume needs"),
        (&["show", "volumes", "--volume", "1", "--svg"], "--svg needs"),
        (&["show", "volumes", "--volume", &long], "1 to 32 hex digits"),
        (&["show", "volumes", "--volume", "+1"], "1 to 32 hex digits"),
        (&["show", "volumes", "--volume", "1"], "a table of commits"),
        (&["show", "volumes", "--svg", "x.svg"], "by --volume"),
        (&["show", "volumes", "commits", "--volume", "1", "--svg", "commits"], "ends in .svg"),
        (&["show", "volumes", "commits=c.svg", "--volume", "1", "--svg", "c.svg"], "it is not drawn over"),
        (&["show", "volumes", "commits=c.svg", "--volume", "1", "--svg", "./c.svg"], "it is not drawn over"),
        (&["show", "volumes", "--vid", "1"], "there is no option --vid"),
        (&["show", "commits", "a.commits"], "two tables of commits"),
        (&["show", "volumes", "commits", "--volume", "1", "--svg", "no/such/folder.svg"], "cannot be written"),
    ];
    for (args, expected) in complaints {
        let (well, out, complaint) = folder.desk(args);
        assert!(!well && out.is_empty() && complaint.starts_with("desk: ") && complaint.contains(expected), "{args:?}: {complaint}");
    }
    let (well, out, _) = folder.desk(["check", "no.tags", "index.d", "commits.and.tags", "tags=", "=tags", "tags"]);
    let lines: Vec<_> = out.lines().collect();
    assert!(!well && lines.len() == 6 && lines[0].starts_with("no.tags: it cannot be read") && lines[5].contains("ok"), "{out}");
    assert!(lines[1].contains("cannot be read") && lines[2].contains("which table is it?"), "{out}");
    assert!(folder.desk(["--help"]).0);
    for name in ["commits", "c.svg"] {
        assert_eq!(std::fs::read(folder.0.join(name)).unwrap(), full_books().commits.as_bytes(), "a table is never written: {name}");
    }
}

/// A drawing goes into a new file or over an earlier drawing, and over nothing else: no table by any of its names, and no other file.
#[test]
fn drawings_over_files() {
    let folder = Folder::new("over");
    folder.put_books(&full_books());
    let draw = |over: &str| folder.desk(["show", "volumes", "commits", "--volume", "1", "--svg", over]);
    let read = |name: &str| std::fs::read(folder.0.join(name)).unwrap();
    assert!(draw("map.svg").0);
    let drawing = read("map.svg");
    folder.put("map.svg", &[&drawing[..], b"and what was left of a longer one"].concat());
    assert!(draw("map.svg").0 && read("map.svg") == drawing, "an earlier drawing is drawn over, whole");
    let commits = full_books().commits.as_bytes().to_vec();
    let others: [(&str, &[u8]); 5] =
        [("table.svg", &commits), ("empty.svg", b""), ("short.svg", b"<svg"), ("text.svg", b" <svg >"), ("capital.svg", b"<SVG >")];
    for (name, bytes) in others {
        folder.put(name, bytes);
        let (well, out, complaint) = draw(name);
        assert!(!well && out.is_empty() && complaint == format!("desk: {name}: it is there and is no drawing, so it is not drawn over\n"));
        assert_eq!(read(name), bytes, "{name}");
    }
    std::fs::create_dir_all(folder.0.join("folder.svg")).unwrap();
    assert!(draw("folder.svg").2.contains("it is not drawn over"));
    std::fs::hard_link(folder.0.join("commits"), folder.0.join("hard.svg")).unwrap();
    assert!(draw("hard.svg").2.contains("it is not drawn over") && read("commits") == commits);
    #[cfg(unix)]
    {
        std::os::unix::fs::symlink("commits", folder.0.join("link.svg")).unwrap();
        assert!(draw("link.svg").2.contains("it is not drawn over") && read("commits") == commits);
        std::os::unix::fs::symlink("nowhere", folder.0.join("nowhere.svg")).unwrap();
        assert!(draw("nowhere.svg").2.contains("it cannot be written") && !folder.0.join("nowhere").exists());
    }
}

/// Any volumes and commits are shown, and drawn where they are tables: no panic.
#[test]
fn any_tables_are_shown() {
    let (folder, mut r) = (Folder::new("any"), Random::new(5));
    let mut maps = 0;
    for i in 0..150 {
        let (volumes, commits, svg) = (drawn(&TABLES[0], &mut r), drawn(&TABLES[2], &mut r), format!("{i}.svg"));
        folder.put("volumes", &volumes);
        folder.put("commits", &commits);
        let vid = r.below(5).to_string();
        let (well, out, _) = folder.desk(["show", "volumes", "commits", "--volume", &vid, "--svg", &svg]);
        let formed = TABLES[0].formed(&volumes) && TABLES[2].formed(&commits);
        assert!(formed || !well, "{out}");
        assert_eq!(folder.0.join(svg).exists(), well, "{out}");
        maps += usize::from(well);
    }
    assert!(maps > 20, "{maps} were drawn");
}

#[cfg(unix)]
#[test]
fn names_that_are_no_text() {
    use std::os::unix::ffi::OsStrExt;
    let folder = Folder::new("names");
    let name = OsStr::from_bytes(b"\xff.tags");
    std::fs::write(folder.0.join(name), [0, 0]).unwrap();
    let (well, out, _) = folder.desk([OsStr::new("check"), name]);
    assert!(well && out.contains("ok, 0 of 0"), "{out}");
    assert!(!folder.desk([OsStr::new("explain"), name]).0);
    assert!(!folder.desk([name]).0);
}
