//! `desk show`: the records of tables, and which commit holds which page of a volume.
use crate::check::verdict;
use crate::files::{File, Kind};
use crate::map::Map;
use crate::place::first_fault;
use crate::{Report, svg, words};
use sigatuda::{Checkpoint, Commit, Commits, IndexEntry, LogId, Lsn, PresentPage, Record, Refusal, Table, Tag, Volume, VolumeId, changes};
use std::ffi::OsString;
use std::io::{ErrorKind, Read, Seek, Write};
use std::path::{Path, PathBuf};

/// What is to be shown.
#[derive(Default)]
struct Wanted {
    files: Vec<File>,
    volume: Option<VolumeId>,
    svg: Option<PathBuf>,
}

impl Wanted {
    /// What the arguments ask, or what is wrong with them.
    fn of_arguments(args: &[OsString]) -> Result<Wanted, String> {
        let (mut wanted, mut args) = (Wanted::default(), args.iter());
        while let Some(argument) = args.next() {
            match argument.to_str() {
                Some("--volume") => wanted.volume = Some(volume_id(args.next())?),
                Some("--svg") => wanted.svg = Some(drawing(args.next())?),
                Some(option) if option.starts_with('-') => return Err(format!("there is no option {option}")),
                _ => wanted.files.push(File::of_argument(argument)?),
            }
        }
        wanted.checked()
    }

    /// What goes together: some files, at most one of a kind, and a drawing of a volume alone.
    fn checked(self) -> Result<Wanted, String> {
        if self.files.is_empty() {
            return Err("which files are to be shown?".to_string());
        }
        let twice = |kind: &Kind| self.files.iter().filter(|file| file.kind == *kind).count() > 1;
        if let Some(kind) = Kind::ALL.iter().find(|kind| twice(kind)) {
            return Err(format!("there are two tables of {}: the tables of one tester are shown at a time", kind.shape().word));
        }
        if self.svg.is_some() && self.volume.is_none() {
            return Err("--svg draws the pages of a volume: say which by --volume".to_string());
        }
        Ok(self)
    }
}

/// The file for a drawing, which by its name is no table.
fn drawing(argument: Option<&OsString>) -> Result<PathBuf, String> {
    let path = PathBuf::from(argument.ok_or("--svg needs the name of a file")?);
    match path.extension() {
        Some(end) if end.eq_ignore_ascii_case("svg") => Ok(path),
        _ => Err(format!("{}: the name of a drawing ends in .svg", path.display())),
    }
}

fn volume_id(argument: Option<&OsString>) -> Result<VolumeId, String> {
    let argument = argument.ok_or("--volume needs the identifier of a volume")?;
    let id = argument.to_str().and_then(words::identifier);
    id.map(VolumeId).ok_or_else(|| format!("{} is no identifier: it has 1 to 32 hex digits", argument.display()))
}

/// The records of each file, one line each, and the page map of the volume that is asked for.
pub fn show(args: &[OsString]) -> Result<Report, String> {
    let wanted = Wanted::of_arguments(args)?;
    let mut tables = wanted.files.iter().map(|file| Ok((file, file.read()?))).collect::<Result<Vec<_>, String>>()?;
    let mut commits = bytes_of(Kind::Commits, &tables);
    let mut report = Report { text: String::new(), well: true };
    for (file, bytes) in &mut tables {
        report.text += &lines(file.kind, bytes, commits.as_deref_mut());
        if let Err(fault) = verdict(file.kind, bytes) {
            report.text += &format!("{}: {fault}\n", file.path.display());
            report.well = false;
        }
    }
    if let Some(vid) = wanted.volume {
        let (Some(mut volumes), Some(mut commits)) = (bytes_of(Kind::Volumes, &tables), commits) else {
            return Err("the pages of a volume are shown over a table of volumes and a table of commits".to_string());
        };
        match Map::of_volume(&mut volumes, &mut commits, vid) {
            Ok(map) => {
                report.text += &map.text();
                wanted.svg.map_or(Ok(()), |path| draw(&map, &path))?;
            }
            Err(refusal) => {
                report.text += &format!("map vid={}: {}\n", words::hex(&vid.0), words::refused(refusal));
                report.well = false;
            }
        }
    }
    Ok(report)
}

/// Draws a map into a new file, or over an earlier drawing; any other file is left alone, by whatever name it is reached.
fn draw(map: &Map, path: &Path) -> Result<(), String> {
    let (drawing, said) = (svg::drawn(map), |e| format!("{}: it cannot be written: {e}", path.display()));
    let mut file = match std::fs::File::create_new(path) {
        Err(e) if e.kind() == ErrorKind::AlreadyExists => earlier_drawing(path)
            .map_err(said)?
            .ok_or_else(|| format!("{}: it is there and is no drawing, so it is not drawn over", path.display()))?,
        new => new.map_err(said)?,
    };
    file.write_all(drawing.as_bytes()).and_then(|()| file.set_len(drawing.len() as u64)).map_err(said)
}

/// A file that begins as drawings do, to be written from its start. No table in form does: the byte after its count is a record's first, and that is 0.
fn earlier_drawing(path: &Path) -> std::io::Result<Option<std::fs::File>> {
    if !path.metadata()?.is_file() {
        return Ok(None);
    }
    let (mut file, mut begins) = (std::fs::File::options().read(true).write(true).open(path)?, Vec::new());
    (&file).take(svg::BEGINS.len() as u64).read_to_end(&mut begins)?;
    file.rewind()?;
    Ok((begins == svg::BEGINS.as_bytes()).then_some(file))
}

fn bytes_of(kind: Kind, tables: &[(&File, Vec<u8>)]) -> Option<Vec<u8>> {
    tables.iter().find(|(file, _)| file.kind == kind).map(|(_, bytes)| bytes.clone())
}

/// The lines of a table's records, up to the first that breaks the form.
fn lines(kind: Kind, bytes: &mut [u8], commits: Option<&mut [u8]>) -> String {
    let sound = first_fault(kind, bytes).map_or(usize::MAX, |fault| fault.record.map_or(0, |n| n - 1));
    match kind {
        Kind::Volumes => {
            let commits = commits.map(Commits::lend);
            each(bytes, sound, |volume: &Volume| volume_line(volume, commits.as_ref()))
        }
        Kind::Tags => each(bytes, sound, |tag: &Tag| format!("tag name={} vid={}", words::name(tag.name()), words::hex(&tag.vid.0))),
        Kind::Commits => each(bytes, sound, commit_line),
        Kind::Checkpoints => each(bytes, sound, |c: &Checkpoint| format!("checkpoint log={} lsn={}", words::hex(&c.log.0), c.lsn.get())),
        Kind::Index => {
            each(bytes, sound, |e: &IndexEntry| format!("entry log={} page={} lsn={}", words::hex(&e.log.0), e.page.get(), e.lsn.get()))
        }
        Kind::Presence => each(bytes, sound, |p: &PresentPage| format!("present sid={} page={}", words::hex(&p.sid.0), p.page.get())),
    }
}

/// A line for each of a table's first records.
fn each<R: Record>(bytes: &mut [u8], sound: usize, line: impl Fn(&R) -> String) -> String {
    Table::<R>::lend(bytes).records().take(sound).filter_map(Result::ok).map(|record| line(&record) + "\n").collect()
}

fn volume_line(volume: &Volume, commits: Option<&Commits>) -> String {
    let (sync, pending) = (volume.sync, volume.pending);
    let mut line = format!("volume vid={}", words::hex(&volume.vid.0));
    line += &format!(" local={} remote={}", words::hex(&volume.local.0), words::hex(&volume.remote.0));
    line += &format!(" sync={} watermark={}", words::lsn(sync.map(|s| s.remote)), words::lsn(sync.and_then(|s| s.watermark)));
    line += &format!(" pending={} as={}", words::lsn(pending.map(|p| p.local)), words::lsn(pending.map(|p| p.commit)));
    line += &format!(" hash={}", words::or_dash(pending.map(|p| words::hex(&p.hash.0))));
    if let Some(commits) = commits {
        line += &standing(volume, commits);
    }
    line
}

/// Where a volume stands against its remote log, by sync's rule: what each log has beyond what was sent or taken in. A refusal is told by its number.
fn standing(volume: &Volume, commits: &Commits) -> String {
    let beyond = |base: Option<Lsn>, log: LogId| changes(base, commits.latest_lsn(log)?);
    let unseen = beyond(volume.sync.map(|s| s.remote), volume.remote);
    let unsent = beyond(volume.sync.and_then(|s| s.watermark), volume.local);
    let state = match (unsent, unseen) {
        (Ok(None), Ok(None)) => "in-step".to_string(),
        (Ok(Some(_)), Ok(None)) => "ahead".to_string(),
        (Ok(None), Ok(Some(_))) => "behind".to_string(),
        (Ok(Some(_)), Ok(Some(_))) => "diverged".to_string(),
        (_, Err(refusal)) | (Err(refusal), _) => refusal.number().to_string(),
    };
    let range = |range: Result<Option<(Lsn, Lsn)>, Refusal>| {
        words::or_dash(range.ok().flatten().map(|(first, last)| format!("{}-{}", first.get(), last.get())))
    };
    format!(" state={state} unsent={} unseen={}", range(unsent), range(unseen))
}

fn commit_line(commit: &Commit) -> String {
    let mut line = format!("commit log={} lsn={} count={}", words::hex(&commit.log.0), commit.lsn.get(), commit.count.0);
    line += &format!(" hash={}", words::or_dash(commit.hash.map(|hash| words::hex(&hash.0))));
    line += &format!(" sid={}", words::or_dash(commit.segment.map(|segment| words::hex(&segment.sid.0))));
    line += &format!(" pages={}", words::or_dash(commit.segment.map(|segment| words::pages(&segment.pages))));
    let frames = commit.segment.map(|segment| segment.frames).unwrap_or_default();
    line += &format!(" frames={}", words::list(frames.iter().map(|frame| format!("{}@{}", frame.size, frame.last.get()))));
    line + &format!(" checkpoints={}", words::list(commit.checkpoints.iter().map(|lsn| lsn.get().to_string())))
}
