//! Files that hold a table: their kind, and their bytes.
use sigatuda::{Checkpoint, Commit, IndexEntry, PresentPage, Record, Reply, Tag, Volume, plain};
use std::ffi::OsStr;
use std::io::Read;
use std::path::{Path, PathBuf};

/// The six kinds of table.
#[derive(Clone, Copy, Debug, PartialEq, Eq)]
pub enum Kind {
    Volumes,
    Tags,
    Commits,
    Checkpoints,
    Index,
    Presence,
}

/// What a kind is: its word, the words for one record and for several, the bytes of a record and of its key, and the archive's check.
pub struct Shape {
    pub word: &'static str,
    pub one: &'static str,
    pub several: &'static str,
    pub record: usize,
    pub key: usize,
    pub formed: fn(&[u8]) -> Reply,
}

fn shape<R: Record>(words: [&'static str; 3], formed: fn(&[u8]) -> Reply) -> Shape {
    let [word, one, several] = words;
    Shape { word, one, several, record: R::SIZE, key: R::KEY, formed }
}

impl Kind {
    pub const ALL: [Kind; 6] = [Kind::Volumes, Kind::Tags, Kind::Commits, Kind::Checkpoints, Kind::Index, Kind::Presence];

    pub fn shape(self) -> Shape {
        match self {
            Kind::Volumes => shape::<Volume>(["volumes", "volume", "volumes"], plain::volumes_formed),
            Kind::Tags => shape::<Tag>(["tags", "tag", "tags"], plain::tags_formed),
            Kind::Commits => shape::<Commit>(["commits", "commit", "commits"], plain::commits_formed),
            Kind::Checkpoints => shape::<Checkpoint>(["checkpoints", "checkpoint", "checkpoints"], plain::checkpoints_formed),
            Kind::Index => shape::<IndexEntry>(["index", "index entry", "index entries"], plain::index_formed),
            Kind::Presence => shape::<PresentPage>(["presence", "present page", "present pages"], plain::presence_formed),
        }
    }

    /// The kind that a word names.
    fn of_word(word: &str) -> Option<Kind> {
        Kind::ALL.into_iter().find(|kind| kind.shape().word == word)
    }

    /// The one kind whose word stands in a file's name.
    fn of_name(path: &Path) -> Option<Kind> {
        let name = path.file_name()?.to_string_lossy().to_lowercase();
        let mut named = name.split(|c: char| !c.is_alphanumeric()).filter_map(Kind::of_word);
        let kind = named.next()?;
        named.all(|other| other == kind).then_some(kind)
    }

    /// Whether bytes are a table of this kind, as the archive says.
    pub fn is_formed(self, bytes: &[u8]) -> bool {
        (self.shape().formed)(bytes).code == 0
    }

    /// The whole records that fit into a table's bytes, at most 65,535.
    pub fn capacity(self, bytes: &[u8]) -> usize {
        (bytes.len().saturating_sub(2) / self.shape().record).min(65_535)
    }
}

/// A file and the kind of table that it holds.
pub struct File {
    pub kind: Kind,
    pub path: PathBuf,
}

impl File {
    /// The file of an argument, FILE or kind=FILE.
    pub fn of_argument(argument: &OsStr) -> Result<File, String> {
        let said = argument.to_str().and_then(|text| text.split_once('=')).and_then(|(word, path)| Some((Kind::of_word(word)?, path)));
        if let Some((kind, path)) = said {
            return Ok(File { kind, path: PathBuf::from(path) });
        }
        let path = PathBuf::from(argument);
        match Kind::of_name(&path) {
            Some(kind) => Ok(File { kind, path }),
            None => Err(format!("{}: which table is it? Say so before the name, as in commits={0}", path.display())),
        }
    }

    /// Its bytes, as far as a table can reach: no table has more than 65,535 records.
    pub fn read(&self) -> Result<Vec<u8>, String> {
        let reach = 2 + 65_535 * self.kind.shape().record as u64;
        let mut bytes = Vec::new();
        let read = std::fs::File::open(&self.path).and_then(|file| file.take(reach).read_to_end(&mut bytes));
        match read {
            Ok(_) => Ok(bytes),
            Err(e) => Err(format!("{}: it cannot be read: {e}", self.path.display())),
        }
    }
}
