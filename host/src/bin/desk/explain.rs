//! `desk explain`: a number in document 01's words, and what can be done about it.
use crate::Report;
use sigatuda::Refusal;
use std::ffi::OsString;

/// The words of a number, or of all.
pub fn explain(args: &[OsString]) -> Result<Report, String> {
    let numbers = match args {
        [] => (0..ADVICE.len()).collect(),
        [number] => vec![number.to_str().and_then(|text| text.parse().ok()).filter(|n| *n < ADVICE.len()).ok_or_else(|| unknown(number))?],
        _ => return Err("one number at a time is explained, or all where none is given".to_string()),
    };
    let text = numbers.into_iter().map(|n| format!("{n}: {}\n    {}\n", words(n), ADVICE[n])).collect();
    Ok(Report { text, well: true })
}

fn unknown(number: &OsString) -> String {
    format!("{} is no number that a call answers: they go from 0 to 24", number.display())
}

/// Document 01's words.
fn words(number: usize) -> &'static str {
    Refusal::from_number(number as u32).map_or("done, found, or nothing found", Refusal::words)
}

/// What the user can do, by number.
const ADVICE: [&str; 25] = [
    "All is well.",
    "The caller gave a number or a name that cannot be: LSNs and pages start at 1, a tag's name has 1 to 32 bytes. Correct it and \
     ask again.",
    "The two ends of a range are the wrong way round. Swap them.",
    "A value was handed over in bytes that are not its form, or that hold more than fits. Make it anew with the host's types.",
    "The tester does not have this volume. Compare the identifier with `desk show` of its volumes, or open the volume first.",
    "This identifier is taken. Draw a new one and ask again.",
    "The volume is there and follows another log than the one asked for. Open it without naming a log, or open another volume.",
    "The volume has moved since it was looked at. Take a new snapshot, look again at what is to be saved, and save over that.",
    "The tester has unsent readings and the desk's list has moved too; or, of recover, another commit stands where the pending one \
     was to go, and the pending one is dropped. Nothing else is changed. `desk show` tells which commits are unsent and which \
     unseen: decide by hand which pages are to stand.",
    "A commit is being sent already. Let it end, or use recover, before the next one.",
    "There is no commit under way. Prepare one first; if one was, it has ended already.",
    "These readings were sent already. Nothing is to be done.",
    "The desk's log has moved on, or is not fetched. Fetch its latest commits and pull; then prepare with the LSN after the latest. \
     Where the pull is refused (8), decide by hand first.",
    "A commit that is sent needs a hash, and all zeros are none. Work out the hash and prepare again.",
    "The commit that came back is not the one that is being sent. Use recover, which looks at what the desk's log holds.",
    "The desk's log holds another commit at this place. Use recover: it drops the commit under way, and the readings stay unsent.",
    "The volume says that it took in or sent commits, and the log has none: a table of commits was lost, or is another tester's. \
     Fetch the log again, or put the right table back.",
    "Sync leaves a volume alone whose log ends before what it took in, so no call answers this.",
    "The log has used its last LSN. Copy what is there into a new volume and go on in that.",
    "A table, or the list lent for an answer, is too small, and nothing was stored. Give it more room, or remove what is no longer \
     needed; `desk check` tells how full each table is.",
    "The file is no table of its kind, was cut short, or was damaged. `desk check` tells where. Put back the last good copy.",
    "The page index names a commit that the table of commits does not hold: the two are not of the same moment. Put back copies \
     that were taken together.",
    "The pages lie too far apart for one set, which has at most 32 groups of 64 pages. Divide them over several commits.",
    "The bytes of the segment are fewer than its frames say. Fetch the segment again, whole.",
    "The line is not in the form of a call list: keys in their order, one blank between, lower case hex, no zeros before a number.",
];
