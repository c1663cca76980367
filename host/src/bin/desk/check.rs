//! `desk check`: whether each file is a table, and where it is not.
use crate::Report;
use crate::files::{File, Kind};
use crate::place::first_fault;
use std::ffi::{OsStr, OsString};

/// A line for each file: ok with its records and its room, or 20 with the first place that breaks the form.
pub fn check(args: &[OsString]) -> Result<Report, String> {
    if args.is_empty() {
        return Err("which files are to be checked?".to_string());
    }
    let mut report = Report { text: String::new(), well: true };
    for argument in args {
        let line = checked(argument);
        report.well &= line.is_ok();
        report.text += &line.unwrap_or_else(|fault| fault);
        report.text.push('\n');
    }
    Ok(report)
}

/// The line of one file.
fn checked(argument: &OsStr) -> Result<String, String> {
    let file = File::of_argument(argument)?;
    let (verdict, name) = (verdict(file.kind, &file.read()?), file.path.display());
    verdict.map(|line| format!("{name}: {line}")).map_err(|line| format!("{name}: {line}"))
}

/// What is said of a table in form, or what breaks it.
pub fn verdict(kind: Kind, bytes: &[u8]) -> Result<String, String> {
    if !kind.is_formed(bytes) {
        return Err(format!("20, {}", place(kind, bytes)));
    }
    let (held, room) = (held(bytes), kind.capacity(bytes));
    let full = if held == room { ": it is full, and a call that needs room in it is refused with 19" } else { "" };
    Ok(format!("ok, {held} of {room} {}{full}", kind.shape().several))
}

/// The records that a table in form says it holds.
fn held(bytes: &[u8]) -> usize {
    bytes.first_chunk().map_or(0, |&count| usize::from(u16::from_be_bytes(count)))
}

/// Where bytes that are no table break the form.
fn place(kind: Kind, bytes: &[u8]) -> String {
    let Some(fault) = first_fault(kind, bytes) else {
        return "but no place was found that breaks the form: please report this file".to_string();
    };
    let record = fault.record.map_or(String::new(), |n| format!("{} {n}, ", kind.shape().one));
    format!("{record}{}: {} (byte {} of the file)", fault.field, fault.wrong, fault.at)
}
