//! `desk`: looks into a tester's tables, for the people at the results desk. It reads tables and never writes one.
use std::ffi::OsString;
use std::io::Write;
use std::process::ExitCode;

mod check;
mod explain;
mod files;
mod map;
mod place;
mod show;
mod svg;
mod words;

const USAGE: &str = "\
desk looks into the tables of a tester, and never changes one.

    desk check FILES                               is each table in form, and where is it not
    desk show FILES                                every record, one line each
    desk show FILES --volume VID [--svg FILE]      and which commit holds which page of a volume
    desk explain [NUMBER]                          what a number means, and what to do about it

A file holds one table; its kind is the word volumes, tags, commits, checkpoints, index or presence in its name, or is
said before it, as in commits=FILE. VID is at most 32 hex digits; zeros before them may be left out.
The exit status is 0 where all is well and 1 where it is not.
";

/// What is printed, and whether all is well.
pub struct Report {
    pub text: String,
    pub well: bool,
}

/// The report on a command, or what is wrong with it, in words.
fn run(args: &[OsString]) -> Result<Report, String> {
    let Some((command, rest)) = args.split_first() else {
        return Err(format!("what is wanted?\n\n{USAGE}"));
    };
    match command.to_str() {
        Some("check") => check::check(rest),
        Some("show") => show::show(rest),
        Some("explain") => explain::explain(rest),
        Some("help" | "--help" | "-h") => Ok(Report { text: USAGE.to_string(), well: true }),
        _ => Err(format!("there is no command {}\n\n{USAGE}", command.display())),
    }
}

fn main() -> ExitCode {
    let args: Vec<OsString> = std::env::args_os().skip(1).collect();
    let (printed, well) = match run(&args) {
        Ok(report) => (std::io::stdout().write_all(report.text.as_bytes()), report.well),
        Err(wrong) => (std::io::stderr().write_all(format!("desk: {}\n", wrong.trim_end()).as_bytes()), false),
    };
    // a reader that stops early, such as `head`, is no fault
    let printed = printed.is_ok() || printed.is_err_and(|e| e.kind() == std::io::ErrorKind::BrokenPipe);
    if well && printed { ExitCode::SUCCESS } else { ExitCode::FAILURE }
}
