//! `catalogue`: shows, checks and compares saved stores, for people. Whether a file is a good one is the proved library's answer; see
//! `catalogue --help`.
mod check;
mod diff;
mod file;
mod help;
mod label;
mod reason;
#[path = "../shared/mod.rs"]
mod shared;
mod show;
mod summary;

use shared::command::{end, options, print, usage, Failure, Status};
use shared::{entries, names, readable, rows, spelling, walk, wrong};
use std::ffi::{OsStr, OsString};
use std::io::{self, BufWriter, Stdout, Write};
use std::process::ExitCode;

fn main() -> ExitCode {
    let arguments: Vec<OsString> = std::env::args_os().skip(1).collect();
    end("catalogue", command(&arguments))
}

fn command(arguments: &[OsString]) -> Result<Status, Failure> {
    let words: Vec<_> = arguments.iter().map(|word| word.to_string_lossy()).collect();
    let words: Vec<&str> = words.iter().map(|word| &**word).collect();
    match words[..] {
        ["show", ..] => on_files("show", &arguments[1..], |[file]| show::show(file)),
        ["check", ..] => on_files("check", &arguments[1..], |[file]| check::check(file)),
        ["diff", ..] => on_files("diff", &arguments[1..], |[a, b]| diff::diff(a, b)),
        [] | ["--help" | "-h" | "help"] => print(help::PROGRAM),
        ["--version" | "-V"] => print(concat!("catalogue ", env!("CARGO_PKG_VERSION"), "\n")),
        ["--help" | "-h" | "help" | "--version" | "-V", more, ..] => usage(format!("nothing can follow here: '{more}'")),
        [first, ..] => usage(format!("there is no command '{first}': see 'catalogue --help'")),
    }
}

/// A command on just so many files.
fn on_files<const N: usize>(
    command: &str,
    arguments: &[OsString],
    run: impl FnOnce([&OsStr; N]) -> Result<Status, Failure>,
) -> Result<Status, Failure> {
    let (options, files) = options(command, "catalogue --help", &[], arguments)?;
    if !options.is_empty() {
        return print(help::PROGRAM);
    }
    let wanted = if N == 1 { "one file" } else { "two files" };
    match <[&OsStr; N]>::try_from(files) {
        Ok(files) => run(files),
        Err(files) => usage(format!("{command} takes {wanted}, not {}: see 'catalogue --help'", files.len())),
    }
}

/// Writes all of the output. Where whoever reads it goes away, the program ends as it would have ended.
fn put(status: Status, write: impl FnOnce(&mut BufWriter<Stdout>) -> io::Result<()>) -> Result<Status, Failure> {
    let mut out = BufWriter::with_capacity(1 << 16, io::stdout());
    match write(&mut out).and_then(|()| out.flush()) {
        Err(error) if error.kind() != io::ErrorKind::BrokenPipe => Err(Failure::Write(error)),
        _ => Ok(status),
    }
}
