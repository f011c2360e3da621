//! How a program reads its command and its files, and how it ends.
use std::ffi::{OsStr, OsString};
use std::fs::File;
use std::io::{self, Read, Write};
use std::process::ExitCode;

/// Why a program cannot go on.
pub enum Failure {
    /// The command, or a file, says something that cannot be understood.
    Usage(String),
    /// What was read, and why it cannot be.
    Read(String, io::Error),
    Write(io::Error),
}

/// All is well; or it is not, as the program's help says.
pub enum Status {
    Fine,
    Wanting,
}

/// How the process ends, and what standard error says of it.
pub fn end(program: &str, done: Result<Status, Failure>) -> ExitCode {
    let message = match done {
        Ok(Status::Fine) => return ExitCode::SUCCESS,
        Ok(Status::Wanting) => return ExitCode::from(1),
        // whoever read the output wants no more of it
        Err(Failure::Write(error)) if error.kind() == io::ErrorKind::BrokenPipe => return ExitCode::SUCCESS,
        Err(Failure::Write(error)) => format!("standard output: cannot be written: {error}"),
        Err(Failure::Read(name, error)) => format!("{name}: cannot be read: {error}"),
        Err(Failure::Usage(message)) => message,
    };
    let _ = writeln!(io::stderr(), "{program}: {message}");
    ExitCode::from(2)
}

pub fn usage<T>(message: String) -> Result<T, Failure> {
    Err(Failure::Usage(message))
}

pub fn print(text: &str) -> Result<Status, Failure> {
    let mut out = io::stdout();
    out.write_all(text.as_bytes()).and_then(|()| out.flush()).map_err(Failure::Write)?;
    Ok(Status::Fine)
}

/// The options among the arguments of a command, and the files. Behind `--` there are files alone. `see` has more on the command.
pub fn options<'a>(command: &str, see: &str, known: &[&str], arguments: &'a [OsString]) -> Result<(Vec<&'a str>, Vec<&'a OsStr>), Failure> {
    let (mut options, mut files) = (Vec::new(), Vec::new());
    let mut arguments = arguments.iter();
    while let Some(argument) = arguments.next() {
        match argument.to_str() {
            Some("--") => files.extend(arguments.by_ref().map(|file| &**file)),
            Some(option) if known.contains(&option) || option == "--help" => options.push(option),
            Some(other) if other.starts_with('-') && other != "-" => {
                return usage(format!("{command} has no option '{other}': see '{see}'"));
            }
            _ => files.push(argument),
        }
    }
    Ok((options, files))
}

/// A file by name, or standard input, and what it is called in messages.
pub fn input(file: &OsStr) -> Result<(String, Box<dyn Read>), Failure> {
    if file == "-" {
        return Ok(("standard input".to_string(), Box::new(io::stdin())));
    }
    let name = file.to_string_lossy().into_owned();
    match File::open(file) {
        Ok(opened) => Ok((name, Box::new(opened))),
        Err(error) => Err(Failure::Read(name, error)),
    }
}
