//! `ferigulan`: runs scripts of calls of the library and shows stores, for people. Only the calls are proved; see `ferigulan --help`.
mod help;
mod kept;
mod page;
mod progress;
mod script;
mod session;
#[path = "../shared/mod.rs"]
mod shared;
mod show;
mod spell;
mod table;
mod usage;

use page::{Form, Page};
use script::Script;
use session::{Limits, Session, LONG, SHORT};
use shared::command::{end, input, print, usage, Failure, Status};
use shared::{entries, names, readable, rows, spelling, walk, wrong};
use show::Written;
use std::ffi::{OsStr, OsString};
use std::path::Path;
use std::process::ExitCode;

fn main() -> ExitCode {
    let arguments: Vec<OsString> = std::env::args_os().skip(1).collect();
    end("ferigulan", command(&arguments))
}

fn command(arguments: &[OsString]) -> Result<Status, Failure> {
    let words: Vec<_> = arguments.iter().map(|word| word.to_string_lossy()).collect();
    let words: Vec<&str> = words.iter().map(|word| &**word).collect();
    match words[..] {
        ["run", ..] => run(&arguments[1..]),
        ["show", ..] => show(&arguments[1..]),
        [] | ["--help" | "-h" | "help"] => print(help::PROGRAM),
        ["help", "run"] => print(help::RUN),
        ["help", "show"] => print(help::SHOW),
        ["help", "script"] => print(&help::script()),
        ["--version" | "-V"] => print(concat!("ferigulan ", env!("CARGO_PKG_VERSION"), "\n")),
        ["help", ..] => usage("there is help on run, show and script".to_string()),
        ["--help" | "-h" | "--version" | "-V", more, ..] => usage(format!("nothing can follow here: '{more}'")),
        [first, ..] => usage(format!("there is no command '{first}': see 'ferigulan --help'")),
    }
}

fn options<'a>(command: &str, known: &[&str], arguments: &'a [OsString]) -> Result<(Vec<&'a str>, Vec<&'a OsStr>), Failure> {
    shared::command::options(command, &format!("ferigulan help {command}"), known, arguments)
}

fn run(arguments: &[OsString]) -> Result<Status, Failure> {
    let (options, mut scripts) = options("run", &["--plain", "--long"], arguments)?;
    if options.contains(&"--help") {
        return print(help::RUN);
    }
    if scripts.is_empty() {
        scripts.push(OsStr::new("-"));
    }
    let plain = options.contains(&"--plain");
    let limits = if plain && !options.contains(&"--long") { SHORT } else { LONG };
    let mut page = Page::new(if plain { Form::Plain } else { Form::Readable });
    let done = scripts.into_iter().try_for_each(|script| run_script(script, limits, &mut page));
    page.end()?;
    done?;
    Ok(if page.malformed > 0 && !plain { Status::Wanting } else { Status::Fine })
}

fn run_script(script: &OsStr, limits: Limits, page: &mut Page) -> Result<(), Failure> {
    let (name, input) = input(script)?;
    page.begin(name);
    Session::new(limits).run(&mut Script::new(input), page)
}

fn show(arguments: &[OsString]) -> Result<Status, Failure> {
    let (options, files) = options("show", &["--raw"], arguments)?;
    if options.contains(&"--help") {
        return print(help::SHOW);
    }
    if files.len() > 1 {
        return usage(format!("show takes one file, and not '{}' too", files[1].to_string_lossy()));
    }
    let file = files.first().copied().unwrap_or(OsStr::new("-"));
    let raw = options.contains(&"--raw") || Path::new(file).extension() == Some(OsStr::new("bin"));
    let (name, mut input) = input(file)?;
    let mut bytes = Vec::new();
    input.read_to_end(&mut bytes).map_err(|error| Failure::Read(name.clone(), error))?;
    let well_formed = show::show(&name, &bytes, if raw { Written::Bytes } else { Written::Numbers })?;
    Ok(if well_formed { Status::Fine } else { Status::Wanting })
}
