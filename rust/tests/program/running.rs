//! Runs the program as its user does.
use std::fs;
use std::io::Write;
use std::path::{Path, PathBuf};
use std::process::{Command, Stdio};
use std::thread;

pub struct Ran {
    pub status: i32,
    pub out: Vec<u8>,
    pub err: String,
}

impl Ran {
    pub fn text(&self) -> String {
        String::from_utf8(self.out.clone()).expect("the readable form is UTF-8")
    }
}

pub fn run(mut command: Command, input: &[u8]) -> Ran {
    let mut child = command.stdin(Stdio::piped()).stdout(Stdio::piped()).stderr(Stdio::piped()).spawn().expect("the program starts");
    let mut stdin = child.stdin.take().expect("it has an input");
    let input = input.to_vec();
    // the program may end before it has read all
    let writer = thread::spawn(move || stdin.write_all(&input).is_ok());
    let output = child.wait_with_output().expect("it ends");
    writer.join().expect("its input was written");
    let status = output.status.code().expect("no signal ended it");
    Ran { status, out: output.stdout, err: String::from_utf8_lossy(&output.stderr).into_owned() }
}

pub fn ferigulan(arguments: &[&str], input: impl AsRef<[u8]>) -> Ran {
    let mut command = Command::new(env!("CARGO_BIN_EXE_ferigulan"));
    command.args(arguments).current_dir(repository(""));
    run(command, input.as_ref())
}

pub fn repository(path: &str) -> PathBuf {
    Path::new(env!("CARGO_MANIFEST_DIR")).join("..").join(path)
}

pub fn read(path: &str) -> Vec<u8> {
    fs::read(repository(path)).unwrap_or_else(|error| panic!("{path}: {error}"))
}

pub fn scripts() -> Vec<String> {
    let folder = fs::read_dir(repository("tests")).expect("tests/ is there");
    let names = folder.map(|entry| entry.expect("it can be listed").file_name().into_string().expect("a plain name"));
    let mut names: Vec<String> = names.filter(|name| name.ends_with(".txt")).map(|name| format!("tests/{name}")).collect();
    names.sort();
    assert!(names.len() > 20);
    names
}

/// What stands behind `=>` in each line of the output, with one space where there are more.
pub fn answers(out: &str) -> Vec<String> {
    let behind = out.lines().filter_map(|line| line.split_once(" => "));
    behind.map(|(_, answer)| answer.split_whitespace().collect::<Vec<_>>().join(" ")).collect()
}

/// Runs a script whose lines are given with what they answer.
pub fn expect(lines: &[(&str, &str)]) {
    let script: String = lines.iter().map(|(line, _)| format!("{line}\n")).collect();
    let ran = ferigulan(&["run"], &script);
    let expected: Vec<&str> = lines.iter().map(|(_, answer)| *answer).collect();
    assert_eq!(answers(&ran.text()), expected);
}
