//! `check`: whether a file is a catalogue, and if not, what is wrong and where.
use crate::file::{Bytes, Catalogue};
use crate::label::label;
use crate::put;
use crate::reason::Reason;
use crate::shared::command::{Failure, Status};
use crate::spelling::grouped;
use crate::summary::summary;
use ferigulan::Refusal;
use std::ffi::OsStr;
use std::io::Write;

pub fn check(file: &OsStr) -> Result<Status, Failure> {
    let file = Bytes::read(file)?;
    let (status, verdict) = match file.too_long() {
        Some(why) => (Status::Wanting, format!("bad: {why}")),
        None => verdict(&file),
    };
    put(status, |out| writeln!(out, "{}: {verdict}", file.name))
}

/// The library's.
fn verdict(file: &Bytes) -> (Status, String) {
    match file.load() {
        Ok(catalogue) => (Status::Fine, good(file, &catalogue)),
        Err(refusal) => (Status::Wanting, bad(file, refusal)),
    }
}

fn good(file: &Bytes, catalogue: &Catalogue) -> String {
    let counts = format!("{} bytes, label {}; {}", grouped(file.bytes.len() as u64), label(&catalogue.label), summary(&catalogue.words));
    let own = Reason::of(&file.bytes).map_or(String::new(), |reason| disagreement(&told(&reason)));
    format!("good: {counts}{own}")
}

fn bad(file: &Bytes, refusal: Refusal) -> String {
    let reason = match Reason::of(&file.bytes) {
        Some(reason) if reason.refusal == refusal => reason.lines.iter().map(|line| format!("\n  {line}")).collect(),
        Some(reason) => disagreement(&told(&reason)),
        None => disagreement("it finds nothing wrong"),
    };
    format!("bad, {}: {}{reason}", refusal.number(), condition(refusal))
}

/// A refusal's condition; of row 5 as document 02 has it, since a catalogue has no other.
fn condition(refusal: Refusal) -> String {
    match refusal {
        Refusal::TooMany => "label over 255 bytes".to_string(),
        _ => refusal.to_string(),
    }
}

fn told(reason: &Reason) -> String {
    format!("it finds {}: {}", reason.refusal.number(), reason.lines.join("; "))
}

/// The library's answer is proved, and stands.
fn disagreement(own: &str) -> String {
    format!("\n  this program's own reading does not agree: {own}. The library's answer stands")
}
