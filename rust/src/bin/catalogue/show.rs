//! `show`: a catalogue's label, its numbers and its entries.
use crate::file::good;
use crate::label::label;
use crate::put;
use crate::rows::{columns, title};
use crate::shared::command::{Failure, Status};
use crate::spelling::grouped;
use crate::summary::{saved_entries, summary};
use std::ffi::OsStr;
use std::io::Write;

pub fn show(file: &OsStr) -> Result<Status, Failure> {
    let (file, catalogue) = good(file)?;
    put(Status::Fine, |out| {
        writeln!(out, "{}: {} bytes", file.name, grouped(file.bytes.len() as u64))?;
        writeln!(out, "label: {}", label(&catalogue.label))?;
        writeln!(out, "{}", summary(&catalogue.words))?;
        writeln!(out, "{}", title())?;
        saved_entries(&catalogue.words).try_for_each(|entry| writeln!(out, "{}", columns(&catalogue.words, &entry, true)))
    })
}
