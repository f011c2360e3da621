//! The program `ferigulan`, run as its user runs it.
#[path = "program/command.rs"]
mod command;
#[path = "program/plain.rs"]
mod plain;
#[path = "common/random.rs"]
mod random;
#[path = "program/readable.rs"]
mod readable;
#[path = "program/running.rs"]
mod running;
#[path = "program/show.rs"]
mod show;
