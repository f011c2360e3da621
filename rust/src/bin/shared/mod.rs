//! What both programs share: stores in a form that people read, what is wrong with words, and how a program begins and ends. Each of them
//! uses a part of it.
#![allow(dead_code)]
pub mod command;
pub mod entries;
pub mod names;
pub mod readable;
pub mod rows;
pub mod spelling;
pub mod walk;
pub mod wrong;
