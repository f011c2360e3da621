//! What several tests share. Each of them uses a part of it.
#![allow(dead_code)]
pub mod call;
pub mod files;
pub mod play;
pub mod random;
pub mod towers;
