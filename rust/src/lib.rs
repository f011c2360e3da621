//! The type lattice of a compiler for amusement-ride control cabinets, over words that the caller lends.
//!
//! The work is done by an archive of proved functions, `liblattice_c.a`, which `sh archive.sh lattice_c` builds and proves in the
//! repository; this crate links it and gives its functions Rust's types. It allocates nothing and needs no `std`. "Document 01" is the
//! contract that the archive is proved against, and document 02 has the requests that came after it.
//!
//! A program's types stand in a store, a list of 94 to 1,048,576 words. Calls make types in it and hand back [handles](Handle), or tell
//! something of the types that are there. A call that makes a type hands back the lowest handle of an equal one, and appends it, its parts
//! first, where there is none; so in a store that calls alone have made, two types are the same exactly if their handles are. A call that
//! cannot be answered is [refused](Refusal), and then no word has changed.
//!
//! ```
//! use ferigulan::{fresh, Refusal, Store};
//!
//! let mut words = [0; 200];
//! let mut store = Store::fresh(&mut words)?;
//!
//! // a counter that was 0 to 7 and may now be 8
//! let counter = store.make_int(0, 7)?;
//! let eight = store.get_int(8)?;
//! let merged = store.meet(counter, eight)?;
//! assert_eq!((store.int_min(merged)?, store.int_max(merged)?), (0, 8));
//! assert_eq!(store.meet(eight, counter)?, merged);
//!
//! // a call that is turned back says why
//! let refusal = store.int_mask(fresh::BOT).unwrap_err();
//! assert_eq!(refusal, Refusal::WrongKind);
//! assert_eq!(refusal.to_string(), "entry of a kind the call does not take");
//! # Ok::<(), Refusal>(())
//! ```
//!
//! Every call is there in three forms, which answer the same:
//!
//! - the functions of [`calls`], on any words whatever: each tests all of them first;
//! - the methods of [`Store`], which borrows words that are known to be a store;
//! - the methods of [`OpenedStore`], which holds an index and a memory of answers besides, and reads no more of the words than it needs. It
//!   is the one to use where many calls are made.
//!
//! The search for an entry by its words, [`find_entry`](Store::find_entry), is no call, and is there in the same three forms. It tells
//! besides how many entries it did not pass over.
//!
//! A store is saved with [`save_into`](Store::save_into), into bytes that the caller lends and writes wherever they are kept, and
//! loaded with [`load_from`](Store::load_from), years later too. [`calls`] has both on any words whatever.
//!
//! # Linking
//!
//! A program that has this crate among its dependencies, by its path, links the archive by that alone:
//!
//! ```toml
//! [dependencies]
//! ferigulan = { path = "../ferigulan/rust" }
//! ```
//!
//! The archive is looked for in the repository's `target/staticlib`, where `sh archive.sh lattice_c` writes it, or in the folder that the
//! environment variable `FERIGULAN_LIB` names, by an absolute path: a relative one is taken from this crate's folder.
//!
//! # Threads
//!
//! Calls of [`calls`] and [`Store`] that only read borrow the words shared, and several threads may make them on one store at a time. Those
//! that append borrow them for writing, and so does every call of [`OpenedStore`], since each is lent the memory of answers to write.
//!
//! # Stack
//!
//! A call needs no heap, and a bounded stack: README.md, "Stack", has the figures, and `cargo run --release --example stack` measures them.
//! They go by the words of the list; those of a load by the words of the file's store too, which it tests before it looks at the list.
//! In a thread with less it ends the process, as any stack overflow does.
#![no_std]
#![deny(missing_docs, unsafe_code)]

#[cfg(not(target_arch = "x86_64"))]
compile_error!("ferigulan is for x86-64 alone: its archive is built for no other processor");

#[macro_use]
mod table;

pub mod calls;
mod catalogue;
mod field;
pub mod fresh;
mod handle;
mod kind;
mod opened_store;
mod reading;
mod refusal;
mod search;
mod store;
mod sys;
mod word;

pub use catalogue::{file_length, LONGEST_FILE, LONGEST_LABEL};
pub use field::Field;
pub use handle::Handle;
pub use kind::Kind;
pub use opened_store::{index_len, memory_len, OpenedStore};
pub use reading::Reading;
pub use refusal::Refusal;
pub use search::Search;
pub use store::Store;
