//! The calls as functions over lent words, whatever the words are.
//!
//! Every one of them but [`fresh`], [`load`] and [`well_formed`] tests the whole list first, and is refused with
//! [`NotWellFormed`](Refusal::NotWellFormed) where the words are not those of a store. [`Store`](crate::Store) has the same calls as
//! methods, on words that are known to be one.
//!
//! ```
//! use ferigulan::{calls, Refusal};
//!
//! let mut words = [0; 200];
//! assert_eq!(calls::make_int(&mut words, 0, 7), Err(Refusal::NotWellFormed));
//! calls::fresh(&mut words)?;
//! let low = calls::make_int(&mut words, 0, 7)?;
//! let eight = calls::get_int(&mut words, 8)?;
//! let met = calls::meet(&mut words, low, eight)?;
//! assert_eq!((calls::int_min(&words, met)?, calls::int_max(&words, met)?), (0, 8));
//! # Ok::<(), Refusal>(())
//! ```
use crate::sys;
use crate::word::{argument, word, Told};
use crate::{Handle, Kind, Reading, Refusal, Search};

/// Writes a fresh store into the words: the 94 of the fresh types, and 0 behind them.
///
/// It tests the length alone, from 94 to 1,048,576, and is refused with [`NotWellFormed`](Refusal::NotWellFormed) where it is another; then
/// no word has changed.
///
/// ```
/// use ferigulan::{calls, Refusal};
///
/// let mut words = [7; 100];
/// calls::fresh(&mut words)?;
/// assert!(calls::well_formed(&words));
/// assert_eq!((words[0], words[99]), (94, 0));
/// assert_eq!(calls::fresh(&mut words[..93]), Err(Refusal::NotWellFormed));
/// # Ok::<(), Refusal>(())
/// ```
pub fn fresh(words: &mut [u64]) -> Result<(), Refusal> {
    sys::fresh(words)
}

/// Whether the words are well formed: those of a store.
///
/// ```
/// use ferigulan::calls;
///
/// let mut words = [0; 100];
/// assert!(!calls::well_formed(&words));
/// calls::fresh(&mut words)?;
/// assert!(calls::well_formed(&words));
/// # Ok::<(), ferigulan::Refusal>(())
/// ```
pub fn well_formed(words: &[u64]) -> bool {
    sys::well_formed(words)
}

/// Looks for an entry by its words as a store has them, the head first: see [`Store::find_entry`](crate::Store::find_entry).
///
/// Refused with [`NotWellFormed`](Refusal::NotWellFormed).
///
/// ```
/// use ferigulan::{calls, fresh, Refusal, Search};
///
/// let mut words = [0; 100];
/// assert_eq!(calls::find_entry(&words, &[261, 2, 2]), Err(Refusal::NotWellFormed));
/// calls::fresh(&mut words)?;
/// assert_eq!(calls::find_entry(&words, &[261, 2, 2])?, Search { handle: Some(fresh::INT_TWO), count: 6 });
/// # Ok::<(), Refusal>(())
/// ```
pub fn find_entry(words: &[u64], entry: &[u64]) -> Result<Search, Refusal> {
    sys::find_entry(words, entry).map(Told::told)
}

/// Writes the file of a store into `file`, with a label of at most 255 bytes, and answers how many bytes that are; those behind it keep.
///
/// The length is [`file_length`](crate::file_length) of the label's and of word 0. Equal labels and equal used words give equal files, in
/// lists of whatever lengths.
///
/// Refused with [`NotWellFormed`](Refusal::NotWellFormed), [`TooMany`](Refusal::TooMany) where the label is longer, and
/// [`OutputTooShort`](Refusal::OutputTooShort); then no byte has changed.
///
/// ```
/// use ferigulan::{calls, Refusal};
///
/// let mut words = [0; 100];
/// calls::fresh(&mut words)?;
/// let mut file = [7; 18];
/// // a label of a byte, no words beyond the fresh ones, and the trailer: the words start at byte 1, and there are 0
/// assert_eq!(calls::save(&words, b"a", &mut file)?, 17);
/// assert_eq!(file, *b"a\x01\0\0\0\0\0\0\0\0\0\0\0\0\0\0\0\x07");
/// assert_eq!(calls::save(&words, b"abc", &mut file), Err(Refusal::OutputTooShort));
/// # Ok::<(), Refusal>(())
/// ```
pub fn save(words: &[u64], label: &[u8], file: &mut [u8]) -> Result<usize, Refusal> {
    sys::save(words, label, file).map(Told::told)
}

/// Fills the words with the store that a file was written from, and 0 behind it, whatever they were, and answers the label's length: the
/// label is the file's first so many bytes.
///
/// It takes just the files that [`save`] makes of stores that calls alone have made. The store goes on as the one that was saved: every
/// handle is what it was.
///
/// Refused, in this order, with [`NotWellFormed`](Refusal::NotWellFormed) where there are fewer than 94 words or more than 1,048,576, which
/// is all that is tested of them; [`BadTrailer`](Refusal::BadTrailer); [`BadWords`](Refusal::BadWords); [`TooMany`](Refusal::TooMany) where
/// the label has more than 255 bytes; and [`NoRoom`](Refusal::NoRoom) where the words are too few for the store. Then no word has changed.
///
/// ```
/// use ferigulan::{calls, Refusal};
///
/// let mut words = [0; 100];
/// calls::fresh(&mut words)?;
/// let three = calls::get_int(&mut words, 3)?;
/// let mut file = [0; 64];
/// let length = calls::save(&words, b"lift", &mut file)?;
///
/// let mut others = [7; 200];
/// let label = calls::load(&mut others, &file[..length])?;
/// assert_eq!(&file[..label], b"lift");
/// assert_eq!(calls::int_value(&others, three)?, Some(3));
/// assert_eq!(others[97..], [0; 103]);
/// assert_eq!(calls::load(&mut others, &file), Err(Refusal::BadTrailer));
/// # Ok::<(), Refusal>(())
/// ```
pub fn load(words: &mut [u64], file: &[u8]) -> Result<usize, Refusal> {
    sys::load(words, file).map(Told::told)
}

macro_rules! plain_calls {
    ($(
        $(#[$doc:meta])*
        $shape:ident $name:ident($($arg:ident: $kind:ident),*) $(with $list:ident: [$element:ty])? $(into $output:ident)? -> $answer:ty
        = $plain:ident, $opened:ident refuses [$($row:ident)*] $example:tt
    )*) => {$(
        $(#[$doc])*
        #[doc = ""]
        #[doc = refused_with!(NotWellFormed $($row)*)]
        #[doc = ""]
        #[doc = example_at!($name)]
        #[inline]
        pub fn $name(
            words: borrowed!($shape [u64]), $($arg: argument!($kind),)* $($list: &[$element],)? $($output: &mut [u64],)?
        ) -> Result<$answer, Refusal> {
            sys::plain::$name(words, $(word!($kind, $arg),)* $($list,)? $($output,)?).map(Told::told)
        }
    )*};
}

for_every_call!(plain_calls);
