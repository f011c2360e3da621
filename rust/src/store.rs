use core::fmt;

use crate::word::argument;
use crate::{calls, sys, Handle, Kind, OpenedStore, Reading, Refusal, Search};

/// A store of types, in words that the caller lends.
///
/// The words are borrowed as long as the store lives, so that nobody else writes them, and they are always well formed: [`Store::fresh`]
/// and [`Store::load_from`] make them so, [`Store::from_words`] tests it, and every call keeps it. So no method is ever refused with
/// [`NotWellFormed`](Refusal::NotWellFormed). A refused call has changed no word.
///
/// Every method still reads the whole list, as the calls on any words do; [`Store::open`] spares that.
///
/// ```
/// use ferigulan::Store;
///
/// let mut words = [0; 200];
/// let mut store = Store::fresh(&mut words)?;
/// let counter = store.make_int(0, 7)?;
/// let eight = store.get_int(8)?;
/// assert_eq!(store.meet(counter, eight)?, store.make_int(0, 8)?);
/// assert_eq!(store.meet(eight, counter)?, store.make_int(0, 8)?);
/// # Ok::<(), ferigulan::Refusal>(())
/// ```
///
/// While a store lives, its words cannot be written behind its back:
///
/// ```compile_fail,E0506
/// # use ferigulan::Store;
/// let mut words = [0; 200];
/// let mut store = Store::fresh(&mut words)?;
/// words[0] = 95;
/// store.get_int(8)?;
/// # Ok::<(), ferigulan::Refusal>(())
/// ```
pub struct Store<'a> {
    words: &'a mut [u64],
}

impl<'a> Store<'a> {
    /// A fresh store in these words, whatever they were: see [`calls::fresh`].
    ///
    /// Refused with [`NotWellFormed`](Refusal::NotWellFormed) where there are fewer than 94 words or more than 1,048,576.
    pub fn fresh(words: &'a mut [u64]) -> Result<Store<'a>, Refusal> {
        calls::fresh(words)?;
        Ok(Store { words })
    }

    /// The store that these words are, as another one left them.
    ///
    /// Refused with [`NotWellFormed`](Refusal::NotWellFormed) where the words are not well formed.
    ///
    /// ```
    /// use ferigulan::{Refusal, Store};
    ///
    /// let mut words = [0; 200];
    /// let eight = Store::fresh(&mut words)?.get_int(8)?;
    /// assert_eq!(Store::from_words(&mut words)?.int_value(eight)?, Some(8));
    /// words[5] = 7;
    /// assert_eq!(Store::from_words(&mut words).unwrap_err(), Refusal::NotWellFormed);
    /// # Ok::<(), Refusal>(())
    /// ```
    pub fn from_words(words: &'a mut [u64]) -> Result<Store<'a>, Refusal> {
        if calls::well_formed(words) {
            Ok(Store { words })
        } else {
            Err(Refusal::NotWellFormed)
        }
    }

    /// The store that a file was written from, in these words, whatever they were, and the file's label: see [`calls::load`].
    ///
    /// It goes on as the store that was saved: every handle is what it was, and the next entry is appended where that one would have
    /// appended it. The words may be more or fewer than they were, as long as the used ones fit.
    ///
    /// Refused as [`calls::load`] is; then no word has changed.
    ///
    /// ```
    /// use ferigulan::{file_length, Refusal, Store};
    ///
    /// let mut words = [0; 200];
    /// let mut store = Store::fresh(&mut words)?;
    /// let counter = store.make_int(0, 7)?;
    /// let mut file = [0; file_length(4, 97)];
    /// let length = store.save_into(b"lift", &mut file)?;
    ///
    /// let mut others = [7; 1000];
    /// let (mut loaded, label) = Store::load_from(&mut others, &file[..length])?;
    /// assert_eq!(label, b"lift");
    /// assert_eq!(loaded.make_int(0, 7)?, counter);
    /// assert_eq!(loaded.get_int(8)?, store.get_int(8)?);
    /// assert_eq!(Store::load_from(&mut others, &file[1..]).unwrap_err(), Refusal::BadTrailer);
    /// # Ok::<(), Refusal>(())
    /// ```
    pub fn load_from<'f>(words: &'a mut [u64], file: &'f [u8]) -> Result<(Store<'a>, &'f [u8]), Refusal> {
        let label = calls::load(words, file)?;
        Ok((Store { words }, &file[..label]))
    }

    /// Writes the store's file, with a label of at most 255 bytes, and answers how many bytes that are; those behind it keep. See
    /// [`calls::save`].
    ///
    /// Refused with [`TooMany`](Refusal::TooMany) where the label is longer, and with [`OutputTooShort`](Refusal::OutputTooShort); then no
    /// byte has changed.
    ///
    /// ```
    /// use ferigulan::{file_length, Refusal, Store};
    ///
    /// let mut words = [0; 200];
    /// let mut store = Store::fresh(&mut words)?;
    /// store.make_int(0, 7)?;
    /// let mut file = vec![0; file_length(7, store.used())];
    /// assert_eq!(store.save_into(b"station", &mut file)?, file.len());
    /// assert_eq!(store.save_into(b"stations", &mut file), Err(Refusal::OutputTooShort));
    /// assert_eq!(store.save_into(&[0; 256], &mut file), Err(Refusal::TooMany));
    /// # Ok::<(), Refusal>(())
    /// ```
    pub fn save_into(&self, label: &[u8], file: &mut [u8]) -> Result<usize, Refusal> {
        calls::save(self.words, label, file)
    }

    /// All the words, also those that are not used yet.
    pub fn words(&self) -> &[u64] {
        self.words
    }

    /// How many of the words are used: the handle of the next entry that is appended.
    pub fn used(&self) -> usize {
        self.words[0] as usize
    }

    /// Looks for an entry by its words as the store has them, the head first, and answers the lowest handle of an equal one.
    ///
    /// The head is kind + 256 × depth + 65,536 × n. Entries of another head are passed over, and [`Search`] tells how many were not. No store
    /// has an entry of no words: it is absent, and is counted as one whose head is 0.
    ///
    /// ```
    /// use ferigulan::{fresh, Search, Store};
    ///
    /// let mut words = [0; 100];
    /// let mut store = Store::fresh(&mut words)?;
    /// // Int 2..2 is the sixth of the fresh store's twelve Ints
    /// assert_eq!(store.find_entry(&[261, 2, 2]), Search { handle: Some(fresh::INT_TWO), count: 6 });
    /// assert_eq!(store.find_entry(&[261, 3, 3]), Search { handle: None, count: 12 });
    /// let three = store.get_int(3)?;
    /// assert_eq!(store.find_entry(&[261, 3, 3]), Search { handle: Some(three), count: 13 });
    /// # Ok::<(), ferigulan::Refusal>(())
    /// ```
    pub fn find_entry(&self, entry: &[u64]) -> Search {
        Search::in_store(self.words, entry)
    }

    /// The words, once the store is no longer needed.
    pub fn into_words(self) -> &'a mut [u64] {
        self.words
    }

    /// Opens the store: makes an index and a memory of answers in two more lists, with which calls need not read all words.
    ///
    /// The index needs [`index_len`](crate::index_len) words for a list of this length; the memory is best
    /// [`memory_len`](crate::memory_len) words, and may be of any length, also 0. What stands in the two lists before does not matter.
    ///
    /// Refused with [`OutputTooShort`](Refusal::OutputTooShort) where the index is too short; then no word has changed.
    ///
    /// ```
    /// use ferigulan::{index_len, memory_len, Refusal, Store};
    ///
    /// let (mut words, mut index, mut memory) = ([0; 200], [0; index_len(200)], [0; memory_len(200)]);
    /// let mut store = Store::fresh(&mut words)?;
    /// let eight = store.open(&mut index, &mut memory)?.get_int(8)?;
    /// assert_eq!(store.int_value(eight)?, Some(8));
    /// assert_eq!(store.open(&mut [], &mut memory).unwrap_err(), Refusal::OutputTooShort);
    /// # Ok::<(), Refusal>(())
    /// ```
    pub fn open<'s>(&'s mut self, index: &'s mut [u64], memory: &'s mut [u64]) -> Result<OpenedStore<'s>, Refusal> {
        Ok(OpenedStore::new(sys::open(self.words, index, memory)?))
    }
}

impl fmt::Debug for Store<'_> {
    fn fmt(&self, f: &mut fmt::Formatter<'_>) -> fmt::Result {
        f.debug_struct("Store").field("words", &self.words.len()).field("used", &self.used()).finish()
    }
}

macro_rules! store_calls {
    ($(
        $(#[$doc:meta])*
        $shape:ident $name:ident($($arg:ident: $kind:ident),*) $(with $list:ident: [$element:ty])? $(into $output:ident)? -> $answer:ty
        = $plain:ident, $opened:ident refuses [$($row:ident)*] { $(#[$example:meta])* }
    )*) => {
        /// The calls. [`calls`] has each of them as a function over any words, and [`OpenedStore`] as a method again.
        impl Store<'_> {$(
            $(#[$doc])*
            #[doc = ""]
            #[doc = refused_with!($($row)*)]
            #[doc = ""]
            #[doc = " ```"]
            #[doc = " # use ferigulan::{fresh, Field, Handle, Kind, Reading, Refusal, Store};"]
            #[doc = " # let mut words = [0; 512];"]
            #[doc = " let mut store = Store::fresh(&mut words)?;"]
            $(#[$example])*
            #[doc = " # Ok::<(), Refusal>(())"]
            #[doc = " ```"]
            #[inline]
            pub fn $name(
                self: borrowed!($shape Self), $($arg: argument!($kind),)* $($list: &[$element],)? $($output: &mut [u64],)?
            ) -> Result<$answer, Refusal> {
                calls::$name(self.words, $($arg,)* $($list,)? $($output,)?)
            }
        )*}
    };
}

for_every_call!(store_calls);
