use core::fmt;

use crate::sys::{self, OpenedLists};
use crate::word::{argument, word, Told};
use crate::{calls, Handle, Kind, Reading, Refusal, Search};

/// A store that was opened: its calls answer and leave in the words just what [`Store`](crate::Store)'s do, without reading all of them.
///
/// It is made by [`Store::open`](crate::Store::open), and holds the store and both lent lists as long as it lives. Its calls stand on the
/// promise that nobody else writes any of the three lists meanwhile, and no call tests it: the compiler does. When it is dropped, the store
/// and the lists are the caller's again.
///
/// Every call borrows it for writing, also one that only reads the words, since each is lent the memory. So calls on one opened store are
/// made one at a time, where those of [`Store`](crate::Store) that read may be made by several threads.
///
/// ```
/// use ferigulan::{index_len, memory_len, Store};
///
/// let mut words = [0; 1000];
/// let mut index = [0; index_len(1000)];
/// let mut memory = [0; memory_len(1000)];
/// let mut store = Store::fresh(&mut words)?;
/// let mut opened = store.open(&mut index, &mut memory)?;
/// let counter = opened.make_int(0, 7)?;
/// let eight = opened.get_int(8)?;
/// let both = opened.meet(counter, eight)?;
/// assert!(opened.isa(counter, both)?);
/// // the lists are the caller's again
/// index[0] = 0;
/// assert_eq!(store.int_max(both)?, 8);
/// # Ok::<(), ferigulan::Refusal>(())
/// ```
///
/// This does not compile, since the store would append behind the index's back:
///
/// ```compile_fail,E0499
/// # use ferigulan::{index_len, memory_len, Store};
/// # let mut words = [0; 1000];
/// # let mut index = [0; index_len(1000)];
/// # let mut memory = [0; memory_len(1000)];
/// # let mut store = Store::fresh(&mut words)?;
/// let mut opened = store.open(&mut index, &mut memory)?;
/// store.get_int(8)?;
/// opened.get_int(8)?;
/// # Ok::<(), ferigulan::Refusal>(())
/// ```
///
/// Nor does this, which would write the words,
///
/// ```compile_fail,E0506
/// # use ferigulan::{index_len, memory_len, Store};
/// # let mut words = [0; 1000];
/// # let mut index = [0; index_len(1000)];
/// # let mut memory = [0; memory_len(1000)];
/// # let mut store = Store::fresh(&mut words)?;
/// let mut opened = store.open(&mut index, &mut memory)?;
/// words[0] = 95;
/// opened.get_int(8)?;
/// # Ok::<(), ferigulan::Refusal>(())
/// ```
///
/// the index,
///
/// ```compile_fail,E0506
/// # use ferigulan::{index_len, memory_len, Store};
/// # let mut words = [0; 1000];
/// # let mut index = [0; index_len(1000)];
/// # let mut memory = [0; memory_len(1000)];
/// # let mut store = Store::fresh(&mut words)?;
/// let mut opened = store.open(&mut index, &mut memory)?;
/// index[0] = 0;
/// opened.get_int(8)?;
/// # Ok::<(), ferigulan::Refusal>(())
/// ```
///
/// or the memory:
///
/// ```compile_fail,E0506
/// # use ferigulan::{index_len, memory_len, Store};
/// # let mut words = [0; 1000];
/// # let mut index = [0; index_len(1000)];
/// # let mut memory = [0; memory_len(1000)];
/// # let mut store = Store::fresh(&mut words)?;
/// let mut opened = store.open(&mut index, &mut memory)?;
/// memory[0] = 0;
/// opened.get_int(8)?;
/// # Ok::<(), ferigulan::Refusal>(())
/// ```
///
/// Nor this, whose call may write the memory:
///
/// ```compile_fail,E0596
/// # use ferigulan::{fresh, index_len, memory_len, Store};
/// # let mut words = [0; 1000];
/// # let mut index = [0; index_len(1000)];
/// # let mut memory = [0; memory_len(1000)];
/// # let mut store = Store::fresh(&mut words)?;
/// let opened = &store.open(&mut index, &mut memory)?;
/// opened.int_value(fresh::INT_TWO)?;
/// # Ok::<(), ferigulan::Refusal>(())
/// ```
pub struct OpenedStore<'s> {
    lists: OpenedLists<'s>,
}

impl<'s> OpenedStore<'s> {
    pub(crate) fn new(lists: OpenedLists<'s>) -> OpenedStore<'s> {
        OpenedStore { lists }
    }

    /// All the words, also those that are not used yet.
    pub fn words(&self) -> &[u64] {
        self.lists.words()
    }

    /// How many of the words are used: the handle of the next entry that is appended.
    pub fn used(&self) -> usize {
        self.words()[0] as usize
    }

    /// Looks for an entry by its words: see [`Store::find_entry`](crate::Store::find_entry). It reads all of the store's words, as that does,
    /// and leaves the index alone, which does not know how many entries of a head there are.
    pub fn find_entry(&self, entry: &[u64]) -> Search {
        Search::in_store(self.words(), entry)
    }

    /// Writes the store's file: see [`Store::save_into`](crate::Store::save_into). It reads all of the store's words, as that does, and leaves
    /// the index and the memory alone, which are in no file. A store that was loaded is opened anew.
    pub fn save_into(&self, label: &[u8], file: &mut [u8]) -> Result<usize, Refusal> {
        calls::save(self.words(), label, file)
    }
}

impl fmt::Debug for OpenedStore<'_> {
    fn fmt(&self, f: &mut fmt::Formatter<'_>) -> fmt::Result {
        f.debug_struct("OpenedStore").field("words", &self.words().len()).field("used", &self.used()).finish()
    }
}

/// How many words the index of a store with `n` words needs.
pub const fn index_len(n: usize) -> usize {
    2 * n + n / 64 + 1
}

/// How many words the memory of answers of a store with `n` words is best lent.
///
/// It may be of any length. With fewer words, calls remember less and open shared parts of types again; README.md, "An opened store", says
/// when.
pub const fn memory_len(n: usize) -> usize {
    6 * n
}

macro_rules! opened_calls {
    ($(
        $(#[$doc:meta])*
        $shape:ident $name:ident($($arg:ident: $kind:ident),*) $(with $list:ident: [$element:ty])? $(into $output:ident)? -> $answer:ty
        = $plain:ident, $opened:ident refuses [$($row:ident)*] $example:tt
    )*) => {
        /// The calls, each as [`Store`](crate::Store)'s.
        impl OpenedStore<'_> {$(
            $(#[$doc])*
            #[doc = ""]
            #[doc = refused_with!($($row)*)]
            #[doc = ""]
            #[doc = example_at!($name)]
            #[inline]
            pub fn $name(
                &mut self, $($arg: argument!($kind),)* $($list: &[$element],)? $($output: &mut [u64],)?
            ) -> Result<$answer, Refusal> {
                sys::opened::$name(&mut self.lists, $(word!($kind, $arg),)* $($list,)? $($output,)?).map(Told::told)
            }
        )*}
    };
}

for_every_call!(opened_calls);
