use core::fmt;

/// Where an entry of a store begins: a type's handle, or a name's.
///
/// A handle is a word, and any word may be made one. A call that is lent a handle which starts no entry is refused with
/// [`NoEntry`](crate::Refusal::NoEntry), and one that starts an entry of another kind with [`WrongKind`](crate::Refusal::WrongKind). What a
/// handle stands for never changes, as long as the words are that store.
///
/// ```
/// use ferigulan::{fresh, Handle, Refusal, Store};
///
/// let mut words = [0; 94];
/// let store = Store::fresh(&mut words)?;
/// assert_eq!(Handle::new(15), fresh::INT_BOOL);
/// assert_eq!(store.kind(Handle::new(16)), Err(Refusal::NoEntry));
/// # Ok::<(), Refusal>(())
/// ```
#[repr(transparent)]
#[derive(Clone, Copy, PartialEq, Eq, PartialOrd, Ord, Hash, Debug)]
pub struct Handle(u64);

impl Handle {
    /// The handle that is this word.
    pub const fn new(word: u64) -> Handle {
        Handle(word)
    }

    /// The word that this handle is.
    pub const fn word(self) -> u64 {
        self.0
    }
}

impl From<Handle> for u64 {
    fn from(handle: Handle) -> u64 {
        handle.word()
    }
}

impl fmt::Display for Handle {
    fn fmt(&self, f: &mut fmt::Formatter<'_>) -> fmt::Result {
        fmt::Display::fmt(&self.0, f)
    }
}
