//! "Calls turned back": the numbers of the table. "The lowest number that applies is given, and only then": each call tests its rows in
//! rising order, each row over all arguments, and answers the first that applies. A number of document 02 is "tested where its slip says".

use crate::entry::Handle;
use crate::fresh::LARGEST_ALIAS;
use crate::kind::Kinds;
use crate::store::Store;

/// A number of the table.
pub type Refusal = u8;

/// A handle, or the row that applies.
pub type Made = Result<Handle, Refusal>;

pub fn refuse_if(applies: bool, row: Refusal) -> Result<(), Refusal> {
    match applies {
        true => Err(row),
        false => Ok(()),
    }
}

/// Rows 2 and 3 for all handles of a call, each with the kinds that the call takes there.
pub fn take(store: &Store, handles: impl IntoIterator<Item = (Handle, Kinds)> + Clone) -> Result<(), Refusal> {
    // 2: "handle starts no entry"
    refuse_if(handles.clone().into_iter().any(|(h, _)| store.kind_at(h).is_none()), 2)?;
    // 3: "entry of a kind the call does not take"
    refuse_if(handles.into_iter().any(|(h, taken)| !store.kind_at(h).is_some_and(|kind| taken.has(kind))), 3)
}

/// Row 4: "float size not 0, ±32, ±64; size not 0 with bits not 0". The size is a two's complement word.
pub fn float_is_accepted(sz: u64, bits: u64) -> bool {
    match sz as i64 {
        0 => true,
        -64 | -32 | 32 | 64 => bits == 0,
        _ => false,
    }
}

/// Row 4: "alias over 4,294,967,295".
pub fn alias_is_accepted(alias: u64) -> bool {
    alias <= LARGEST_ALIAS
}

/// Row 4: "flag not 0 or 1".
pub fn flag_is_accepted(flag: u64) -> bool {
    flag <= 1
}
