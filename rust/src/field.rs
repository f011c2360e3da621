use crate::sys;
use crate::Handle;

/// A field of a struct, four words, as [`get_struct`](crate::Store::get_struct) is lent it and
/// [`struct_fields`](crate::Store::struct_fields) hands it out.
///
/// The alias and the flag are words, so that a field list can hold whatever a caller has; `get_struct` refuses an alias over 4,294,967,295
/// and a flag other than 0 and 1 ([`BadValue`](crate::Refusal::BadValue)).
///
/// ```
/// use ferigulan::{fresh, Field, Store};
///
/// let mut words = [0; 200];
/// let mut store = Store::fresh(&mut words)?;
/// let (name, x) = (store.get_str(b"Point")?, store.get_str(b"x")?);
/// let fields = [Field::new(x, fresh::INT_I32, 7_u32, true)];
/// let point = store.get_struct(name, Field::words(&fields))?;
///
/// let mut output = [0; 8];
/// let filled = store.struct_fields(point, &mut output)?;
/// assert_eq!(Field::from_words(&output[..filled]), fields);
/// # Ok::<(), ferigulan::Refusal>(())
/// ```
#[repr(C)]
#[derive(Clone, Copy, PartialEq, Eq, Hash, Debug)]
pub struct Field {
    /// The handle of the field's name.
    pub name: Handle,
    /// The handle of the field's type.
    pub ty: Handle,
    /// The alias, at most 4,294,967,295.
    pub alias: u64,
    /// 1 if the field is final, else 0.
    pub is_final: u64,
}

impl Field {
    /// How many words a field is lent as.
    pub const WORDS: usize = 4;

    /// The field with this name, type, alias and finality.
    pub fn new(name: Handle, ty: Handle, alias: impl Into<u64>, is_final: bool) -> Field {
        Field { name, ty, alias: alias.into(), is_final: is_final.into() }
    }

    /// These fields as the words that a call is lent: name, type, alias and final of each.
    pub fn words(fields: &[Field]) -> &[u64] {
        sys::words_of(fields)
    }

    /// The whole fields that these words are; a rest of one to three words is left out.
    pub fn from_words(words: &[u64]) -> &[Field] {
        sys::fields_of(words)
    }
}
