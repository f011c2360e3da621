//! "Calls on fields (the field list, `find`, `find_alias`, `is_ary`, offsets)", the name, and arrays.

use crate::entry::Handle;
use crate::kind::Kinds;
use crate::refusals::{alias_is_accepted, refuse_if, take, Made, Refusal};
use crate::scalars::log_size;
use crate::store::Store;
use crate::types::Type;

/// The name of a struct or forward reference.
pub fn name(store: &Store, s: Handle) -> Made {
    take(store, [(s, Kinds::STRUCTS)])?;
    Ok(store.name(s))
}

/// How many fields there are. 7: "fields wanted of a forward reference".
fn count(store: &Store, s: Handle) -> Result<usize, Refusal> {
    match store.ty(s) {
        Type::Struct { n: Some(n) } => Ok(n),
        _ => Err(7),
    }
}

/// The field list into the output, as a field is lent: "name, type, alias, final". How many words that were.
pub fn fields(store: &Store, s: Handle, output: &mut [u64]) -> Result<u64, Refusal> {
    take(store, [(s, Kinds::STRUCTS)])?;
    let n = count(store, s)?;
    let list = (0..n).map(|i| store.field(s, i)).flat_map(|f| [f.fname, f.ty, f.alias, u64::from(f.final_field)]);
    fill(output, &list.collect::<Vec<u64>>())
}

/// 11: "output shorter than the answer". "Words of an output past its answer keep."
fn fill(output: &mut [u64], answer: &[u64]) -> Result<u64, Refusal> {
    refuse_if(output.len() < answer.len(), 11)?;
    output[..answer.len()].copy_from_slice(answer);
    Ok(answer.len() as u64)
}

/// "`find`, `find_alias`: first match, or absent."
pub fn find(store: &Store, s: Handle, name: Handle) -> Result<Option<usize>, Refusal> {
    take(store, [(s, Kinds::STRUCTS), (name, Kinds::NAMES)])?;
    let n = count(store, s)?;
    Ok((0..n).find(|&i| store.same_name(store.field(s, i).fname, name)))
}

pub fn find_alias(store: &Store, s: Handle, alias: u64) -> Result<Option<usize>, Refusal> {
    take(store, [(s, Kinds::STRUCTS)])?;
    refuse_if(!alias_is_accepted(alias), 4)?;
    let n = count(store, s)?;
    Ok((0..n).find(|&i| store.field(s, i).alias == alias))
}

pub fn is_ary(store: &Store, s: Handle) -> Result<bool, Refusal> {
    take(store, [(s, Kinds::STRUCTS)])?;
    Ok(has_array_fields(store, s, count(store, s)?))
}

/// As the Rust: two fields, of which the second is called "[]".
fn has_array_fields(store: &Store, s: Handle, n: usize) -> bool {
    n == 2 && store.name_is(store.field(s, 1).fname, b"[]")
}

/// "8-byte fields first, then 4, 2, 1, each group in field order; one more number, the end rounded up to 8". 9 where a field has no log
/// size.
fn layout(store: &Store, s: Handle, n: usize) -> Result<Vec<u64>, Refusal> {
    let logs = (0..n).map(|i| log_size(store, store.field(s, i).ty)).collect::<Result<Vec<u64>, Refusal>>()?;
    let mut offsets = vec![0; n + 1];
    let mut end = 0u64;
    for group in [3, 2, 1, 0] {
        for i in (0..n).filter(|&i| logs[i] == group) {
            offsets[i] = end;
            end += 1 << group;
        }
    }
    offsets[n] = end.next_multiple_of(8);
    Ok(offsets)
}

pub fn offset(store: &Store, s: Handle, index: u64) -> Result<u64, Refusal> {
    take(store, [(s, Kinds::STRUCTS)])?;
    let n = count(store, s)?;
    // 8: "offset index above the field count"
    refuse_if(index > n as u64, 8)?;
    Ok(layout(store, s, n)?[index as usize])
}

pub fn offsets(store: &Store, s: Handle, output: &mut [u64]) -> Result<u64, Refusal> {
    take(store, [(s, Kinds::STRUCTS)])?;
    let offsets = layout(store, s, count(store, s)?)?;
    fill(output, &offsets)
}

/// "`ary_base`, `ary_scale` take arrays only (3, also for a forward reference)."
fn take_array(store: &Store, s: Handle) -> Result<(), Refusal> {
    take(store, [(s, Kinds::WITH_FIELDS)])?;
    refuse_if(!has_array_fields(store, s, count(store, s)?), 3)
}

/// Where the body begins.
pub fn ary_base(store: &Store, s: Handle) -> Result<u64, Refusal> {
    take_array(store, s)?;
    offset(store, s, 1)
}

/// The log size of an element.
pub fn ary_scale(store: &Store, s: Handle) -> Result<u64, Refusal> {
    take_array(store, s)?;
    log_size(store, store.field(s, 1).ty)
}
