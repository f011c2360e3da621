//! "Makers as in `Types`."

use crate::entry::{depth_around, Handle, DEEPEST, MOST};
use crate::fresh;
use crate::kind::Kinds;
use crate::refusals::{alias_is_accepted, flag_is_accepted, float_is_accepted, refuse_if, take, Made, Refusal};
use crate::store::Store;
use crate::types::{Field, Type};

/// Row 6: "depth over 32", of a type around these.
fn refuse_if_deep(store: &Store, types: impl IntoIterator<Item = Handle>) -> Result<(), Refusal> {
    refuse_if(depth_around(store.words(), types) > DEEPEST, 6)
}

pub fn get_bool(value: u64) -> Made {
    refuse_if(!flag_is_accepted(value), 4)?;
    Ok(if value == 1 { fresh::INT_TRUE } else { fresh::INT_ZERO })
}

pub fn make_float(store: &mut Store, sz: u64, bits: u64) -> Made {
    refuse_if(!float_is_accepted(sz, bits), 4)?;
    store.make_float(sz as i64, bits)
}

pub fn get_tuple(store: &mut Store, types: &[Handle]) -> Made {
    take(store, types.iter().map(|&t| (t, Kinds::TYPES)))?;
    refuse_if(types.len() > MOST, 5)?;
    refuse_if_deep(store, types.iter().copied())?;
    store.make_tuple(types)
}

pub fn get_str(store: &mut Store, bytes: &[u8]) -> Made {
    refuse_if(bytes.len() > MOST, 5)?;
    store.make_name(bytes)
}

/// "A field is lent as name, type, alias, final; an unfinished last one is not read."
pub fn get_struct(store: &mut Store, name: Handle, list: &[u64]) -> Made {
    let fields = list.chunks_exact(4);
    let handles = fields.clone().flat_map(|f| [(f[0], Kinds::NAMES), (f[1], Kinds::TYPES)]);
    take(store, std::iter::once((name, Kinds::NAMES)).chain(handles))?;
    // 4: "field list length no multiple of 4", and the fields' own values
    refuse_if(!fields.remainder().is_empty(), 4)?;
    refuse_if(fields.clone().any(|f| !alias_is_accepted(f[2]) || !flag_is_accepted(f[3])), 4)?;
    refuse_if(fields.len() > MOST, 5)?;
    refuse_if_deep(store, fields.clone().map(|f| f[1]))?;
    let fields: Vec<Field> = fields.map(|f| Field { fname: f[0], ty: f[1], alias: f[2], final_field: f[3] == 1 }).collect();
    store.make_struct(name, &fields)
}

pub fn make_struct_fref(store: &mut Store, name: Handle) -> Made {
    take(store, [(name, Kinds::NAMES)])?;
    store.make_fref(name)
}

/// "The pointer maker takes 8 and 9".
pub fn get_mem_ptr(store: &mut Store, to: Handle, nil: u64) -> Made {
    take(store, [(to, Kinds::STRUCTS)])?;
    refuse_if(!flag_is_accepted(nil), 4)?;
    refuse_if_deep(store, [to])?;
    store.make_ptr(to, nil == 1)
}

pub fn get_mem(store: &mut Store, alias: u64, t: Handle) -> Made {
    take(store, [(t, Kinds::TYPES)])?;
    refuse_if(!alias_is_accepted(alias), 4)?;
    refuse_if_deep(store, [t])?;
    store.make_mem(alias, t)
}

/// "`make_ary` wraps the lent text in brackets (255 bytes in all); fields "#" (final) and "[]" (not final)"; "an array's length is an Int".
pub fn make_ary(store: &mut Store, (len, len_alias): (Handle, u64), (body, body_alias): (Handle, u64), text: &[u8]) -> Made {
    take(store, [(len, Kinds::INTS), (body, Kinds::TYPES)])?;
    refuse_if(!alias_is_accepted(len_alias) || !alias_is_accepted(body_alias), 4)?;
    refuse_if(text.len() + 2 > MOST, 5)?;
    refuse_if_deep(store, [len, body])?;
    // 10: "array body a pointer without nil"
    refuse_if(matches!(store.ty(body), Type::MemPtr { nil: false, .. }), 10)?;
    // "Parts are made first, left to right."
    let name = store.make_name(&[b"[", text, b"]"].concat())?;
    let len_name = store.make_name(b"#")?;
    let body_name = store.make_name(b"[]")?;
    let len = Field { fname: len_name, ty: len, alias: len_alias, final_field: true };
    let body = Field { fname: body_name, ty: body, alias: body_alias, final_field: false };
    store.make_struct(name, &[len, body])
}
