//! is_final and make_ro.

use std::collections::HashMap;

use crate::dual::Known;
use crate::entry::Handle;
use crate::kind::Kinds;
use crate::refusals::{take, Made, Refusal};
use crate::store::Store;
use crate::types::{Field, Type};

/// The types that this call has asked, with their answers.
type Asked = HashMap<Handle, bool>;

/// The call.
pub fn is_final(store: &Store, a: Handle) -> Result<bool, Refusal> {
    take(store, [(a, Kinds::TYPES)])?;
    Ok(all_final(store, &mut Asked::new(), a))
}

/// The call.
pub fn make_ro(store: &mut Store, a: Handle) -> Made {
    take(store, [(a, Kinds::TYPES)])?;
    read_only(store, &mut Known::new(), &mut Asked::new(), a)
}

/// "is_final follows pointers and fields down to the last struct; forward references and other types are final."
fn all_final(store: &Store, asked: &mut Asked, a: Handle) -> bool {
    if let Some(&answer) = asked.get(&a) {
        return answer;
    }
    let answer = match store.ty(a) {
        Type::MemPtr { to, .. } => all_final(store, asked, to),
        Type::Struct { n: Some(n) } => (0..n).map(|i| store.field(a, i)).all(|f| f.final_field && all_final(store, asked, f.ty)),
        _ => true,
    };
    asked.insert(a, answer);
    answer
}

/// "make_ro: as the Rust": a pointer whose struct stays is itself, and so is a struct that is final.
fn read_only(store: &mut Store, known: &mut Known, asked: &mut Asked, a: Handle) -> Made {
    if let Some(&answer) = known.get(&a) {
        return Ok(answer);
    }
    let answer = match store.ty(a) {
        Type::MemPtr { to, nil } => match read_only(store, known, asked, to)? {
            same if same == to => a,
            other => store.make_ptr(other, nil)?,
        },
        Type::Struct { n: Some(n) } if !all_final(store, asked, a) => read_only_struct(store, known, asked, a, n)?,
        _ => a,
    };
    known.insert(a, answer);
    Ok(answer)
}

/// All fields final; "`make_ro` keeps a final field's inner type".
fn read_only_struct(store: &mut Store, known: &mut Known, asked: &mut Asked, a: Handle, n: usize) -> Made {
    let mut fields = Vec::with_capacity(n);
    for i in 0..n {
        let f = store.field(a, i);
        let ty = if f.final_field { f.ty } else { read_only(store, known, asked, f.ty)? };
        fields.push(Field { ty, final_field: true, ..f });
    }
    store.make_struct(store.name(a), &fields)
}
