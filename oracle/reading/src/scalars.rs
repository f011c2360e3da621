//! "The other calls" on types: beginnings, zeros, sides of the lattice, sizes.

use crate::entry::{self, Handle};
use crate::fresh::{
    FLOAT_ZERO, INT_BOOL, INT_BOT, INT_I16, INT_I32, INT_I8, INT_U16, INT_U32, INT_U8, INT_ZERO, PTR_NULL, PTR_TOP, PTR_VOID, TOP,
};
use crate::glb_lub::glb;
use crate::kind::Kinds;
use crate::refusals::{take, Made, Refusal};
use crate::store::Store;
use crate::types::Type;

/// Any type that a call is about: rows 2 and 3.
fn asked(store: &Store, a: Handle) -> Result<Type, Refusal> {
    take(store, [(a, Kinds::TYPES)])?;
    Ok(store.ty(a))
}

/// The number of a type's kind.
pub fn kind(store: &Store, a: Handle) -> Result<u64, Refusal> {
    take(store, [(a, Kinds::TYPES)])?;
    Ok(u64::from(entry::kind(store.entry(a)[0])))
}

/// As the Rust: what a variable of this type begins with; other types are themselves.
pub fn make_init(store: &Store, a: Handle) -> Made {
    Ok(match asked(store, a)? {
        Type::Int { .. } => INT_ZERO,
        Type::Float(_) => FLOAT_ZERO,
        Type::MemPtr { nil: true, .. } => PTR_NULL,
        Type::MemPtr { nil: false, .. } => TOP,
        _ => a,
    })
}

/// "`make_zero` (Int, Float, pointer; else 3)".
pub fn make_zero(store: &Store, a: Handle) -> Made {
    take(store, [(a, Kinds::WITH_ZERO)])?;
    Ok(match store.ty(a) {
        Type::Int { .. } => INT_ZERO,
        Type::Float(_) => FLOAT_ZERO,
        _ => PTR_NULL,
    })
}

/// As the Rust: an end that is 0 moves away from it, pointers are 91, and other types are their glb. "`non_zero` of 0..0 is 1..1".
pub fn non_zero(store: &mut Store, a: Handle) -> Made {
    match asked(store, a)? {
        Type::Int { min, max } if min > max => Ok(a),
        Type::Int { min: 0, max } => store.make_int(1, max.max(1)),
        Type::Int { min, max: 0 } => store.make_int(min, -1),
        Type::Int { .. } => Ok(a),
        Type::MemPtr { .. } => Ok(PTR_VOID),
        _ => glb(store, a),
    }
}

/// As the Rust: read off the kind, Int ends or float size; of pointers the one at handle 85 alone.
pub fn is_high(store: &Store, a: Handle) -> Result<bool, Refusal> {
    Ok(match asked(store, a)? {
        Type::Top | Type::XCtrl => true,
        Type::Int { min, max } => min > max,
        Type::Float(f) => f.sz < 0,
        Type::MemPtr { .. } => a == PTR_TOP,
        _ => false,
    })
}

/// As the Rust: read off Int ends or float size; of pointers the one at handle 88 alone.
pub fn is_constant(store: &Store, a: Handle) -> Result<bool, Refusal> {
    Ok(match asked(store, a)? {
        Type::Int { min, max } => min == max,
        Type::Float(f) => f.sz == 0,
        Type::MemPtr { .. } => a == PTR_NULL,
        _ => false,
    })
}

/// As the Rust, whose tests are those of the two above together.
pub fn is_high_or_constant(store: &Store, a: Handle) -> Result<bool, Refusal> {
    Ok(is_high(store, a)? || is_constant(store, a)?)
}

/// As the Rust: a forward reference, or a pointer to one.
pub fn is_fref(store: &Store, a: Handle) -> Result<bool, Refusal> {
    Ok(match asked(store, a)? {
        Type::Struct { n } => n.is_none(),
        Type::MemPtr { to, .. } => matches!(store.ty(to), Type::Struct { n: None }),
        _ => false,
    })
}

/// The call: 9 where there is "no log size".
pub fn log_size(store: &Store, a: Handle) -> Result<u64, Refusal> {
    match (asked(store, a)?, a) {
        // "0 for i8, u8, bool, any high or constant Int; 1 for i16, u16; 2 for i32, u32; 3 for bot"
        (_, INT_I8 | INT_U8 | INT_BOOL) => Ok(0),
        (_, INT_I16 | INT_U16) => Ok(1),
        (_, INT_I32 | INT_U32) => Ok(2),
        (_, INT_BOT) => Ok(3),
        (Type::Int { min, max }, _) if min >= max => Ok(0),
        // "floats 2 for size ±32 or a single constant, else 3"
        (Type::Float(f), _) if f.sz.abs() == 32 || f.sz == 0 && f.is_f32() => Ok(2),
        (Type::Float(_), _) => Ok(3),
        // "pointers 2; all others 9"
        (Type::MemPtr { .. }, _) => Ok(2),
        _ => Err(9),
    }
}
