//! glb and lub: fixed types on either side, part by part.

use crate::dual::{known_or, struct_by_parts, tuple_by_parts, Known};
use crate::entry::Handle;
use crate::fresh::{BOT, CTRL, FLOAT_BOT, FLOAT_TOP, INT_BOT, INT_TOP, TOP, XCTRL};
use crate::kind::Kinds;
use crate::refusals::{take, Made};
use crate::store::Store;
use crate::types::Type;

/// The call.
pub fn glb(store: &mut Store, a: Handle) -> Made {
    take(store, [(a, Kinds::TYPES)])?;
    lower(store, &mut Known::new(), a)
}

/// The call.
pub fn lub(store: &mut Store, a: Handle) -> Made {
    take(store, [(a, Kinds::TYPES)])?;
    upper(store, &mut Known::new(), a)
}

fn lower(store: &mut Store, known: &mut Known, a: Handle) -> Made {
    known_or(store, known, a, glb_rules)
}

fn upper(store: &mut Store, known: &mut Known, a: Handle) -> Made {
    known_or(store, known, a, lub_rules)
}

/// "parts likewise, finals and aliases stay, pointers get nil", and a forward reference has no parts.
fn glb_rules(store: &mut Store, known: &mut Known, a: Handle) -> Made {
    match store.ty(a) {
        // "Bot, Top, XCtrl to Bot; Ctrl stays; Int 25, Float 61": the Ctrl of the fresh store
        Type::Bot | Type::Top | Type::XCtrl => Ok(BOT),
        Type::Ctrl => Ok(CTRL),
        Type::Int { .. } => Ok(INT_BOT),
        Type::Float(_) => Ok(FLOAT_BOT),
        Type::Tuple { n } => tuple_by_parts(store, known, a, n, lower),
        Type::Struct { n: Some(n) } => struct_by_parts(store, known, a, n, lower, false),
        Type::Struct { n: None } => Ok(a),
        Type::MemPtr { to, .. } => {
            let to = lower(store, known, to)?;
            store.make_ptr(to, true)
        }
        Type::Mem { alias, t } => {
            let t = lower(store, known, t)?;
            store.make_mem(alias, t)
        }
    }
}

/// "parts likewise, finals and aliases stay, pointers lose nil", and a forward reference has no parts.
fn lub_rules(store: &mut Store, known: &mut Known, a: Handle) -> Made {
    match store.ty(a) {
        // "Bot, Top, XCtrl and tuples to Top; Ctrl to XCtrl; Int 22, Float 49"
        Type::Bot | Type::Top | Type::XCtrl | Type::Tuple { .. } => Ok(TOP),
        Type::Ctrl => Ok(XCTRL),
        Type::Int { .. } => Ok(INT_TOP),
        Type::Float(_) => Ok(FLOAT_TOP),
        Type::Struct { n: Some(n) } => struct_by_parts(store, known, a, n, upper, false),
        Type::Struct { n: None } => Ok(a),
        Type::MemPtr { to, .. } => {
            let to = upper(store, known, to)?;
            store.make_ptr(to, false)
        }
        Type::Mem { alias, t } => {
            let t = upper(store, known, t)?;
            store.make_mem(alias, t)
        }
    }
}
