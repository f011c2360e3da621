//! dual and join, and the walk by parts that dual shares with glb and lub.

use std::collections::HashMap;

use crate::entry::Handle;
use crate::fresh::{BOT, CTRL, STRUCT_BOT, STRUCT_TOP, TOP, XCTRL};
use crate::kind::Kinds;
use crate::meet::{met, Pairs};
use crate::refusals::{take, Made};
use crate::store::Store;
use crate::types::{Field, Type};

/// The answers that this call has made. A type that comes again would find every entry there and end at the same handle.
pub type Known = HashMap<Handle, Handle>;

/// One of dual, glb and lub.
type Walk = fn(&mut Store, &mut Known, Handle) -> Made;

/// The tuple of its elements' answers.
pub fn tuple_by_parts(store: &mut Store, known: &mut Known, a: Handle, n: usize, walk: Walk) -> Made {
    let mut types = Vec::with_capacity(n);
    for i in 0..n {
        types.push(walk(store, known, store.element(a, i))?);
    }
    store.make_tuple(&types)
}

/// The struct of its fields' answers; names and aliases stay, and finals are negated where the walk wants it.
pub fn struct_by_parts(store: &mut Store, known: &mut Known, a: Handle, n: usize, walk: Walk, negate_finals: bool) -> Made {
    let mut fields = Vec::with_capacity(n);
    for i in 0..n {
        let f = store.field(a, i);
        fields.push(Field { ty: walk(store, known, f.ty)?, final_field: f.final_field ^ negate_finals, ..f });
    }
    store.make_struct(store.name(a), &fields)
}

/// The answer that is known, or the one that the rules make.
pub fn known_or(store: &mut Store, known: &mut Known, a: Handle, rules: Walk) -> Made {
    if let Some(&answer) = known.get(&a) {
        return Ok(answer);
    }
    let answer = rules(store, known, a)?;
    known.insert(a, answer);
    Ok(answer)
}

/// The call.
pub fn dual(store: &mut Store, a: Handle) -> Made {
    take(store, [(a, Kinds::TYPES)])?;
    turned(store, &mut Known::new(), a)
}

/// The call. "join: itself for one handle, else dual, dual, meet, dual, each made."
pub fn join(store: &mut Store, a: Handle, b: Handle) -> Made {
    take(store, [(a, Kinds::TYPES), (b, Kinds::TYPES)])?;
    if a == b {
        return Ok(a);
    }
    let known = &mut Known::new();
    let dual_a = turned(store, known, a)?;
    let dual_b = turned(store, known, b)?;
    let meet = met(store, &mut Pairs::new(), dual_a, dual_b)?;
    turned(store, known, meet)
}

fn turned(store: &mut Store, known: &mut Known, a: Handle) -> Made {
    known_or(store, known, a, rules)
}

fn rules(store: &mut Store, known: &mut Known, a: Handle) -> Made {
    match store.ty(a) {
        // "Bot and Top, Ctrl and XCtrl, $BOT and $TOP change places"
        Type::Bot => Ok(TOP),
        Type::Top => Ok(BOT),
        Type::Ctrl => Ok(XCTRL),
        Type::XCtrl => Ok(CTRL),
        Type::Struct { .. } if a == STRUCT_BOT => Ok(STRUCT_TOP),
        Type::Struct { .. } if a == STRUCT_TOP => Ok(STRUCT_BOT),
        // "Int ends change places"
        Type::Int { min, max } => store.make_int(max, min),
        // "float sizes change sign, constants stay"
        Type::Float(f) if f.sz == 0 => Ok(a),
        Type::Float(f) => store.make_float(-f.sz, 0),
        // "parts are dualled, final and nil negated; aliases and forward references stay"
        Type::Tuple { n } => tuple_by_parts(store, known, a, n, turned),
        Type::Struct { n: Some(n) } => struct_by_parts(store, known, a, n, turned, true),
        Type::Struct { n: None } => Ok(a),
        Type::MemPtr { to, nil } => {
            let to = turned(store, known, to)?;
            store.make_ptr(to, !nil)
        }
        Type::Mem { alias, t } => {
            let t = turned(store, known, t)?;
            store.make_mem(alias, t)
        }
    }
}
