//! meet and isa, and the merge of a whole list. "The first rule that fits decides; $BOT and $TOP are handles 20 and 18."

use std::collections::HashMap;

use crate::entry::Handle;
use crate::float;
use crate::fresh::{BOT, LARGEST_ALIAS, MEM_BOT, MEM_TOP, STRUCT_BOT, STRUCT_TOP, TOP};
use crate::kind::Kinds;
use crate::refusals::{refuse_if, take, Made, Refusal};
use crate::store::Store;
use crate::types::{Field, Type};

/// The meets that this call has made. A pair that comes again would find every entry there and end at the same handle.
pub type Pairs = HashMap<(Handle, Handle), Handle>;

/// The call.
pub fn meet(store: &mut Store, a: Handle, b: Handle) -> Made {
    take(store, [(a, Kinds::TYPES), (b, Kinds::TYPES)])?;
    met(store, &mut Pairs::new(), a, b)
}

/// The call. "isa is yes if meet would hand back the second handle; it writes nothing and never gives 12." Where meet had to append an
/// entry, its answer is that entry or one around it, and so none that is there.
pub fn isa(store: &mut Store, a: Handle, b: Handle) -> Result<bool, Refusal> {
    take(store, [(a, Kinds::TYPES), (b, Kinds::TYPES)])?;
    store.append_nothing();
    Ok(met(store, &mut Pairs::new(), a, b) == Ok(b))
}

/// Document 02, Slip 1: "a lent list of up to 4,096 handles".
const LONGEST_LIST: usize = 4096;

/// The call of Slip 1: "merge it left to right, starting at Top". "An empty list gives Top."
pub fn meet_list(store: &mut Store, types: &[Handle]) -> Made {
    // "13, list over 4,096, tested after 1 and before 2"
    refuse_if(types.len() > LONGEST_LIST, 13)?;
    // "All its handles are tested first, on the store as it comes."
    take(store, types.iter().map(|&t| (t, Kinds::TYPES)))?;
    let pairs = &mut Pairs::new();
    types.iter().try_fold(TOP, |merged, &t| met(store, pairs, merged, t))
}

/// A type's meet.
pub fn met(store: &mut Store, pairs: &mut Pairs, a: Handle, b: Handle) -> Made {
    // "Same handle: itself."
    if a == b {
        return Ok(a);
    }
    if let Some(&known) = pairs.get(&(a, b)) {
        return Ok(known);
    }
    let answer = match (store.ty(a), store.ty(b)) {
        // "Bot wins, Top loses"; "two Bots, two Tops [..] give the first handle"
        (Type::Bot, _) | (_, Type::Top) => a,
        (Type::Top, _) | (_, Type::Bot) => b,
        // "Ctrl with XCtrl is Ctrl": the operand that is
        (Type::Ctrl, Type::XCtrl) => a,
        (Type::XCtrl, Type::Ctrl) => b,
        // "Ints: smaller min, larger max."
        (Type::Int { min, max }, Type::Int { min: min_b, max: max_b }) => store.make_int(min.min(min_b), max.max(max_b))?,
        (Type::Float(f), Type::Float(g)) => float::meet((a, f), (b, g)),
        // "Tuples: by element; other length, Bot."
        (Type::Tuple { n }, Type::Tuple { n: n_b }) if n == n_b => tuples(store, pairs, (a, b), n)?,
        (Type::Tuple { .. }, Type::Tuple { .. }) => BOT,
        (Type::Struct { n }, Type::Struct { n: n_b }) => structs(store, pairs, (a, n), (b, n_b))?,
        // "Pointers: structs meet, nils or-ed."
        (Type::MemPtr { to, nil }, Type::MemPtr { to: to_b, nil: nil_b }) => {
            let to = met(store, pairs, to, to_b)?;
            store.make_ptr(to, nil | nil_b)?
        }
        (Type::Mem { alias, t }, Type::Mem { alias: alias_b, t: t_b }) => mems(store, pairs, (a, alias, t), (b, alias_b, t_b))?,
        // "Other pairs: Bot."
        _ => BOT,
    };
    pairs.insert((a, b), answer);
    Ok(answer)
}

fn tuples(store: &mut Store, pairs: &mut Pairs, (a, b): (Handle, Handle), n: usize) -> Made {
    let mut types = Vec::with_capacity(n);
    for i in 0..n {
        types.push(met(store, pairs, store.element(a, i), store.element(b, i))?);
    }
    store.make_tuple(&types)
}

/// A struct's meet, of two handles that differ. Each comes with its number of fields, None for a forward reference.
fn structs(store: &mut Store, pairs: &mut Pairs, (s, n): (Handle, Option<usize>), (t, n_t): (Handle, Option<usize>)) -> Made {
    // "$BOT wins, $TOP yields"
    if s == STRUCT_BOT || t == STRUCT_TOP {
        return Ok(s);
    }
    if t == STRUCT_BOT || s == STRUCT_TOP {
        return Ok(t);
    }
    // "other name, $BOT"
    if !store.same_name(store.name(s), store.name(t)) {
        return Ok(STRUCT_BOT);
    }
    match (n, n_t) {
        // "a forward reference yields to its namesake"; "two forward references the second"
        (None, _) => Ok(t),
        (_, None) => Ok(s),
        // "field count, names and aliases must match (tested before any field is met), else $BOT"
        (Some(n), Some(n_t)) if n == n_t && fields_match(store, s, t, n) => fields(store, pairs, (s, t), n),
        _ => Ok(STRUCT_BOT),
    }
}

fn fields_match(store: &Store, s: Handle, t: Handle, n: usize) -> bool {
    (0..n).all(|i| {
        let (f, g) = (store.field(s, i), store.field(t, i));
        store.same_name(f.fname, g.fname) && f.alias == g.alias
    })
}

/// "types meet, finals are or-ed"; "a met struct keeps the first operand's name handles".
fn fields(store: &mut Store, pairs: &mut Pairs, (s, t): (Handle, Handle), n: usize) -> Made {
    let mut fields = Vec::with_capacity(n);
    for i in 0..n {
        let (f, g) = (store.field(s, i), store.field(t, i));
        let ty = met(store, pairs, f.ty, g.ty)?;
        fields.push(Field { ty, final_field: f.final_field | g.final_field, ..f });
    }
    store.make_struct(store.name(s), &fields)
}

/// "Mem: 79 wins, 76 yields; else the shared alias or 4,294,967,295, and types meet."
fn mems(store: &mut Store, pairs: &mut Pairs, (a, alias, t): (Handle, u64, Handle), (b, alias_b, t_b): (Handle, u64, Handle)) -> Made {
    if a == MEM_BOT || b == MEM_TOP {
        return Ok(a);
    }
    if b == MEM_BOT || a == MEM_TOP {
        return Ok(b);
    }
    let alias = if alias == alias_b { alias } else { LARGEST_ALIAS };
    let t = met(store, pairs, t, t_b)?;
    store.make_mem(alias, t)
}
