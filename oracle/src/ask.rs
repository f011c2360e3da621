//! Where the Rust is asked: each call that passed the rows goes to the original function, and what that answers is the answer.

use crate::script::Call;
use crate::session::Answer;
use crate::store::{kind_of, Held, Store};
use original::sea_of_nodes::types::{Field, Ty, TyFloat, TyInt, TyStruct, Types};
use std::hint::black_box;
use std::time::{Duration, Instant};

/// What the Rust told.
pub enum Told<'t> {
    /// What the call made, in the order of its making; the last is the answer.
    Made(Vec<Held<'t>>),
    /// An answer that makes nothing.
    Said(Answer),
    /// The Rust has no such type, for this reason.
    NotHeld(&'static str),
}

/// Times the Rust's functions, and nothing around them.
#[derive(Default)]
pub struct Clock {
    pub spent: Duration,
}

impl Clock {
    pub fn time<T>(&mut self, work: impl FnOnce() -> T) -> T {
        let start = Instant::now();
        let answer = black_box(work());
        self.spent += start.elapsed();
        answer
    }
}

/// From this many visits on a body's text, in which shared parts are written out again and again, is not asked for.
const LONG_TEXT: u64 = 4096;

/// The Rust's arena takes less than 4,000 bytes at once, and a field has 32.
pub const MOST_FIELDS: usize = 124;

/// A call on the Rust's own types, with nothing left to do but to call its function.
pub enum Ready<'t> {
    /// The Rust has no such call: a look at the type.
    Kind(Ty<'t>),
    Bool(bool),
    Int(i64),
    IntFrom(i64, i64),
    Float(f64),
    FloatOf(i8, f64),
    Tuple(Vec<Ty<'t>>),
    Name(String),
    Struct(&'t str, Vec<Field<'t>>),
    Fref(&'t str),
    Ptr(TyStruct<'t>, bool),
    Mem(u32, Ty<'t>),
    Ary(TyInt<'t>, u32, Ty<'t>, u32),
    Meet(Ty<'t>, Ty<'t>),
    /// The Rust has no such call: its meets one after the other, from Top.
    MeetList(Vec<Ty<'t>>),
    Isa(Ty<'t>, Ty<'t>),
    Join(Ty<'t>, Ty<'t>),
    Dual(Ty<'t>),
    Glb(Ty<'t>),
    Lub(Ty<'t>),
    IsFinal(Ty<'t>),
    MakeRo(Ty<'t>),
    // The other calls: what they are about, and the function.
    OfType(Ty<'t>, fn(Ty<'t>, &Types<'t>) -> Answered<'t>),
    OfInt(TyInt<'t>, fn(TyInt<'t>, &Types<'t>) -> Answered<'t>),
    OfFloat(TyFloat<'t>, fn(TyFloat<'t>) -> Answered<'t>),
    OfStruct(TyStruct<'t>, fn(TyStruct<'t>, &Types<'t>) -> Answered<'t>),
    Find(TyStruct<'t>, &'t str),
    FindAlias(TyStruct<'t>, u32),
    Offset(TyStruct<'t>, usize),
}

/// What one of the Rust's functions hands back.
pub enum Answered<'t> {
    Type(Ty<'t>),
    Name(&'t str),
    Flag(bool),
    Kind(u8),
    LogSize(usize),
    Signed(i64),
    Value(Option<i64>),
    FloatSize(i8),
    FloatValue(Option<f64>),
    /// A float's size, and its value if it is a constant.
    Reading(i8, Option<f64>),
    Fields(&'t [Field<'t>]),
    Found(Option<usize>),
    /// An offset, or a scale.
    Offset(i64),
    Offsets(Vec<i64>),
}

impl<'t> Ready<'t> {
    /// The original function.
    pub fn run(&self, types: &Types<'t>) -> Answered<'t> {
        Answered::Type(match self {
            Ready::Kind(a) => return Answered::Kind(kind_of(*a)),
            Ready::Bool(flag) => *types.get_bool(*flag),
            Ready::Int(value) => *types.get_int(*value),
            Ready::IntFrom(min, max) => *types.make_int(*min, *max),
            Ready::Float(value) => *types.get_float(*value),
            Ready::FloatOf(size, value) => *types.make_float(*size, *value),
            Ready::Tuple(parts) => *types.get_tuple_from_slice(parts),
            Ready::Name(text) => return Answered::Name(types.get_str(text)),
            Ready::Struct(name, fields) => *types.get_struct(name, fields),
            Ready::Fref(name) => *types.make_struct_fref(name),
            Ready::Ptr(to, nil) => *types.get_mem_ptr(*to, *nil),
            Ready::Mem(alias, t) => *types.get_mem(*alias, *t),
            Ready::Ary(length, length_alias, body, body_alias) => *types.make_ary(*length, *length_alias, *body, *body_alias),
            Ready::Meet(a, b) => a.meet(*b, types),
            Ready::MeetList(list) => list.iter().fold(types.top, |merged, t| merged.meet(*t, types)),
            Ready::Isa(a, b) => return Answered::Flag(a.isa(*b, types)),
            Ready::Join(a, b) => a.join(*b, types),
            Ready::Dual(a) => a.dual(types),
            Ready::Glb(a) => a.glb(types),
            Ready::Lub(a) => a.lub(types),
            Ready::IsFinal(a) => return Answered::Flag(a.is_final()),
            Ready::MakeRo(a) => a.make_ro(types),
            Ready::OfType(a, function) => return function(*a, types),
            Ready::OfInt(a, function) => return function(*a, types),
            Ready::OfFloat(a, function) => return function(*a),
            Ready::OfStruct(s, function) => return function(*s, types),
            Ready::Find(s, name) => return Answered::Found(s.find(name)),
            Ready::FindAlias(s, alias) => return Answered::Found(s.find_alias(*alias)),
            Ready::Offset(s, index) => return Answered::Offset(s.offset(*index, types)),
        })
    }
}

/// Makes a call ready for the Rust, or says why it cannot. The rows were tested: all handles stand for what the call takes. The name of an
/// array that the Rust would name otherwise is made here.
pub fn ready<'t>(store: &Store<'_, 't>, call: &Call) -> Result<Ready<'t>, &'static str> {
    let ty = |handle: u64| store.entry(handle).unwrap().ty().unwrap();
    let name = |handle: u64| store.entry(handle).unwrap().name().unwrap();
    Ok(match (call.name, &call.numbers[..]) {
        ("kind", [a]) => Ready::Kind(ty(*a)),

        // The makers of `Types`.
        ("get_bool", [flag]) => Ready::Bool(*flag == 1),
        ("int", [value]) => Ready::Int(*value as i64),
        ("int", [min, max]) => Ready::IntFrom(*min as i64, *max as i64),
        ("float", [bits]) => Ready::Float(f64::from_bits(*bits)),
        ("float", [size, bits]) => Ready::FloatOf(*size as i8, f64::from_bits(*bits)),
        ("tuple", handles) => Ready::Tuple(handles.iter().map(|h| ty(*h)).collect()),
        ("str", []) => Ready::Name(text_of(call)?.to_string()),
        ("struct", [_, list @ ..]) if list.len() / 4 > MOST_FIELDS => return Err("a struct of more than 124 fields"),
        ("struct", [struct_name, list @ ..]) => {
            Ready::Struct(name(*struct_name), list.chunks(4).map(|f| field(name(f[0]), ty(f[1]), f[2], f[3] == 1)).collect())
        }
        ("fref", [struct_name]) => Ready::Fref(name(*struct_name)),
        ("ptr", [to, nil]) => Ready::Ptr(ty(*to).as_struct(), *nil == 1),
        ("mem", [alias, t]) => Ready::Mem(*alias as u32, ty(*t)),
        ("ary", numbers @ [_, _, _, _]) => ready_ary(store, numbers, text_of(call)?),

        // The lattice.
        ("meet", [a, b]) => Ready::Meet(ty(*a), ty(*b)),
        ("meet_list", handles) => Ready::MeetList(handles.iter().map(|h| ty(*h)).collect()),
        ("isa", [a, b]) => Ready::Isa(ty(*a), ty(*b)),
        ("join", [a, b]) => Ready::Join(ty(*a), ty(*b)),
        ("dual", [a]) => Ready::Dual(ty(*a)),
        ("glb", [a]) => Ready::Glb(ty(*a)),
        ("lub", [a]) => Ready::Lub(ty(*a)),
        ("is_final", [a]) => Ready::IsFinal(ty(*a)),
        ("make_ro", [a]) => Ready::MakeRo(ty(*a)),

        // The other calls.
        ("make_init", [a]) => Ready::OfType(ty(*a), |a, types| Answered::Type(a.make_init(types))),
        ("make_zero", [a]) => Ready::OfType(ty(*a), |a, types| Answered::Type(a.make_zero(types))),
        ("non_zero", [a]) => Ready::OfType(ty(*a), |a, types| Answered::Type(a.non_zero(types))),
        ("is_high", [a]) => Ready::OfType(ty(*a), |a, types| Answered::Flag(a.is_high(types))),
        ("is_high_or_constant", [a]) => Ready::OfType(ty(*a), |a, types| Answered::Flag(a.is_high_or_constant(types))),
        ("is_constant", [a]) => Ready::OfType(ty(*a), |a, types| Answered::Flag(a.is_constant(types))),
        ("is_fref", [a]) => Ready::OfType(ty(*a), |a, _| Answered::Flag(a.is_fref())),
        ("log_size", [a]) => Ready::OfType(ty(*a), |a, types| Answered::LogSize(a.log_size(types))),

        ("min", [a]) => Ready::OfInt(ty(*a).as_int(), |a, _| Answered::Signed(a.min())),
        ("max", [a]) => Ready::OfInt(ty(*a).as_int(), |a, _| Answered::Signed(a.max())),
        ("value", [a]) => Ready::OfInt(ty(*a).as_int(), |a, _| Answered::Value(a.value())),
        ("mask", [a]) => Ready::OfInt(ty(*a).as_int(), |a, types| Answered::Signed(a.mask(types))),

        ("sz", [a]) => Ready::OfFloat(ty(*a).as_float(), |a| Answered::FloatSize(a.sz())),
        ("is_f32", [a]) => Ready::OfFloat(ty(*a).as_float(), |a| Answered::Flag(a.is_f32())),
        ("float_value", [a]) => Ready::OfFloat(ty(*a).as_float(), |a| Answered::FloatValue(a.value())),
        // The Rust has no such call: its two looks at a float as one.
        ("reading", [a]) => Ready::OfFloat(ty(*a).as_float(), |a| Answered::Reading(a.sz(), a.value())),

        ("name", [s]) => Ready::OfStruct(ty(*s).as_struct(), |s, _| Answered::Name(s.name())),
        ("fields", [s, _]) => Ready::OfStruct(ty(*s).as_struct(), |s, _| Answered::Fields(s.fields())),
        ("find", [s, field_name]) => Ready::Find(ty(*s).as_struct(), name(*field_name)),
        ("find_alias", [s, alias]) => Ready::FindAlias(ty(*s).as_struct(), *alias as u32),
        ("is_ary", [s]) => Ready::OfStruct(ty(*s).as_struct(), |s, _| Answered::Flag(s.is_ary())),
        ("offset", [s, index]) => Ready::Offset(ty(*s).as_struct(), *index as usize),
        // The Rust's `offsets` is private: its `offset` of each index.
        ("offsets", [s, _]) => Ready::OfStruct(ty(*s).as_struct(), |s, types| {
            Answered::Offsets((0..=s.fields().len()).map(|index| s.offset(index, types)).collect())
        }),
        ("ary_base", [s]) => Ready::OfStruct(ty(*s).as_struct(), |s, types| Answered::Offset(s.ary_base(types))),
        ("ary_scale", [s]) => Ready::OfStruct(ty(*s).as_struct(), |s, types| Answered::Offset(s.ary_scale(types))),
        _ => unreachable!("script.rs knows the call {}, and ask.rs does not", call.name),
    })
}

fn text_of(call: &Call) -> Result<&str, &'static str> {
    std::str::from_utf8(&call.text).map_err(|_| "a name that is no UTF-8")
}

fn field<'t>(fname: &'t str, ty: Ty<'t>, alias: u64, final_field: bool) -> Field<'t> {
    Field { fname, ty, alias: alias as u32, final_field }
}

/// The Rust names an array after its body's text. Where the lent text is that one its own `make_ary` is asked; else the same struct comes
/// from `get_str` and `get_struct`.
fn ready_ary<'t>(store: &Store<'_, 't>, numbers: &[u64], text: &str) -> Ready<'t> {
    let length = store.entry(numbers[0]).unwrap().ty().unwrap().as_int();
    let body_entry = store.entry(numbers[2]).unwrap();
    let body = body_entry.ty().unwrap();
    if body_entry.visits < LONG_TEXT && body.str() == text {
        return Ready::Ary(length, numbers[1] as u32, body, numbers[3] as u32);
    }
    let fields = vec![field("#", *length, numbers[1], true), field("[]", body, numbers[3], false)];
    Ready::Struct(array_name(store, text), fields)
}

fn array_name<'t>(store: &Store<'_, 't>, text: &str) -> &'t str {
    store.types.get_str(&format!("[{text}]"))
}

/// Asks the Rust. The rows were tested.
pub fn ask<'t>(store: &Store<'_, 't>, call: &Call, clock: &mut Clock) -> Told<'t> {
    let ready = match ready(store, call) {
        Ok(ready) => ready,
        Err(reason) => return Told::NotHeld(reason),
    };
    // a look at a type is not the Rust's work
    if let Ready::Kind(a) = ready {
        return Told::Said(Answer::Number(u64::from(kind_of(a))));
    }
    let answered = clock.time(|| ready.run(store.types));
    match (answered, ready) {
        (Answered::Name(name), _) => Told::Made(vec![Held::Name(name)]),
        (Answered::Type(answer), Ready::Join(a, b)) => Told::Made(joined(store, a, b, answer)),
        (Answered::Type(_), Ready::MeetList(list)) => Told::Made(merged(store, &list)),
        (Answered::Type(answer), _) if call.name == "ary" => {
            let name = array_name(store, std::str::from_utf8(&call.text).unwrap());
            Told::Made(vec![Held::Name(name), Held::Name("#"), Held::Name("[]"), Held::Type(answer)])
        }
        // A type, with all that was made on the way: a call makes nothing that is not part of its answer, each part before the whole and
        // left to right, which is the order in which the store registers the parts of a type.
        (Answered::Type(answer), _) => Told::Made(vec![Held::Type(answer)]),
        (said, _) => Told::Said(spelt(store, call, said)),
    }
}

/// An answer that is no type and no name, in document 01's numbers.
fn spelt<'t>(store: &Store<'_, 't>, call: &Call, answered: Answered<'t>) -> Answer {
    let filled = |words: Vec<u64>| Answer::Filled(words, call.numbers[1] as usize);
    match answered {
        Answered::Type(_) | Answered::Name(_) => unreachable!("types and names have handles"),
        Answered::Flag(yes) => Answer::Flag(yes),
        Answered::Kind(kind) => Answer::Number(u64::from(kind)),
        Answered::LogSize(size) => Answer::Number(size as u64),
        Answered::Signed(n) => Answer::Signed(n),
        Answered::Value(value) => value.map_or(Answer::Absent, Answer::Signed),
        Answered::FloatSize(size) => Answer::Signed(i64::from(size)),
        Answered::FloatValue(value) => value.map_or(Answer::Absent, |value| Answer::Number(value.to_bits())),
        Answered::Reading(size, value) => value.map_or(Answer::Size(size), |value| Answer::Constant(value.to_bits())),
        Answered::Fields(fields) => filled(fields.iter().flat_map(|field| field_words(store, field)).collect()),
        Answered::Found(index) => index.map_or(Answer::Absent, |index| Answer::Number(index as u64)),
        Answered::Offset(offset) => Answer::Number(offset as u64),
        Answered::Offsets(offsets) => filled(offsets.into_iter().map(|offset| offset as u64).collect()),
    }
}

/// A field as it is lent: name, type, alias, final.
fn field_words<'t>(store: &Store<'_, 't>, field: &Field<'t>) -> [u64; 4] {
    let (name, ty) = (Held::Name(field.fname), Held::Type(field.ty));
    [store.handle_of(name), store.handle_of(ty), u64::from(field.alias), u64::from(field.final_field)]
}

/// A join makes two duals, their meet and its dual, of which the first three need not be parts of the answer. They are asked for one by
/// one, so that each gets its handle in turn.
fn joined<'t>(store: &Store<'_, 't>, a: Ty<'t>, b: Ty<'t>, answer: Ty<'t>) -> Vec<Held<'t>> {
    let types = store.types;
    if a == b {
        return vec![Held::Type(answer)];
    }
    let (dual_a, dual_b) = (a.dual(types), b.dual(types));
    [dual_a, dual_b, dual_a.meet(dual_b, types), answer].map(Held::Type).to_vec()
}

/// A list's merges make types on the way that need not be parts of the answer: all of them, from Top on, each of which gets its handle in
/// turn.
fn merged<'t>(store: &Store<'_, 't>, list: &[Ty<'t>]) -> Vec<Held<'t>> {
    let types = store.types;
    let meets = list.iter().scan(types.top, |merged, t| {
        *merged = merged.meet(*t, types);
        Some(*merged)
    });
    std::iter::once(types.top).chain(meets).map(Held::Type).collect()
}
