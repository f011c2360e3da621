//! Refusals 2 to 11, and document 02's 13 before them. The Rust panics or has no limit there, so they are decided here, from document 01's
//! table and before the Rust is asked. The first that applies to the call as a whole is given: each row is tested over all arguments before
//! the next one. (Row 1 is session.rs's, row 12 `Store::append`'s.)

use crate::script::Call;
use crate::store::{Entry, Store};
use original::sea_of_nodes::types::{Ty, Type, Types};

const LARGEST_ALIAS: u64 = 4_294_967_295;
const MOST_PARTS: usize = 255;
const DEEPEST: u64 = 32;

/// How many handles a list to be merged has at most: document 02, Slip 1.
pub const LONGEST_LIST: usize = 4096;

/// A handle that a call was given, and the kinds that the call takes there.
struct Wanted {
    handle: u64,
    kinds: &'static [u8],
}

fn name(handle: u64) -> Wanted {
    Wanted { handle, kinds: &[0] }
}

fn a_type(handle: u64) -> Wanted {
    Wanted { handle, kinds: &[1, 2, 3, 4, 5, 6, 7, 8, 9, 10, 11] }
}

fn int(handle: u64) -> Wanted {
    Wanted { handle, kinds: &[5] }
}

fn float(handle: u64) -> Wanted {
    Wanted { handle, kinds: &[6] }
}

/// What has a zero: Int, Float, pointer.
fn with_zero(handle: u64) -> Wanted {
    Wanted { handle, kinds: &[5, 6, 10] }
}

/// A struct or a forward reference.
fn a_struct(handle: u64) -> Wanted {
    Wanted { handle, kinds: &[8, 9] }
}

/// A struct that is no forward reference.
fn with_fields(handle: u64) -> Wanted {
    Wanted { handle, kinds: &[8] }
}

/// What the rows look at in a call.
#[derive(Default)]
struct Rows {
    handles: Vec<Wanted>,
    /// The struct that has to be an array: row 3.
    array: Option<u64>,
    /// Whether a value is refused: row 4.
    bad_value: bool,
    /// How many bytes, elements or fields there are: row 5.
    count: usize,
    /// The types that the new entry would hold: row 6.
    within: Vec<u64>,
    /// The struct whose fields are wanted: row 7.
    fields_of: Option<u64>,
    /// The index of an offset: row 8.
    index: u64,
    /// What has to have a log size: row 9.
    measured: Measured,
    /// An array's body: row 10.
    body: Option<u64>,
    /// The length of an output, and how many words the answer has for each field and besides: row 11.
    output: Option<Output>,
}

#[derive(Default)]
enum Measured {
    #[default]
    Nothing,
    Type(u64),
    AllFields,
    SecondField,
}

struct Output {
    length: u64,
    each: usize,
    besides: usize,
}

/// The number of the refusal, if there is one.
pub fn refusal(store: &Store, call: &Call) -> Option<u8> {
    // "13, list over 4,096, tested after 1 and before 2"
    if call.name == "meet_list" && call.numbers.len() > LONGEST_LIST {
        return Some(13);
    }
    let rows = rows_of(call);
    row_of_arguments(store, &rows).or_else(|| row_of_fields(store, &rows))
}

/// Rows 2 to 6: handles, values, counts and depths.
fn row_of_arguments(store: &Store, rows: &Rows) -> Option<u8> {
    let entries: Vec<Option<&Entry>> = rows.handles.iter().map(|wanted| store.entry(wanted.handle)).collect();
    if entries.iter().any(Option::is_none) {
        return Some(2);
    }
    let fits = |(wanted, entry): (&Wanted, &Option<&Entry>)| wanted.kinds.contains(&entry.unwrap().kind);
    if !rows.handles.iter().zip(&entries).all(fits) {
        return Some(3);
    }
    if rows.array.is_some_and(|handle| !type_at(store, handle).as_struct().is_ary()) {
        return Some(3);
    }
    if rows.bad_value {
        return Some(4);
    }
    if rows.count > MOST_PARTS {
        return Some(5);
    }
    if rows.within.iter().any(|handle| store.entry(*handle).unwrap().depth + 1 > DEEPEST) {
        return Some(6);
    }
    None
}

/// Rows 7 to 11: what is wanted of fields and of a body.
fn row_of_fields(store: &Store, rows: &Rows) -> Option<u8> {
    let fields = rows.fields_of.map(|handle| type_at(store, handle).as_struct().data().fields);
    if fields == Some(None) {
        return Some(7);
    }
    let fields = fields.flatten().unwrap_or(&[]);
    if rows.index > fields.len() as u64 {
        return Some(8);
    }
    let measured: Vec<Ty> = match rows.measured {
        Measured::Nothing => vec![],
        Measured::Type(handle) => vec![type_at(store, handle)],
        Measured::AllFields => fields.iter().map(|field| field.ty).collect(),
        Measured::SecondField => vec![fields[1].ty],
    };
    if !measured.into_iter().all(|ty| has_log_size(ty, store.types)) {
        return Some(9);
    }
    if rows.body.is_some_and(|body| is_pointer_without_nil(store, body)) {
        return Some(10);
    }
    if rows.output.as_ref().is_some_and(|output| output.length < (output.each * fields.len() + output.besides) as u64) {
        return Some(11);
    }
    None
}

fn type_at<'t>(store: &Store<'_, 't>, handle: u64) -> Ty<'t> {
    store.entry(handle).unwrap().ty().unwrap()
}

/// Whether document 01 gives a type a log size.
pub fn has_log_size<'t>(ty: Ty<'t>, types: &Types<'t>) -> bool {
    match ty.data() {
        Type::Int(int) => {
            let bytes = [types.int_i8, types.int_u8, types.int_bool];
            let larger = [types.int_i16, types.int_u16, types.int_i32, types.int_u32, types.int_bot];
            let is_high_or_constant = int.min >= int.max;
            is_high_or_constant || bytes.iter().chain(&larger).any(|named| **named == ty)
        }
        Type::Float(_) | Type::MemPtr(_) => true,
        _ => false,
    }
}

fn is_pointer_without_nil(store: &Store, handle: u64) -> bool {
    matches!(type_at(store, handle).data(), Type::MemPtr(p) if !p.nil)
}

fn rows_of(call: &Call) -> Rows {
    let none = Rows::default();
    match (call.name, &call.numbers[..]) {
        ("get_bool", [flag]) => Rows { bad_value: *flag > 1, ..none },
        ("int", _) | ("float", [_]) => none,
        ("float", [size, bits]) => Rows { bad_value: !is_float(*size as i64, *bits), ..none },
        ("tuple", types) => {
            Rows { handles: types.iter().map(|t| a_type(*t)).collect(), count: types.len(), within: types.to_vec(), ..none }
        }
        ("str", []) => Rows { count: call.text.len(), ..none },
        ("struct", [struct_name, fields @ ..]) => struct_rows(*struct_name, fields),
        ("fref", [struct_name]) => Rows { handles: vec![name(*struct_name)], ..none },
        ("ptr", [to, nil]) => Rows { handles: vec![a_struct(*to)], bad_value: *nil > 1, within: vec![*to], ..none },
        ("mem", [alias, t]) => Rows { handles: vec![a_type(*t)], bad_value: *alias > LARGEST_ALIAS, within: vec![*t], ..none },
        ("ary", [length, length_alias, body, body_alias]) => Rows {
            handles: vec![int(*length), a_type(*body)],
            bad_value: *length_alias > LARGEST_ALIAS || *body_alias > LARGEST_ALIAS,
            // the name is the text in brackets
            count: call.text.len() + 2,
            within: vec![*length, *body],
            body: Some(*body),
            ..none
        },
        ("make_zero", [a]) => Rows { handles: vec![with_zero(*a)], ..none },
        ("log_size", [a]) => Rows { handles: vec![a_type(*a)], measured: Measured::Type(*a), ..none },
        ("min" | "max" | "value" | "mask", [a]) => Rows { handles: vec![int(*a)], ..none },
        ("sz" | "is_f32" | "float_value" | "reading", [a]) => Rows { handles: vec![float(*a)], ..none },
        ("name", [s]) => Rows { handles: vec![a_struct(*s)], ..none },
        ("fields" | "find" | "find_alias" | "is_ary" | "offset" | "offsets", [s, more @ ..]) => field_rows(call.name, *s, more),
        ("ary_base", [s]) => Rows { measured: Measured::AllFields, ..array_rows(*s) },
        ("ary_scale", [s]) => Rows { measured: Measured::SecondField, ..array_rows(*s) },
        // kind, the lattice and the other calls: on one or two types, or on a list of them
        (_, types) => Rows { handles: types.iter().map(|t| a_type(*t)).collect(), ..none },
    }
}

/// A field list's finished fields are read, whatever its length; an unfinished last one is not.
fn struct_rows(struct_name: u64, list: &[u64]) -> Rows {
    let fields = list.chunks_exact(4);
    let unfinished = !fields.remainder().is_empty();
    let mut handles = vec![name(struct_name)];
    handles.extend(fields.clone().flat_map(|field| [name(field[0]), a_type(field[1])]));
    Rows {
        handles,
        bad_value: unfinished || fields.clone().any(|field| field[2] > LARGEST_ALIAS || field[3] > 1),
        count: fields.len(),
        within: fields.map(|field| field[1]).collect(),
        ..Rows::default()
    }
}

/// The calls on fields, which a forward reference has not. An output gets four words a field, or an offset for each and one more.
fn field_rows(call: &str, s: u64, more: &[u64]) -> Rows {
    let rows = Rows { handles: vec![a_struct(s)], fields_of: Some(s), ..Rows::default() };
    match (call, more) {
        ("fields", [length]) => Rows { output: Some(Output { length: *length, each: 4, besides: 0 }), ..rows },
        ("find", [field_name]) => Rows { handles: vec![a_struct(s), name(*field_name)], ..rows },
        ("find_alias", [alias]) => Rows { bad_value: *alias > LARGEST_ALIAS, ..rows },
        ("offset", [index]) => Rows { index: *index, measured: Measured::AllFields, ..rows },
        ("offsets", [length]) => {
            Rows { measured: Measured::AllFields, output: Some(Output { length: *length, each: 1, besides: 1 }), ..rows }
        }
        _ => rows,
    }
}

fn array_rows(s: u64) -> Rows {
    Rows { handles: vec![with_fields(s)], array: Some(s), fields_of: Some(s), ..Rows::default() }
}

fn is_float(size: i64, bits: u64) -> bool {
    size == 0 || ([-64, -32, 32, 64].contains(&size) && bits == 0)
}
