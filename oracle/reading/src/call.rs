//! The calls of document 01, and those that document 02 adds, with their replies, and which function reads which call.

use crate::float::Reading;
use crate::refusals::Refusal;
use crate::store::Store;
use crate::{dual, finals, float, glb_lub, int, makers, meet, scalars, search, structs};

/// A call. Numbers are 64-bit words, signed ones two's complement; lists and texts are lent.
#[derive(Debug, Clone, Copy, PartialEq, Eq)]
pub enum Call<'a> {
    /// Writes a fresh store.
    Fresh,
    Kind(u64),
    /// A flag.
    GetBool(u64),
    GetInt(u64),
    /// Min, max.
    MakeInt(u64, u64),
    /// A constant's bits.
    GetFloat(u64),
    /// Size, bits.
    MakeFloat(u64, u64),
    GetTuple(&'a [u64]),
    GetStr(&'a [u8]),
    /// Name, and the field list: name, type, alias, final.
    GetStruct(u64, &'a [u64]),
    /// Length, its alias, body, its alias, text.
    MakeAry(u64, u64, u64, u64, &'a [u8]),
    /// Name.
    MakeStructFref(u64),
    /// Struct, nil.
    GetMemPtr(u64, u64),
    /// Alias, type.
    GetMem(u64, u64),
    Meet(u64, u64),
    /// Document 02, Slip 1: types.
    MeetList(&'a [u64]),
    Isa(u64, u64),
    Dual(u64),
    Join(u64, u64),
    Glb(u64),
    Lub(u64),
    IsFinal(u64),
    MakeRo(u64),
    MakeInit(u64),
    MakeZero(u64),
    NonZero(u64),
    IsHigh(u64),
    IsHighOrConstant(u64),
    IsConstant(u64),
    IsFref(u64),
    LogSize(u64),
    IntMin(u64),
    IntMax(u64),
    IntValue(u64),
    IntMask(u64),
    FloatSz(u64),
    FloatIsF32(u64),
    FloatValue(u64),
    FloatReading(u64),
    StructName(u64),
    StructFields(u64),
    /// Struct, name.
    Find(u64, u64),
    /// Struct, alias.
    FindAlias(u64, u64),
    IsAry(u64),
    /// Struct, index.
    Offset(u64, u64),
    Offsets(u64),
    AryBase(u64),
    AryScale(u64),
    /// Document 02, Slip 2: an entry's words. The document has no call for the search; here it is one whose only row is 1.
    FindEntry(&'a [u64]),
}

#[derive(Debug, Clone, Copy, PartialEq, Eq)]
pub enum Reply {
    /// The number of the table, alone.
    Refused(u8),
    /// Accepted, with nothing to tell: `Fresh`.
    Done,
    Handle(u64),
    Number(u64),
    Signed(i64),
    Yes,
    No,
    /// No field is found, or the type is no constant.
    Absent,
    /// The bits of a Float's constant.
    Constant(u64),
    /// A Float's size, where its reading is a size alone.
    Size(i64),
    /// How many words of the output were filled.
    Filled(u64),
    /// The handle of the entry found, if there is one, and the number of entries not passed over.
    Searched(Option<u64>, u64),
}

type Answered = Result<Reply, Refusal>;

impl Store<'_> {
    /// The call on words that are well formed.
    pub fn answer(&mut self, call: &Call, output: &mut [u64]) -> Reply {
        self.or_restore(|store| made(store, call, output)).unwrap_or_else(Reply::Refused)
    }
}

fn yes_or_no(yes: bool) -> Reply {
    match yes {
        true => Reply::Yes,
        false => Reply::No,
    }
}

/// The calls that answer a handle.
fn made(store: &mut Store, call: &Call, output: &mut [u64]) -> Answered {
    let handle = match *call {
        Call::GetBool(value) => makers::get_bool(value)?,
        Call::GetInt(value) => store.make_int(value as i64, value as i64)?,
        Call::MakeInt(min, max) => store.make_int(min as i64, max as i64)?,
        Call::GetFloat(bits) => makers::make_float(store, 0, bits)?,
        Call::MakeFloat(sz, bits) => makers::make_float(store, sz, bits)?,
        Call::GetTuple(types) => makers::get_tuple(store, types)?,
        Call::GetStr(bytes) => makers::get_str(store, bytes)?,
        Call::GetStruct(name, list) => makers::get_struct(store, name, list)?,
        Call::MakeAry(len, len_alias, body, body_alias, text) => makers::make_ary(store, (len, len_alias), (body, body_alias), text)?,
        Call::MakeStructFref(name) => makers::make_struct_fref(store, name)?,
        Call::GetMemPtr(to, nil) => makers::get_mem_ptr(store, to, nil)?,
        Call::GetMem(alias, t) => makers::get_mem(store, alias, t)?,
        Call::Meet(a, b) => meet::meet(store, a, b)?,
        Call::MeetList(types) => meet::meet_list(store, types)?,
        Call::Dual(a) => dual::dual(store, a)?,
        Call::Join(a, b) => dual::join(store, a, b)?,
        Call::Glb(a) => glb_lub::glb(store, a)?,
        Call::Lub(a) => glb_lub::lub(store, a)?,
        Call::MakeRo(a) => finals::make_ro(store, a)?,
        Call::MakeInit(a) => scalars::make_init(store, a)?,
        Call::MakeZero(a) => scalars::make_zero(store, a)?,
        Call::NonZero(a) => scalars::non_zero(store, a)?,
        Call::StructName(s) => structs::name(store, s)?,
        _ => return asked(store, call, output),
    };
    Ok(Reply::Handle(handle))
}

/// The calls that answer yes or no.
fn asked(store: &mut Store, call: &Call, output: &mut [u64]) -> Answered {
    let yes = match *call {
        Call::Isa(a, b) => meet::isa(store, a, b)?,
        Call::IsFinal(a) => finals::is_final(store, a)?,
        Call::IsHigh(a) => scalars::is_high(store, a)?,
        Call::IsHighOrConstant(a) => scalars::is_high_or_constant(store, a)?,
        Call::IsConstant(a) => scalars::is_constant(store, a)?,
        Call::IsFref(a) => scalars::is_fref(store, a)?,
        Call::FloatIsF32(a) => float::asked(store, a)?.is_f32(),
        Call::IsAry(s) => structs::is_ary(store, s)?,
        _ => return told(store, call, output),
    };
    Ok(yes_or_no(yes))
}

/// The calls that answer a number, a constant, a field, an entry with a number beside it, or fill an output.
fn told(store: &Store, call: &Call, output: &mut [u64]) -> Answered {
    let found = |field: Option<usize>| field.map_or(Reply::Absent, |i| Reply::Number(i as u64));
    Ok(match *call {
        Call::Kind(a) => Reply::Number(scalars::kind(store, a)?),
        Call::LogSize(a) => Reply::Number(scalars::log_size(store, a)?),
        Call::IntMin(a) => Reply::Signed(int::asked(store, a)?.0),
        Call::IntMax(a) => Reply::Signed(int::asked(store, a)?.1),
        Call::IntValue(a) => int::value(int::asked(store, a)?).map_or(Reply::Absent, Reply::Signed),
        Call::IntMask(a) => Reply::Signed(int::mask(int::asked(store, a)?)),
        Call::FloatSz(a) => Reply::Signed(float::asked(store, a)?.sz),
        Call::FloatValue(a) => match float::asked(store, a)?.reading() {
            Reading::Constant(bits) => Reply::Constant(bits),
            Reading::Sized(_) => Reply::Absent,
        },
        Call::FloatReading(a) => match float::asked(store, a)?.reading() {
            Reading::Constant(bits) => Reply::Constant(bits),
            Reading::Sized(sz) => Reply::Size(sz),
        },
        Call::StructFields(s) => Reply::Filled(structs::fields(store, s, output)?),
        Call::Find(s, name) => found(structs::find(store, s, name)?),
        Call::FindAlias(s, alias) => found(structs::find_alias(store, s, alias)?),
        Call::Offset(s, index) => Reply::Number(structs::offset(store, s, index)?),
        Call::Offsets(s) => Reply::Filled(structs::offsets(store, s, output)?),
        Call::AryBase(s) => Reply::Number(structs::ary_base(store, s)?),
        Call::AryScale(s) => Reply::Number(structs::ary_scale(store, s)?),
        Call::FindEntry(entry) => {
            let (found, count) = search::find_entry(store, entry);
            Reply::Searched(found, count)
        }
        _ => unreachable!("{call:?} is answered before"),
    })
}
