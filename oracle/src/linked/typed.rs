//! A call of a script as the reading and the library take it, and what they reply as an answer.

use crate::script;
use crate::session::{Answer, KEPT};
use reading::{Call, Reply};

/// The call that a line is: nothing for a line that is about the lent list.
pub fn typed(call: &script::Call) -> Option<Call<'_>> {
    let text = &call.text[..];
    Some(match (call.name, &call.numbers[..]) {
        ("fresh", _) => Call::Fresh,
        ("kind", &[h]) => Call::Kind(h),

        ("get_bool", &[value]) => Call::GetBool(value),
        ("int", &[value]) => Call::GetInt(value),
        ("int", &[min, max]) => Call::MakeInt(min, max),
        ("float", &[bits]) => Call::GetFloat(bits),
        ("float", &[size, bits]) => Call::MakeFloat(size, bits),
        ("tuple", types) => Call::GetTuple(types),
        ("str", []) => Call::GetStr(text),
        ("struct", [name, fields @ ..]) => Call::GetStruct(*name, fields),
        ("ary", &[length, length_alias, body, body_alias]) => Call::MakeAry(length, length_alias, body, body_alias, text),
        ("fref", &[name]) => Call::MakeStructFref(name),
        ("ptr", &[to, nil]) => Call::GetMemPtr(to, nil),
        ("mem", &[alias, t]) => Call::GetMem(alias, t),

        ("meet", &[a, b]) => Call::Meet(a, b),
        ("meet_list", types) => Call::MeetList(types),
        ("isa", &[a, b]) => Call::Isa(a, b),
        ("dual", &[a]) => Call::Dual(a),
        ("join", &[a, b]) => Call::Join(a, b),
        ("glb", &[a]) => Call::Glb(a),
        ("lub", &[a]) => Call::Lub(a),
        ("is_final", &[a]) => Call::IsFinal(a),
        ("make_ro", &[a]) => Call::MakeRo(a),

        ("make_init", &[a]) => Call::MakeInit(a),
        ("make_zero", &[a]) => Call::MakeZero(a),
        ("non_zero", &[a]) => Call::NonZero(a),
        ("is_high", &[a]) => Call::IsHigh(a),
        ("is_high_or_constant", &[a]) => Call::IsHighOrConstant(a),
        ("is_constant", &[a]) => Call::IsConstant(a),
        ("is_fref", &[a]) => Call::IsFref(a),
        ("log_size", &[a]) => Call::LogSize(a),

        ("min", &[a]) => Call::IntMin(a),
        ("max", &[a]) => Call::IntMax(a),
        ("value", &[a]) => Call::IntValue(a),
        ("mask", &[a]) => Call::IntMask(a),
        ("sz", &[a]) => Call::FloatSz(a),
        ("is_f32", &[a]) => Call::FloatIsF32(a),
        ("float_value", &[a]) => Call::FloatValue(a),
        ("reading", &[a]) => Call::FloatReading(a),

        ("name", &[s]) => Call::StructName(s),
        ("fields", &[s, _]) => Call::StructFields(s),
        ("find", &[s, name]) => Call::Find(s, name),
        ("find_alias", &[s, alias]) => Call::FindAlias(s, alias),
        ("is_ary", &[s]) => Call::IsAry(s),
        ("offset", &[s, index]) => Call::Offset(s, index),
        ("offsets", &[s, _]) => Call::Offsets(s),
        ("ary_base", &[s]) => Call::AryBase(s),
        ("ary_scale", &[s]) => Call::AryScale(s),

        ("find_entry", entry) => Call::FindEntry(entry),
        _ => return None,
    })
}

/// How many words the output of a call has.
pub fn output_length(call: &script::Call) -> usize {
    match (call.name, &call.numbers[..]) {
        ("fields" | "offsets", [_, length]) => *length as usize,
        _ => 0,
    }
}

/// An output before its call.
pub fn output(call: &script::Call) -> Vec<u64> {
    vec![KEPT; output_length(call)]
}

/// What a script's line would tell of a reply to the call. Where there is no other answer than a constant's bits, the line has no word before them.
pub fn answer(call: &Call, reply: Reply, output: &[u64]) -> Answer {
    match reply {
        Reply::Constant(bits) if matches!(call, Call::FloatValue(_)) => Answer::Number(bits),
        Reply::Refused(row) => Answer::Refused(row),
        Reply::Done => Answer::Accepted,
        Reply::Handle(n) | Reply::Number(n) => Answer::Number(n),
        Reply::Signed(n) => Answer::Signed(n),
        Reply::Yes => Answer::Flag(true),
        Reply::No => Answer::Flag(false),
        Reply::Absent => Answer::Absent,
        Reply::Constant(bits) => Answer::Constant(bits),
        Reply::Size(size) => i8::try_from(size).map_or(Answer::Signed(size), Answer::Size),
        Reply::Searched(found, count) => Answer::Searched(found, count),
        Reply::Filled(n) => Answer::Filled(output[..output.len().min(n as usize)].to_vec(), output.len()),
    }
}

/// What a line would tell of a reply to the writer of a file, with the output behind it.
pub fn saved(reply: Reply, output: &[u8]) -> Answer {
    match reply {
        Reply::Number(n) => match output.get(..n as usize) {
            Some(file) => Answer::Saved(file.to_vec(), output.len()),
            None => Answer::Number(n),
        },
        other => loaded(other),
    }
}

/// What a line would tell of a reply to the loader.
pub fn loaded(reply: Reply) -> Answer {
    match reply {
        Reply::Refused(row) => Answer::Refused(row),
        Reply::Number(n) => Answer::Number(n),
        other => unreachable!("a loader answers {other:?}"),
    }
}
