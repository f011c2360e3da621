//! The library by the crate `ferigulan`: plain calls by its functions over lent words, opened ones by its `OpenedStore`.

use super::door::Door;
use ferigulan::{calls, Handle, OpenedStore, Reading, Refusal, Search};
use reading::{Call, Reply};

/// The calls of an enum as calls of the crate. `$call!` makes one of a name and arguments: a function, or a method.
macro_rules! asked {
    ($given:expr, $output:expr, $call:ident) => {
        match *$given {
            Call::Fresh => unreachable!("a list is not opened for fresh"),
            Call::FindEntry(_) => unreachable!("a store refuses no search, and each door answers it by itself"),
            Call::Kind(h) => told($call!(kind(at(h))), |kind| Reply::Number(kind.number())),

            Call::GetBool(value) => handle($call!(get_bool(value))),
            Call::GetInt(value) => handle($call!(get_int(value as i64))),
            Call::MakeInt(min, max) => handle($call!(make_int(min as i64, max as i64))),
            Call::GetFloat(bits) => handle($call!(get_float(f64::from_bits(bits)))),
            Call::MakeFloat(size, bits) => handle($call!(make_float(size as i64, f64::from_bits(bits)))),
            Call::GetTuple(types) => handle($call!(get_tuple(&all_at(types)))),
            Call::GetStr(name) => handle($call!(get_str(name))),
            Call::GetStruct(name, fields) => handle($call!(get_struct(at(name), fields))),
            Call::MakeAry(length, length_alias, body, body_alias, text) => {
                handle($call!(make_ary(at(length), length_alias, at(body), body_alias, text)))
            }
            Call::MakeStructFref(name) => handle($call!(make_struct_fref(at(name)))),
            Call::GetMemPtr(to, nil) => handle($call!(get_mem_ptr(at(to), nil))),
            Call::GetMem(alias, t) => handle($call!(get_mem(alias, at(t)))),

            Call::Meet(a, b) => handle($call!(meet(at(a), at(b)))),
            Call::MeetList(types) => handle($call!(meet_list(&all_at(types)))),
            Call::Isa(a, b) => flag($call!(isa(at(a), at(b)))),
            Call::Dual(a) => handle($call!(dual(at(a)))),
            Call::Join(a, b) => handle($call!(join(at(a), at(b)))),
            Call::Glb(a) => handle($call!(glb(at(a)))),
            Call::Lub(a) => handle($call!(lub(at(a)))),
            Call::IsFinal(a) => flag($call!(is_final(at(a)))),
            Call::MakeRo(a) => handle($call!(make_ro(at(a)))),

            Call::MakeInit(a) => handle($call!(make_init(at(a)))),
            Call::MakeZero(a) => handle($call!(make_zero(at(a)))),
            Call::NonZero(a) => handle($call!(non_zero(at(a)))),
            Call::IsHigh(a) => flag($call!(is_high(at(a)))),
            Call::IsHighOrConstant(a) => flag($call!(is_high_or_constant(at(a)))),
            Call::IsConstant(a) => flag($call!(is_constant(at(a)))),
            Call::IsFref(a) => flag($call!(is_fref(at(a)))),
            Call::LogSize(a) => told($call!(log_size(at(a))), Reply::Number),

            Call::IntMin(a) => told($call!(int_min(at(a))), Reply::Signed),
            Call::IntMax(a) => told($call!(int_max(at(a))), Reply::Signed),
            Call::IntValue(a) => perhaps($call!(int_value(at(a))), Reply::Signed),
            Call::IntMask(a) => told($call!(int_mask(at(a))), Reply::Signed),
            Call::FloatSz(a) => told($call!(float_sz(at(a))), |size| Reply::Signed(i64::from(size))),
            Call::FloatIsF32(a) => flag($call!(float_is_f32(at(a)))),
            Call::FloatValue(a) => perhaps($call!(float_value(at(a))), |value| Reply::Constant(value.to_bits())),
            Call::FloatReading(a) => told($call!(float_reading(at(a))), |reading| match reading {
                Reading::Constant(value) => Reply::Constant(value.to_bits()),
                Reading::Sized(size) => Reply::Size(i64::from(size)),
            }),

            Call::StructName(s) => handle($call!(struct_name(at(s)))),
            Call::StructFields(s) => told($call!(struct_fields(at(s), $output)), |n| Reply::Filled(n as u64)),
            Call::Find(s, name) => perhaps($call!(find(at(s), at(name))), Reply::Number),
            Call::FindAlias(s, alias) => perhaps($call!(find_alias(at(s), alias)), Reply::Number),
            Call::IsAry(s) => flag($call!(is_ary(at(s)))),
            Call::Offset(s, index) => told($call!(offset(at(s), index)), Reply::Number),
            Call::Offsets(s) => told($call!(offsets(at(s), $output)), |n| Reply::Filled(n as u64)),
            Call::AryBase(s) => told($call!(ary_base(at(s))), Reply::Number),
            Call::AryScale(s) => told($call!(ary_scale(at(s))), Reply::Number),
        }
    };
}

/// Words that the functions are lent.
pub struct Plain<'l>(pub &'l mut [u64]);

impl Door for Plain<'_> {
    fn answer(&mut self, call: &Call, output: &mut [u64]) -> Result<Reply, String> {
        let words = &mut *self.0;
        macro_rules! function {
            ($name:ident($($arg:expr),*)) => { calls::$name(words, $($arg),*) };
        }
        Ok(match call {
            Call::Fresh => told(calls::fresh(words), |()| Reply::Done),
            Call::FindEntry(entry) => told(calls::find_entry(words, entry), searched),
            call => asked!(call, output, function),
        })
    }

    fn save(&mut self, label: &[u8], file: &mut [u8]) -> Result<Reply, String> {
        Ok(length(calls::save(self.0, label, file)))
    }

    fn load(&mut self, file: &[u8]) -> Result<Reply, String> {
        Ok(length(calls::load(self.0, file)))
    }

    fn words(&self) -> &[u64] {
        self.0
    }

    fn words_mut(&mut self) -> Option<&mut [u64]> {
        Some(self.0)
    }
}

impl Door for OpenedStore<'_> {
    fn answer(&mut self, call: &Call, output: &mut [u64]) -> Result<Reply, String> {
        macro_rules! method {
            ($name:ident($($arg:expr),*)) => { self.$name($($arg),*) };
        }
        Ok(match call {
            Call::FindEntry(entry) => searched(self.find_entry(entry)),
            call => asked!(call, output, method),
        })
    }

    fn save(&mut self, label: &[u8], file: &mut [u8]) -> Result<Reply, String> {
        Ok(length(calls::save(OpenedStore::words(self), label, file)))
    }

    fn load(&mut self, _: &[u8]) -> Result<Reply, String> {
        unreachable!("a list is not opened for a load")
    }

    fn words(&self) -> &[u64] {
        OpenedStore::words(self)
    }

    /// The crate lets nobody write an opened store.
    fn words_mut(&mut self) -> Option<&mut [u64]> {
        None
    }
}

fn at(word: u64) -> Handle {
    Handle::new(word)
}

fn all_at(words: &[u64]) -> Vec<Handle> {
    words.iter().map(|word| at(*word)).collect()
}

fn told<T>(answer: Result<T, Refusal>, reply: impl FnOnce(T) -> Reply) -> Reply {
    answer.map_or_else(|refusal| Reply::Refused(refusal.number()), reply)
}

fn handle(answer: Result<Handle, Refusal>) -> Reply {
    told(answer, |handle| Reply::Handle(handle.word()))
}

fn flag(answer: Result<bool, Refusal>) -> Reply {
    told(answer, |yes| if yes { Reply::Yes } else { Reply::No })
}

fn perhaps<T>(answer: Result<Option<T>, Refusal>, reply: impl FnOnce(T) -> Reply) -> Reply {
    told(answer, |found| found.map_or(Reply::Absent, reply))
}

fn length(answer: Result<usize, Refusal>) -> Reply {
    told(answer, |length| Reply::Number(length as u64))
}

fn searched(search: Search) -> Reply {
    Reply::Searched(search.handle.map(Handle::word), search.count)
}
