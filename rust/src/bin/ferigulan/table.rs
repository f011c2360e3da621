//! The lines that are calls: each with its numbers, the call of the library, and how it answers.
use crate::script::LONGEST;
use crate::spell::{self, Answer};
use crate::spelling::grouped;
use ferigulan::{calls, Handle, OpenedStore};

/// A line as it is written, and the library's call.
pub struct Usage {
    pub name: &'static str,
    pub arguments: &'static str,
    pub call: &'static str,
    pub does: &'static str,
}

/// What a call may be lent beside its numbers: a text, and an output.
pub struct Lent<'a> {
    pub text: &'a [u8],
    pub output: &'a mut Vec<u64>,
    /// How many words the output may have.
    pub most_output: u64,
}

/// What each word of an output holds before a call.
const BLANK: u64 = 7777;

impl Lent<'_> {
    /// An output of n words.
    fn output(&mut self, n: u64) -> Result<&mut [u64], String> {
        if n > self.most_output {
            return Err(format!("an output has at most {} words", grouped(self.most_output)));
        }
        self.output.clear();
        self.output.resize(n as usize, BLANK);
        Ok(self.output)
    }
}

fn h(word: u64) -> Handle {
    Handle::new(word)
}

fn handles(words: &[u64]) -> Vec<Handle> {
    words.iter().copied().map(Handle::new).collect()
}

/// How many handles a list may be said to have: as many as a line has room for numbers.
const MOST_HANDLES: u64 = LONGEST as u64 / 2;

/// One handle n times.
fn repeated(n: u64, handle: u64) -> Result<Vec<Handle>, String> {
    if n > MOST_HANDLES {
        return Err(format!("a handle is repeated at most {} times", grouped(MOST_HANDLES)));
    }
    Ok(vec![h(handle); n as usize])
}

/// The table, and its two readings: the call on lent words, which tests row 1 first, and the same call on an opened store. A line that is
/// none of these answers nothing.
macro_rules! table {
    ($lent:ident: $(
        $name:literal $arguments:literal $does:literal $numbers:pat => $call:ident($($argument:expr),*) answers $answer:path;
    )*) => {
        pub const CALLS: &[Usage] = &[$(Usage { name: $name, arguments: $arguments, call: stringify!($call), does: $does },)*];

        pub fn plain(words: &mut [u64], name: &str, numbers: &[u64], $lent: &mut Lent) -> Result<Option<Answer>, String> {
            Ok(Some(match (name, numbers) {
                $(($name, $numbers) => calls::$call(words $(, $argument)*).map_or_else(Answer::Refused, $answer),)*
                _ => return Ok(None),
            }))
        }

        pub fn opened(store: &mut OpenedStore, name: &str, numbers: &[u64], $lent: &mut Lent) -> Result<Option<Answer>, String> {
            Ok(Some(match (name, numbers) {
                $(($name, $numbers) => store.$call($($argument),*).map_or_else(Answer::Refused, $answer),)*
                _ => return Ok(None),
            }))
        }
    };
}

table! { lent:
    "kind" "H" "the kind of a type" &[a] => kind(h(a)) answers Answer::Kind;
    "get_bool" "V" "the Int 0 or 1" &[v] => get_bool(v) answers Answer::Handle;
    "int" "V" "the Int of one number" &[v] => get_int(v as i64) answers Answer::Handle;
    "int" "MIN MAX" "the Int of a range" &[min, max] => make_int(min as i64, max as i64) answers Answer::Handle;
    "float" "BITS" "the Float of one constant" &[bits] => get_float(f64::from_bits(bits)) answers Answer::Handle;
    "float" "SZ BITS" "the Float of a size" &[sz, bits] => make_float(sz as i64, f64::from_bits(bits)) answers Answer::Handle;
    "tuple" "H.." "a tuple" types => get_tuple(&handles(types)) answers Answer::Handle;
    "str" "HEX" "a name" &[] => get_str(lent.text) answers Answer::Handle;
    "struct" "NAME W.." "a struct" &[name, ref fields @ ..] => get_struct(h(name), fields) answers Answer::Handle;
    "fref" "NAME" "a forward reference" &[name] => make_struct_fref(h(name)) answers Answer::Handle;
    "ptr" "TO NIL" "a pointer" &[to, nil] => get_mem_ptr(h(to), nil) answers Answer::Handle;
    "mem" "ALIAS T" "a memory type" &[alias, t] => get_mem(alias, h(t)) answers Answer::Handle;
    "ary" "LEN LALIAS BODY BALIAS HEX" "an array" &[len, len_alias, body, body_alias]
        => make_ary(h(len), len_alias, h(body), body_alias, lent.text) answers Answer::Handle;
    "meet" "A B" "the merge of two types" &[a, b] => meet(h(a), h(b)) answers Answer::Handle;
    "meet_list" "H.." "the merge of a list of types, from Top on" types => meet_list(&handles(types)) answers Answer::Handle;
    "meet_rep" "N H" "the merge of a list of N times one type" &[n, a] => meet_list(&repeated(n, a)?) answers Answer::Handle;
    "isa" "A B" "whether it would be the second" &[a, b] => isa(h(a), h(b)) answers Answer::Flag;
    "dual" "A" "the type turned over" &[a] => dual(h(a)) answers Answer::Handle;
    "join" "A B" "the merge from the other side" &[a, b] => join(h(a), h(b)) answers Answer::Handle;
    "glb" "A" "the fixed lower type" &[a] => glb(h(a)) answers Answer::Handle;
    "lub" "A" "the fixed upper type" &[a] => lub(h(a)) answers Answer::Handle;
    "is_final" "A" "whether all fields on the way are final" &[a] => is_final(h(a)) answers Answer::Flag;
    "make_ro" "A" "the read-only form" &[a] => make_ro(h(a)) answers Answer::Handle;
    "make_init" "A" "what a variable of the type begins with" &[a] => make_init(h(a)) answers Answer::Handle;
    "make_zero" "A" "the zero of an Int, Float or pointer" &[a] => make_zero(h(a)) answers Answer::Handle;
    "non_zero" "A" "the type without zero" &[a] => non_zero(h(a)) answers Answer::Handle;
    "is_high" "A" "whether it is high" &[a] => is_high(h(a)) answers Answer::Flag;
    "is_high_or_constant" "A" "whether it is high or a constant" &[a] => is_high_or_constant(h(a)) answers Answer::Flag;
    "is_constant" "A" "whether it is a constant" &[a] => is_constant(h(a)) answers Answer::Flag;
    "is_fref" "A" "whether it is or points to a forward reference" &[a] => is_fref(h(a)) answers Answer::Flag;
    "log_size" "A" "0 to 3 for 1, 2, 4 or 8 bytes" &[a] => log_size(h(a)) answers Answer::LogSize;
    "min" "A" "the lower end of an Int" &[a] => int_min(h(a)) answers Answer::Signed;
    "max" "A" "the upper end of an Int" &[a] => int_max(h(a)) answers Answer::Signed;
    "value" "A" "the number of a constant Int" &[a] => int_value(h(a)) answers spell::int_value;
    "mask" "A" "the bits that numbers of an Int have" &[a] => int_mask(h(a)) answers Answer::Mask;
    "sz" "A" "the size of a Float" &[a] => float_sz(h(a)) answers spell::size;
    "is_f32" "A" "whether a Float's constant is single precision" &[a] => float_is_f32(h(a)) answers Answer::Flag;
    "float_value" "A" "the bits of a constant Float" &[a] => float_value(h(a)) answers spell::float_value;
    "reading" "A" "a Float's constant or its size" &[a] => float_reading(h(a)) answers Answer::Reading;
    "name" "S" "the name of a struct" &[s] => struct_name(h(s)) answers Answer::Handle;
    "fields" "S OUTLEN" "the field list of a struct" &[s, n] => struct_fields(h(s), lent.output(n)?) answers Answer::Filled;
    "find" "S NAME" "the first field of a name, from 0" &[s, name] => find(h(s), h(name)) answers spell::found;
    "find_alias" "S ALIAS" "the first field of an alias" &[s, alias] => find_alias(h(s), alias) answers spell::found;
    "is_ary" "S" "whether a struct is an array" &[s] => is_ary(h(s)) answers Answer::Flag;
    "offset" "S I" "where a field begins" &[s, i] => offset(h(s), i) answers Answer::Number;
    "offsets" "S OUTLEN" "where all fields begin, and the end" &[s, n] => offsets(h(s), lent.output(n)?) answers Answer::Filled;
    "ary_base" "S" "where an array's body begins" &[s] => ary_base(h(s)) answers Answer::Number;
    "ary_scale" "S" "the log size of an element" &[s] => ary_scale(h(s)) answers Answer::LogSize;
}
