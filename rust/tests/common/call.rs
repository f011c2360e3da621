//! The calls as values, so that one list of calls can be made in each of the three forms, and their answers as words.
use ferigulan::{calls, Handle, Kind, OpenedStore, Reading, Refusal, Store};

#[derive(Clone, Debug)]
pub enum Call {
    Kind(Handle),
    GetBool(u64),
    GetInt(i64),
    MakeInt(i64, i64),
    /// the constant's bits
    GetFloat(u64),
    MakeFloat(i64, u64),
    GetTuple(Vec<Handle>),
    GetStr(Vec<u8>),
    GetStruct(Handle, Vec<u64>),
    MakeAry(Handle, u64, Handle, u64, Vec<u8>),
    MakeStructFref(Handle),
    GetMemPtr(Handle, u64),
    GetMem(u64, Handle),
    Meet(Handle, Handle),
    MeetList(Vec<Handle>),
    Isa(Handle, Handle),
    Dual(Handle),
    Join(Handle, Handle),
    Glb(Handle),
    Lub(Handle),
    IsFinal(Handle),
    MakeRo(Handle),
    MakeInit(Handle),
    MakeZero(Handle),
    NonZero(Handle),
    IsHigh(Handle),
    IsHighOrConstant(Handle),
    IsConstant(Handle),
    IsFref(Handle),
    LogSize(Handle),
    IntMin(Handle),
    IntMax(Handle),
    IntValue(Handle),
    IntMask(Handle),
    FloatSz(Handle),
    FloatIsF32(Handle),
    FloatValue(Handle),
    FloatReading(Handle),
    StructName(Handle),
    /// the length of the output
    StructFields(Handle, usize),
    Find(Handle, Handle),
    FindAlias(Handle, u64),
    IsAry(Handle),
    Offset(Handle, u64),
    Offsets(Handle, usize),
    AryBase(Handle),
    AryScale(Handle),
}

/// What every word of an output is before a call.
pub const BEFORE: u64 = 7777;

/// An answer: 1 and its word, or 0 and nothing where it is absent, or 0 and the size of a reading; or a refusal.
pub type Told = Result<[u64; 2], Refusal>;

/// An answer as words, bit by bit.
trait Words {
    fn words(self) -> [u64; 2];
}

macro_rules! words {
    ($($answer:ty: $it:ident => $word:expr;)*) => {$(
        impl Words for $answer {
            fn words(self) -> [u64; 2] {
                let $it = self;
                [1, $word]
            }
        }
    )*};
}

words! {
    Handle: h => h.word();
    Kind: kind => kind.number();
    bool: yes => yes.into();
    u64: n => n;
    usize: n => n as u64;
    i64: n => n as u64;
    i8: n => n as i64 as u64;
    f64: x => x.to_bits();
}

impl<T: Words> Words for Option<T> {
    fn words(self) -> [u64; 2] {
        self.map_or([0, 0], T::words)
    }
}

impl Words for Reading {
    fn words(self) -> [u64; 2] {
        match self {
            Reading::Constant(x) => x.words(),
            Reading::Sized(sz) => [0, sz.words()[1]],
        }
    }
}

/// Makes `$call` by `$form!`, which is handed `$on`, a function's name and its arguments.
macro_rules! make {
    ($call:expr, $output:expr, $form:ident $on:ident) => {
        match $call {
            Call::Kind(h) => $form!($on kind(*h)),
            Call::GetBool(value) => $form!($on get_bool(*value)),
            Call::GetInt(value) => $form!($on get_int(*value)),
            Call::MakeInt(min, max) => $form!($on make_int(*min, *max)),
            Call::GetFloat(bits) => $form!($on get_float(f64::from_bits(*bits))),
            Call::MakeFloat(sz, bits) => $form!($on make_float(*sz, f64::from_bits(*bits))),
            Call::GetTuple(types) => $form!($on get_tuple(types)),
            Call::GetStr(name) => $form!($on get_str(name)),
            Call::GetStruct(name, fields) => $form!($on get_struct(*name, fields)),
            Call::MakeAry(len, len_alias, body, body_alias, text) => $form!($on make_ary(*len, *len_alias, *body, *body_alias, text)),
            Call::MakeStructFref(name) => $form!($on make_struct_fref(*name)),
            Call::GetMemPtr(to, nil) => $form!($on get_mem_ptr(*to, *nil)),
            Call::GetMem(alias, t) => $form!($on get_mem(*alias, *t)),
            Call::Meet(a, b) => $form!($on meet(*a, *b)),
            Call::MeetList(types) => $form!($on meet_list(types)),
            Call::Isa(a, b) => $form!($on isa(*a, *b)),
            Call::Dual(a) => $form!($on dual(*a)),
            Call::Join(a, b) => $form!($on join(*a, *b)),
            Call::Glb(a) => $form!($on glb(*a)),
            Call::Lub(a) => $form!($on lub(*a)),
            Call::IsFinal(a) => $form!($on is_final(*a)),
            Call::MakeRo(a) => $form!($on make_ro(*a)),
            Call::MakeInit(a) => $form!($on make_init(*a)),
            Call::MakeZero(a) => $form!($on make_zero(*a)),
            Call::NonZero(a) => $form!($on non_zero(*a)),
            Call::IsHigh(a) => $form!($on is_high(*a)),
            Call::IsHighOrConstant(a) => $form!($on is_high_or_constant(*a)),
            Call::IsConstant(a) => $form!($on is_constant(*a)),
            Call::IsFref(a) => $form!($on is_fref(*a)),
            Call::LogSize(a) => $form!($on log_size(*a)),
            Call::IntMin(a) => $form!($on int_min(*a)),
            Call::IntMax(a) => $form!($on int_max(*a)),
            Call::IntValue(a) => $form!($on int_value(*a)),
            Call::IntMask(a) => $form!($on int_mask(*a)),
            Call::FloatSz(a) => $form!($on float_sz(*a)),
            Call::FloatIsF32(a) => $form!($on float_is_f32(*a)),
            Call::FloatValue(a) => $form!($on float_value(*a)),
            Call::FloatReading(a) => $form!($on float_reading(*a)),
            Call::StructName(s) => $form!($on struct_name(*s)),
            Call::StructFields(s, _) => $form!($on struct_fields(*s, $output)),
            Call::Find(s, name) => $form!($on find(*s, *name)),
            Call::FindAlias(s, alias) => $form!($on find_alias(*s, *alias)),
            Call::IsAry(s) => $form!($on is_ary(*s)),
            Call::Offset(s, index) => $form!($on offset(*s, *index)),
            Call::Offsets(s, _) => $form!($on offsets(*s, $output)),
            Call::AryBase(s) => $form!($on ary_base(*s)),
            Call::AryScale(s) => $form!($on ary_scale(*s)),
        }
    };
}

macro_rules! function {
    ($words:ident $name:ident($($arg:expr),*)) => {
        calls::$name($words, $($arg),*).map(Words::words)
    };
}

macro_rules! method {
    ($store:ident $name:ident($($arg:expr),*)) => {
        $store.$name($($arg),*).map(Words::words)
    };
}

macro_rules! name {
    ($on:ident $name:ident($($arg:expr),*)) => {{
        $(let _ = $arg;)*
        stringify!($name)
    }};
}

impl Call {
    pub fn name(&self) -> &'static str {
        make!(self, (), name self)
    }

    /// Whether the call may append to the words; it then answers a handle.
    pub fn appends(&self) -> bool {
        let makes =
            ["get_int", "make_int", "get_float", "make_float", "get_tuple", "get_str", "get_struct", "make_ary", "make_struct_fref"];
        let others = ["get_mem_ptr", "get_mem", "meet", "meet_list", "join", "dual", "glb", "lub", "make_ro", "non_zero"];
        makes.contains(&self.name()) || others.contains(&self.name())
    }

    /// An output as this call wants it; it has no words where the call takes none.
    pub fn output(&self) -> Vec<u64> {
        match self {
            Call::StructFields(_, length) | Call::Offsets(_, length) => vec![BEFORE; *length],
            _ => Vec::new(),
        }
    }

    pub fn on_words(&self, words: &mut [u64], output: &mut [u64]) -> Told {
        make!(self, output, function words)
    }

    pub fn on_store(&self, store: &mut Store<'_>, output: &mut [u64]) -> Told {
        make!(self, output, method store)
    }

    pub fn on_opened(&self, store: &mut OpenedStore<'_>, output: &mut [u64]) -> Told {
        make!(self, output, method store)
    }
}
