//! The library by its functions as C declares them. They are lent the words for the answer too, with guard words around these, so that it shows
//! when a function writes one that it may not.

use super::cell::{flag, signed, size, Cell, Lent, Shape};
use super::door::{Door, Lists};
use reading::Call;
use reading::Reply::{self, Filled, Handle, Number};
use Shape::{Either, One, Perhaps, Search};

/// Lent words, or an opened store.
pub enum ByC<'l> {
    Plain(&'l mut [u64]),
    Opened(Lists<'l>),
}

/// Of each call the function on lent words, the one on an opened store's three lists, what both are lent besides, the word for the answer last,
/// and how they tell their reply. (In C the lists that a function only reads are `const`.)
macro_rules! functions {
    ([$which:ident $answer:ident $output:ident]
     $($call:pat => $plain:ident $opened:ident ($($arg:ident: $type:ty = $value:expr),*) $shape:expr;)*) => {
        extern "C" {
            $(fn $plain(words: *mut u64, n: usize, $($arg: $type,)* $answer: *mut u64) -> u32;)*
            $(fn $opened(words: *mut u64, n: usize, index: *mut u64, i: usize, memory: *mut u64, m: usize, $($arg: $type,)* $answer: *mut u64) -> u32;)*
        }

        /// Calls the function: what it returns, and how its reply is told.
        fn run(door: &mut ByC, call: &Call, $output: &mut [u64], told: &Lent) -> (u32, Shape) {
            let ($which, $answer) = (told.which, told.answer);
            match *call {
                Call::Fresh => (fresh(door), One(|_| Reply::Done)),
                Call::FindEntry(entry) => (find_entry(door.words(), entry, told), Search),
                // SAFETY: pointers of slices with their lengths, or to words of the cell; none overlap. An opened store was opened by `open` and
                // is borrowed since then, so that only these calls have written its lists.
                $($call => (match door {
                    ByC::Plain(words) => unsafe { $plain(words.as_mut_ptr(), words.len(), $($value,)* $answer) },
                    ByC::Opened(Lists { words, index, memory }) => unsafe {
                        $opened(words.as_mut_ptr(), words.len(), index.as_mut_ptr(), index.len(), memory.as_mut_ptr(), memory.len(), $($value,)* $answer)
                    },
                }, $shape),)*
            }
        }
    };
}

extern "C" {
    fn ferigulan_fresh(words: *mut u64, n: usize) -> u32;
    fn ferigulan_find_entry(
        words: *const u64,
        n: usize,
        entry: *const u64,
        k: usize,
        which: *mut u64,
        count: *mut u64,
        answer: *mut u64,
    ) -> u32;
    fn ferigulan_open(words: *const u64, n: usize, index: *mut u64, i: usize, memory: *mut u64, m: usize) -> u32;
    fn ferigulan_save(words: *const u64, n: usize, label: *const u8, k: usize, file: *mut u8, m: usize, answer: *mut u64) -> u32;
    fn ferigulan_load(words: *mut u64, n: usize, file: *const u8, m: usize, answer: *mut u64) -> u32;
}

#[rustfmt::skip]
functions! {
    [which answer output]
    Call::Kind(h) => ferigulan_kind ferigulan_opened_kind (h: u64 = h) One(Number);
    Call::GetBool(value) => ferigulan_get_bool ferigulan_opened_get_bool (value: u64 = value) One(Handle);
    Call::GetInt(value) => ferigulan_get_int ferigulan_opened_get_int (value: u64 = value) One(Handle);
    Call::MakeInt(min, max) => ferigulan_make_int ferigulan_opened_make_int (min: u64 = min, max: u64 = max) One(Handle);
    Call::GetFloat(bits) => ferigulan_get_float ferigulan_opened_get_float (bits: u64 = bits) One(Handle);
    Call::MakeFloat(sz, bits) => ferigulan_make_float ferigulan_opened_make_float (sz: u64 = sz, bits: u64 = bits) One(Handle);
    Call::GetTuple(types) => ferigulan_get_tuple ferigulan_opened_get_tuple (types: *const u64 = types.as_ptr(), k: usize = types.len()) One(Handle);
    Call::GetStr(name) => ferigulan_get_str ferigulan_opened_get_str (name: *const u8 = name.as_ptr(), k: usize = name.len()) One(Handle);
    Call::GetStruct(name, fields) => ferigulan_get_struct ferigulan_opened_get_struct (name: u64 = name, fields: *const u64 = fields.as_ptr(), k: usize = fields.len()) One(Handle);
    Call::MakeAry(len, len_alias, body, body_alias, text) => ferigulan_make_ary ferigulan_opened_make_ary (len: u64 = len, len_alias: u64 = len_alias, body: u64 = body, body_alias: u64 = body_alias, text: *const u8 = text.as_ptr(), k: usize = text.len()) One(Handle);
    Call::MakeStructFref(name) => ferigulan_make_struct_fref ferigulan_opened_make_struct_fref (name: u64 = name) One(Handle);
    Call::GetMemPtr(to, nil) => ferigulan_get_mem_ptr ferigulan_opened_get_mem_ptr (to: u64 = to, nil: u64 = nil) One(Handle);
    Call::GetMem(alias, t) => ferigulan_get_mem ferigulan_opened_get_mem (alias: u64 = alias, t: u64 = t) One(Handle);
    Call::Meet(a, b) => ferigulan_meet ferigulan_opened_meet (a: u64 = a, b: u64 = b) One(Handle);
    Call::MeetList(types) => ferigulan_meet_list ferigulan_opened_meet_list (types: *const u64 = types.as_ptr(), k: usize = types.len()) One(Handle);
    Call::Isa(a, b) => ferigulan_isa ferigulan_opened_isa (a: u64 = a, b: u64 = b) One(flag);
    Call::Dual(a) => ferigulan_dual ferigulan_opened_dual (a: u64 = a) One(Handle);
    Call::Join(a, b) => ferigulan_join ferigulan_opened_join (a: u64 = a, b: u64 = b) One(Handle);
    Call::Glb(a) => ferigulan_glb ferigulan_opened_glb (a: u64 = a) One(Handle);
    Call::Lub(a) => ferigulan_lub ferigulan_opened_lub (a: u64 = a) One(Handle);
    Call::IsFinal(a) => ferigulan_is_final ferigulan_opened_is_final (a: u64 = a) One(flag);
    Call::MakeRo(a) => ferigulan_make_ro ferigulan_opened_make_ro (a: u64 = a) One(Handle);
    Call::MakeInit(a) => ferigulan_make_init ferigulan_opened_make_init (a: u64 = a) One(Handle);
    Call::MakeZero(a) => ferigulan_make_zero ferigulan_opened_make_zero (a: u64 = a) One(Handle);
    Call::NonZero(a) => ferigulan_non_zero ferigulan_opened_non_zero (a: u64 = a) One(Handle);
    Call::IsHigh(a) => ferigulan_is_high ferigulan_opened_is_high (a: u64 = a) One(flag);
    Call::IsHighOrConstant(a) => ferigulan_is_high_or_constant ferigulan_opened_is_high_or_constant (a: u64 = a) One(flag);
    Call::IsConstant(a) => ferigulan_is_constant ferigulan_opened_is_constant (a: u64 = a) One(flag);
    Call::IsFref(a) => ferigulan_is_fref ferigulan_opened_is_fref (a: u64 = a) One(flag);
    Call::LogSize(a) => ferigulan_log_size ferigulan_opened_log_size (a: u64 = a) One(Number);
    Call::IntMin(a) => ferigulan_int_min ferigulan_opened_int_min (a: u64 = a) One(signed);
    Call::IntMax(a) => ferigulan_int_max ferigulan_opened_int_max (a: u64 = a) One(signed);
    Call::IntValue(a) => ferigulan_int_value ferigulan_opened_int_value (a: u64 = a, which: *mut u64 = which) Perhaps(signed);
    Call::IntMask(a) => ferigulan_int_mask ferigulan_opened_int_mask (a: u64 = a) One(signed);
    Call::FloatSz(a) => ferigulan_float_sz ferigulan_opened_float_sz (a: u64 = a) One(signed);
    Call::FloatIsF32(a) => ferigulan_float_is_f32 ferigulan_opened_float_is_f32 (a: u64 = a) One(flag);
    Call::FloatValue(a) => ferigulan_float_value ferigulan_opened_float_value (a: u64 = a, which: *mut u64 = which) Perhaps(Reply::Constant);
    Call::FloatReading(a) => ferigulan_float_reading ferigulan_opened_float_reading (a: u64 = a, which: *mut u64 = which) Either(Reply::Constant, size);
    Call::StructName(s) => ferigulan_struct_name ferigulan_opened_struct_name (s: u64 = s) One(Handle);
    Call::StructFields(s) => ferigulan_struct_fields ferigulan_opened_struct_fields (s: u64 = s, output: *mut u64 = output.as_mut_ptr(), k: usize = output.len()) One(Filled);
    Call::Find(s, name) => ferigulan_find ferigulan_opened_find (s: u64 = s, name: u64 = name, which: *mut u64 = which) Perhaps(Number);
    Call::FindAlias(s, alias) => ferigulan_find_alias ferigulan_opened_find_alias (s: u64 = s, alias: u64 = alias, which: *mut u64 = which) Perhaps(Number);
    Call::IsAry(s) => ferigulan_is_ary ferigulan_opened_is_ary (s: u64 = s) One(flag);
    Call::Offset(s, at) => ferigulan_offset ferigulan_opened_offset (s: u64 = s, at: u64 = at) One(Number);
    Call::Offsets(s) => ferigulan_offsets ferigulan_opened_offsets (s: u64 = s, output: *mut u64 = output.as_mut_ptr(), k: usize = output.len()) One(Filled);
    Call::AryBase(s) => ferigulan_ary_base ferigulan_opened_ary_base (s: u64 = s) One(Number);
    Call::AryScale(s) => ferigulan_ary_scale ferigulan_opened_ary_scale (s: u64 = s) One(Number);
}

fn fresh(door: &mut ByC) -> u32 {
    match door {
        // SAFETY: a slice with its length.
        ByC::Plain(words) => unsafe { ferigulan_fresh(words.as_mut_ptr(), words.len()) },
        ByC::Opened(_) => unreachable!("a list is not opened for fresh"),
    }
}

/// There is one function for lent words and opened stores: it reads the words alone.
fn find_entry(words: &[u64], entry: &[u64], told: &Lent) -> u32 {
    // SAFETY: slices with their lengths, which are read, and three words of the cell, which overlap nothing.
    unsafe { ferigulan_find_entry(words.as_ptr(), words.len(), entry.as_ptr(), entry.len(), told.which, told.count, told.answer) }
}

/// Opens a store: 0, or the number of the refusal.
pub fn open(lists: &mut Lists) -> u8 {
    let Lists { words, index, memory } = lists;
    // SAFETY: three slices, each with its own length, which do not overlap since they are borrowed apart.
    let status = unsafe { ferigulan_open(words.as_ptr(), words.len(), index.as_mut_ptr(), index.len(), memory.as_mut_ptr(), memory.len()) };
    u8::try_from(status).unwrap_or(u8::MAX)
}

impl Door for ByC<'_> {
    fn answer(&mut self, call: &Call, output: &mut [u64]) -> Result<Reply, String> {
        let mut cell = Cell::new();
        let (status, shape) = run(self, call, output, &cell.lend());
        cell.reply(status, shape)
    }

    /// There is one function for lent words and opened stores: it reads the words alone.
    fn save(&mut self, label: &[u8], file: &mut [u8]) -> Result<Reply, String> {
        let mut cell = Cell::new();
        let (words, answer) = (self.words(), cell.lend().answer);
        // SAFETY: slices with their lengths, of which the last is written, and a word of the cell, which overlaps nothing.
        let status =
            unsafe { ferigulan_save(words.as_ptr(), words.len(), label.as_ptr(), label.len(), file.as_mut_ptr(), file.len(), answer) };
        cell.reply(status, One(Number))
    }

    fn load(&mut self, file: &[u8]) -> Result<Reply, String> {
        let ByC::Plain(words) = self else { unreachable!("a list is not opened for a load") };
        let mut cell = Cell::new();
        let answer = cell.lend().answer;
        // SAFETY: slices with their lengths, of which the first is written, and a word of the cell, which overlaps nothing.
        let status = unsafe { ferigulan_load(words.as_mut_ptr(), words.len(), file.as_ptr(), file.len(), answer) };
        cell.reply(status, One(Number))
    }

    fn words(&self) -> &[u64] {
        match self {
            ByC::Plain(words) | ByC::Opened(Lists { words, .. }) => words,
        }
    }

    /// Those of an opened store are not to be written: its index and memory would not be theirs any more.
    fn words_mut(&mut self) -> Option<&mut [u64]> {
        match self {
            ByC::Plain(words) => Some(words),
            ByC::Opened(_) => None,
        }
    }
}
