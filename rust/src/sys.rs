//! The boundary to the archive: its functions as they are declared for C, and a safe function over each. All `unsafe` code of the library
//! is here.
//!
//! What the archive's functions ask of a caller (README.md, "Linking") is seen to as follows.
//! - Pointers are valid and aligned for their lengths during the call: each comes from a slice or a local variable that lives through it,
//!   with the slice's own length. That of an empty slice is aligned and not null, which is all that a length of 0 asks for.
//! - What is lent as `*mut` overlaps nothing else that is lent: it comes from a `&mut` slice, or is a local variable. A shared borrow is
//!   lent as `*const` alone, to functions that are proved not to write there.
//! - No two threads write a list at a time, nor does one write and another read: the borrows are held through the call. Several may read.
//! - An opened store's lists are as `ferigulan_open` left them, but for what opened calls wrote: see [`OpenedLists`].
//! - Where there is too little stack, the guard page ends the process, as for Rust's own functions: the archive's touch the pages of their
//!   frames one after the other, so that none is passed over (tests/stack.rs).
//! - The declarations are the archive's: tests/declarations.rs compares them with its source and its symbols.
#![allow(unsafe_code)]
use crate::{Field, Handle, Refusal};

// One line a function, so that they can be compared with the header and the archive's source.
#[rustfmt::skip]
extern "C" {
    fn ferigulan_well_formed(words: *const u64, n: usize) -> bool;
    fn ferigulan_find_entry(words: *const u64, n: usize, entry: *const u64, k: usize, which: *mut u64, count: *mut u64, answer: *mut u64) -> u32;
    fn ferigulan_fresh(words: *mut u64, n: usize) -> u32;
    fn ferigulan_save(words: *const u64, n: usize, label: *const u8, k: usize, file: *mut u8, m: usize, answer: *mut u64) -> u32;
    fn ferigulan_load(words: *mut u64, n: usize, file: *const u8, m: usize, answer: *mut u64) -> u32;
    fn ferigulan_kind(words: *const u64, n: usize, h: u64, answer: *mut u64) -> u32;
    fn ferigulan_get_bool(words: *const u64, n: usize, value: u64, answer: *mut u64) -> u32;
    fn ferigulan_get_int(words: *mut u64, n: usize, value: u64, answer: *mut u64) -> u32;
    fn ferigulan_make_int(words: *mut u64, n: usize, min: u64, max: u64, answer: *mut u64) -> u32;
    fn ferigulan_get_float(words: *mut u64, n: usize, bits: u64, answer: *mut u64) -> u32;
    fn ferigulan_make_float(words: *mut u64, n: usize, sz: u64, bits: u64, answer: *mut u64) -> u32;
    fn ferigulan_get_tuple(words: *mut u64, n: usize, types: *const u64, k: usize, answer: *mut u64) -> u32;
    fn ferigulan_get_str(words: *mut u64, n: usize, name: *const u8, k: usize, answer: *mut u64) -> u32;
    fn ferigulan_get_struct(words: *mut u64, n: usize, name: u64, fields: *const u64, k: usize, answer: *mut u64) -> u32;
    fn ferigulan_make_ary(words: *mut u64, n: usize, len: u64, len_alias: u64, body: u64, body_alias: u64, text: *const u8, k: usize, answer: *mut u64) -> u32;
    fn ferigulan_make_struct_fref(words: *mut u64, n: usize, name: u64, answer: *mut u64) -> u32;
    fn ferigulan_get_mem_ptr(words: *mut u64, n: usize, to: u64, nil: u64, answer: *mut u64) -> u32;
    fn ferigulan_get_mem(words: *mut u64, n: usize, alias: u64, t: u64, answer: *mut u64) -> u32;
    fn ferigulan_meet(words: *mut u64, n: usize, a: u64, b: u64, answer: *mut u64) -> u32;
    fn ferigulan_meet_list(words: *mut u64, n: usize, types: *const u64, k: usize, answer: *mut u64) -> u32;
    fn ferigulan_isa(words: *const u64, n: usize, a: u64, b: u64, answer: *mut u64) -> u32;
    fn ferigulan_dual(words: *mut u64, n: usize, a: u64, answer: *mut u64) -> u32;
    fn ferigulan_join(words: *mut u64, n: usize, a: u64, b: u64, answer: *mut u64) -> u32;
    fn ferigulan_glb(words: *mut u64, n: usize, a: u64, answer: *mut u64) -> u32;
    fn ferigulan_lub(words: *mut u64, n: usize, a: u64, answer: *mut u64) -> u32;
    fn ferigulan_is_final(words: *const u64, n: usize, a: u64, answer: *mut u64) -> u32;
    fn ferigulan_make_ro(words: *mut u64, n: usize, a: u64, answer: *mut u64) -> u32;
    fn ferigulan_make_init(words: *const u64, n: usize, a: u64, answer: *mut u64) -> u32;
    fn ferigulan_make_zero(words: *const u64, n: usize, a: u64, answer: *mut u64) -> u32;
    fn ferigulan_non_zero(words: *mut u64, n: usize, a: u64, answer: *mut u64) -> u32;
    fn ferigulan_is_high(words: *const u64, n: usize, a: u64, answer: *mut u64) -> u32;
    fn ferigulan_is_high_or_constant(words: *const u64, n: usize, a: u64, answer: *mut u64) -> u32;
    fn ferigulan_is_constant(words: *const u64, n: usize, a: u64, answer: *mut u64) -> u32;
    fn ferigulan_is_fref(words: *const u64, n: usize, a: u64, answer: *mut u64) -> u32;
    fn ferigulan_log_size(words: *const u64, n: usize, a: u64, answer: *mut u64) -> u32;
    fn ferigulan_int_min(words: *const u64, n: usize, a: u64, answer: *mut u64) -> u32;
    fn ferigulan_int_max(words: *const u64, n: usize, a: u64, answer: *mut u64) -> u32;
    fn ferigulan_int_value(words: *const u64, n: usize, a: u64, which: *mut u64, answer: *mut u64) -> u32;
    fn ferigulan_int_mask(words: *const u64, n: usize, a: u64, answer: *mut u64) -> u32;
    fn ferigulan_float_sz(words: *const u64, n: usize, a: u64, answer: *mut u64) -> u32;
    fn ferigulan_float_is_f32(words: *const u64, n: usize, a: u64, answer: *mut u64) -> u32;
    fn ferigulan_float_value(words: *const u64, n: usize, a: u64, which: *mut u64, answer: *mut u64) -> u32;
    fn ferigulan_float_reading(words: *const u64, n: usize, a: u64, which: *mut u64, answer: *mut u64) -> u32;
    fn ferigulan_struct_name(words: *const u64, n: usize, s: u64, answer: *mut u64) -> u32;
    fn ferigulan_struct_fields(words: *const u64, n: usize, s: u64, output: *mut u64, k: usize, answer: *mut u64) -> u32;
    fn ferigulan_find(words: *const u64, n: usize, s: u64, name: u64, which: *mut u64, answer: *mut u64) -> u32;
    fn ferigulan_find_alias(words: *const u64, n: usize, s: u64, alias: u64, which: *mut u64, answer: *mut u64) -> u32;
    fn ferigulan_is_ary(words: *const u64, n: usize, s: u64, answer: *mut u64) -> u32;
    fn ferigulan_offset(words: *const u64, n: usize, s: u64, at: u64, answer: *mut u64) -> u32;
    fn ferigulan_offsets(words: *const u64, n: usize, s: u64, output: *mut u64, k: usize, answer: *mut u64) -> u32;
    fn ferigulan_ary_base(words: *const u64, n: usize, s: u64, answer: *mut u64) -> u32;
    fn ferigulan_ary_scale(words: *const u64, n: usize, s: u64, answer: *mut u64) -> u32;
}

#[rustfmt::skip]
extern "C" {
    fn ferigulan_open(words: *const u64, n: usize, index: *mut u64, i: usize, memory: *mut u64, m: usize) -> u32;
    fn ferigulan_opened_kind(words: *const u64, n: usize, index: *const u64, i: usize, memory: *mut u64, m: usize, h: u64, answer: *mut u64) -> u32;
    fn ferigulan_opened_get_bool(words: *const u64, n: usize, index: *const u64, i: usize, memory: *mut u64, m: usize, value: u64, answer: *mut u64) -> u32;
    fn ferigulan_opened_get_int(words: *mut u64, n: usize, index: *mut u64, i: usize, memory: *mut u64, m: usize, value: u64, answer: *mut u64) -> u32;
    fn ferigulan_opened_make_int(words: *mut u64, n: usize, index: *mut u64, i: usize, memory: *mut u64, m: usize, min: u64, max: u64, answer: *mut u64) -> u32;
    fn ferigulan_opened_get_float(words: *mut u64, n: usize, index: *mut u64, i: usize, memory: *mut u64, m: usize, bits: u64, answer: *mut u64) -> u32;
    fn ferigulan_opened_make_float(words: *mut u64, n: usize, index: *mut u64, i: usize, memory: *mut u64, m: usize, sz: u64, bits: u64, answer: *mut u64) -> u32;
    fn ferigulan_opened_get_tuple(words: *mut u64, n: usize, index: *mut u64, i: usize, memory: *mut u64, m: usize, types: *const u64, k: usize, answer: *mut u64) -> u32;
    fn ferigulan_opened_get_str(words: *mut u64, n: usize, index: *mut u64, i: usize, memory: *mut u64, m: usize, name: *const u8, k: usize, answer: *mut u64) -> u32;
    fn ferigulan_opened_get_struct(words: *mut u64, n: usize, index: *mut u64, i: usize, memory: *mut u64, m: usize, name: u64, fields: *const u64, k: usize, answer: *mut u64) -> u32;
    fn ferigulan_opened_make_ary(words: *mut u64, n: usize, index: *mut u64, i: usize, memory: *mut u64, m: usize, len: u64, len_alias: u64, body: u64, body_alias: u64, text: *const u8, k: usize, answer: *mut u64) -> u32;
    fn ferigulan_opened_make_struct_fref(words: *mut u64, n: usize, index: *mut u64, i: usize, memory: *mut u64, m: usize, name: u64, answer: *mut u64) -> u32;
    fn ferigulan_opened_get_mem_ptr(words: *mut u64, n: usize, index: *mut u64, i: usize, memory: *mut u64, m: usize, to: u64, nil: u64, answer: *mut u64) -> u32;
    fn ferigulan_opened_get_mem(words: *mut u64, n: usize, index: *mut u64, i: usize, memory: *mut u64, m: usize, alias: u64, t: u64, answer: *mut u64) -> u32;
    fn ferigulan_opened_meet(words: *mut u64, n: usize, index: *mut u64, i: usize, memory: *mut u64, m: usize, a: u64, b: u64, answer: *mut u64) -> u32;
    fn ferigulan_opened_meet_list(words: *mut u64, n: usize, index: *mut u64, i: usize, memory: *mut u64, m: usize, types: *const u64, k: usize, answer: *mut u64) -> u32;
    fn ferigulan_opened_isa(words: *const u64, n: usize, index: *const u64, i: usize, memory: *mut u64, m: usize, a: u64, b: u64, answer: *mut u64) -> u32;
    fn ferigulan_opened_dual(words: *mut u64, n: usize, index: *mut u64, i: usize, memory: *mut u64, m: usize, a: u64, answer: *mut u64) -> u32;
    fn ferigulan_opened_join(words: *mut u64, n: usize, index: *mut u64, i: usize, memory: *mut u64, m: usize, a: u64, b: u64, answer: *mut u64) -> u32;
    fn ferigulan_opened_glb(words: *mut u64, n: usize, index: *mut u64, i: usize, memory: *mut u64, m: usize, a: u64, answer: *mut u64) -> u32;
    fn ferigulan_opened_lub(words: *mut u64, n: usize, index: *mut u64, i: usize, memory: *mut u64, m: usize, a: u64, answer: *mut u64) -> u32;
    fn ferigulan_opened_is_final(words: *const u64, n: usize, index: *const u64, i: usize, memory: *mut u64, m: usize, a: u64, answer: *mut u64) -> u32;
    fn ferigulan_opened_make_ro(words: *mut u64, n: usize, index: *mut u64, i: usize, memory: *mut u64, m: usize, a: u64, answer: *mut u64) -> u32;
    fn ferigulan_opened_make_init(words: *const u64, n: usize, index: *const u64, i: usize, memory: *mut u64, m: usize, a: u64, answer: *mut u64) -> u32;
    fn ferigulan_opened_make_zero(words: *const u64, n: usize, index: *const u64, i: usize, memory: *mut u64, m: usize, a: u64, answer: *mut u64) -> u32;
    fn ferigulan_opened_non_zero(words: *mut u64, n: usize, index: *mut u64, i: usize, memory: *mut u64, m: usize, a: u64, answer: *mut u64) -> u32;
    fn ferigulan_opened_is_high(words: *const u64, n: usize, index: *const u64, i: usize, memory: *mut u64, m: usize, a: u64, answer: *mut u64) -> u32;
    fn ferigulan_opened_is_high_or_constant(words: *const u64, n: usize, index: *const u64, i: usize, memory: *mut u64, m: usize, a: u64, answer: *mut u64) -> u32;
    fn ferigulan_opened_is_constant(words: *const u64, n: usize, index: *const u64, i: usize, memory: *mut u64, m: usize, a: u64, answer: *mut u64) -> u32;
    fn ferigulan_opened_is_fref(words: *const u64, n: usize, index: *const u64, i: usize, memory: *mut u64, m: usize, a: u64, answer: *mut u64) -> u32;
    fn ferigulan_opened_log_size(words: *const u64, n: usize, index: *const u64, i: usize, memory: *mut u64, m: usize, a: u64, answer: *mut u64) -> u32;
    fn ferigulan_opened_int_min(words: *const u64, n: usize, index: *const u64, i: usize, memory: *mut u64, m: usize, a: u64, answer: *mut u64) -> u32;
    fn ferigulan_opened_int_max(words: *const u64, n: usize, index: *const u64, i: usize, memory: *mut u64, m: usize, a: u64, answer: *mut u64) -> u32;
    fn ferigulan_opened_int_value(words: *const u64, n: usize, index: *const u64, i: usize, memory: *mut u64, m: usize, a: u64, which: *mut u64, answer: *mut u64) -> u32;
    fn ferigulan_opened_int_mask(words: *const u64, n: usize, index: *const u64, i: usize, memory: *mut u64, m: usize, a: u64, answer: *mut u64) -> u32;
    fn ferigulan_opened_float_sz(words: *const u64, n: usize, index: *const u64, i: usize, memory: *mut u64, m: usize, a: u64, answer: *mut u64) -> u32;
    fn ferigulan_opened_float_is_f32(words: *const u64, n: usize, index: *const u64, i: usize, memory: *mut u64, m: usize, a: u64, answer: *mut u64) -> u32;
    fn ferigulan_opened_float_value(words: *const u64, n: usize, index: *const u64, i: usize, memory: *mut u64, m: usize, a: u64, which: *mut u64, answer: *mut u64) -> u32;
    fn ferigulan_opened_float_reading(words: *const u64, n: usize, index: *const u64, i: usize, memory: *mut u64, m: usize, a: u64, which: *mut u64, answer: *mut u64) -> u32;
    fn ferigulan_opened_struct_name(words: *const u64, n: usize, index: *const u64, i: usize, memory: *mut u64, m: usize, s: u64, answer: *mut u64) -> u32;
    fn ferigulan_opened_struct_fields(words: *const u64, n: usize, index: *const u64, i: usize, memory: *mut u64, m: usize, s: u64, output: *mut u64, k: usize, answer: *mut u64) -> u32;
    fn ferigulan_opened_find(words: *const u64, n: usize, index: *const u64, i: usize, memory: *mut u64, m: usize, s: u64, name: u64, which: *mut u64, answer: *mut u64) -> u32;
    fn ferigulan_opened_find_alias(words: *const u64, n: usize, index: *const u64, i: usize, memory: *mut u64, m: usize, s: u64, alias: u64, which: *mut u64, answer: *mut u64) -> u32;
    fn ferigulan_opened_is_ary(words: *const u64, n: usize, index: *const u64, i: usize, memory: *mut u64, m: usize, s: u64, answer: *mut u64) -> u32;
    fn ferigulan_opened_offset(words: *const u64, n: usize, index: *const u64, i: usize, memory: *mut u64, m: usize, s: u64, at: u64, answer: *mut u64) -> u32;
    fn ferigulan_opened_offsets(words: *const u64, n: usize, index: *const u64, i: usize, memory: *mut u64, m: usize, s: u64, output: *mut u64, k: usize, answer: *mut u64) -> u32;
    fn ferigulan_opened_ary_base(words: *const u64, n: usize, index: *const u64, i: usize, memory: *mut u64, m: usize, s: u64, answer: *mut u64) -> u32;
    fn ferigulan_opened_ary_scale(words: *const u64, n: usize, index: *const u64, i: usize, memory: *mut u64, m: usize, s: u64, answer: *mut u64) -> u32;
}

/// `told` if the status that a function returned is 0, else the refusal that it is the number of.
#[inline]
fn accepted<T>(status: u32, told: T) -> Result<T, Refusal> {
    match status {
        0 => Ok(told),
        _ => Err(Refusal::from_number(status).unwrap_or_else(|| unknown(status))),
    }
}

// The archive is proved to return 0 to 15: only one that is not this crate's can do otherwise.
#[cold]
fn unknown(status: u32) -> ! {
    panic!("the archive returned {status}, which is no refusal: it is not the one that this crate was made for")
}

// ---- slices as they are lent

/// The pointer that a slice is lent as. Each kind of element has its own type in C, so that the compiler compares it with the declaration.
trait Lent {
    type Pointer;
    fn pointer(&self) -> Self::Pointer;
}

impl Lent for [u64] {
    type Pointer = *const u64;
    fn pointer(&self) -> *const u64 {
        self.as_ptr()
    }
}

impl Lent for [u8] {
    type Pointer = *const u8;
    fn pointer(&self) -> *const u8 {
        self.as_ptr()
    }
}

impl Lent for [Handle] {
    type Pointer = *const u64;
    // a handle is `repr(transparent)` over a word
    fn pointer(&self) -> *const u64 {
        self.as_ptr().cast()
    }
}

pub(crate) fn words_of(fields: &[Field]) -> &[u64] {
    let length = fields.len() * Field::WORDS;
    // SAFETY: a field is `repr(C)` with four members that are words, so n fields are 4n words without padding; the length in bytes is the
    // same, and the words are borrowed as long as the fields.
    unsafe { core::slice::from_raw_parts(fields.as_ptr().cast(), length) }
}

pub(crate) fn fields_of(words: &[u64]) -> &[Field] {
    let length = words.len() / Field::WORDS;
    // SAFETY: as above; any four words are a field, and a field is aligned as a word is. The length in bytes is at most that of the words.
    unsafe { core::slice::from_raw_parts(words.as_ptr().cast(), length) }
}

// ---- the functions that are no calls of the table

pub(crate) fn well_formed(words: &[u64]) -> bool {
    // SAFETY: the words are a slice, borrowed through the call, which only reads them.
    unsafe { ferigulan_well_formed(words.as_ptr(), words.len()) }
}

/// What the words `which`, `count` and `answer` hold afterwards.
pub(crate) fn find_entry(words: &[u64], entry: &[u64]) -> Result<(u64, u64, u64), Refusal> {
    let (mut which, mut count, mut answer) = (0, 0, 0);
    // SAFETY: two slices, borrowed through the call, which only reads them, and three local variables.
    let status =
        unsafe { ferigulan_find_entry(words.as_ptr(), words.len(), entry.as_ptr(), entry.len(), &mut which, &mut count, &mut answer) };
    accepted(status, (which, count, answer))
}

pub(crate) fn fresh(words: &mut [u64]) -> Result<(), Refusal> {
    // SAFETY: the words are a slice, borrowed for writing through the call.
    let status = unsafe { ferigulan_fresh(words.as_mut_ptr(), words.len()) };
    accepted(status, ())
}

/// How many bytes the file has.
pub(crate) fn save(words: &[u64], label: &[u8], file: &mut [u8]) -> Result<u64, Refusal> {
    let mut answer = 0;
    // SAFETY: two slices, borrowed through the call, which only reads them, one that is borrowed for writing, and a local variable.
    let status =
        unsafe { ferigulan_save(words.as_ptr(), words.len(), label.as_ptr(), label.len(), file.as_mut_ptr(), file.len(), &mut answer) };
    accepted(status, answer)
}

/// How many bytes the label has.
pub(crate) fn load(words: &mut [u64], file: &[u8]) -> Result<u64, Refusal> {
    let mut answer = 0;
    // SAFETY: a slice, borrowed for writing through the call, one that it only reads, and a local variable.
    let status = unsafe { ferigulan_load(words.as_mut_ptr(), words.len(), file.as_ptr(), file.len(), &mut answer) };
    accepted(status, answer)
}

// ---- opened stores

/// The three lists of an opened store.
///
/// Its members are private to this module, [`open`] alone makes it, and the functions of [`opened`] alone write its lists. So the lists are
/// open whenever a caller has one: it holds the only borrows of them for writing, and hands out no more than the words to read.
pub(crate) struct OpenedLists<'s> {
    words: &'s mut [u64],
    index: &'s mut [u64],
    memory: &'s mut [u64],
}

impl OpenedLists<'_> {
    pub(crate) fn words(&self) -> &[u64] {
        self.words
    }
}

pub(crate) fn open<'s>(words: &'s mut [u64], index: &'s mut [u64], memory: &'s mut [u64]) -> Result<OpenedLists<'s>, Refusal> {
    // SAFETY: three slices, of which two are written and are borrowed for that; so they do not overlap.
    let status = unsafe { ferigulan_open(words.as_ptr(), words.len(), index.as_mut_ptr(), index.len(), memory.as_mut_ptr(), memory.len()) };
    accepted(status, OpenedLists { words, index, memory })
}

// ---- every call, plain and opened

/// The safe function `$name` over the archive's `$function`: `$lent` are the lists of the store with how they are lent, `$told` the words
/// that the function writes its answer to.
macro_rules! safe {
    ($function:ident is $name:ident, lends $lists:ident: $borrow:ty = ($($lent:expr),*), tells ($($told:ident),+),
     ($($arg:ident: $kind:ident),*) ($($list:ident: [$element:ty])?) ($($output:ident)?)) => {
        #[inline]
        pub(crate) fn $name(
            $lists: $borrow, $($arg: u64,)* $($list: &[$element],)? $($output: &mut [u64],)?
        ) -> Result<safe!(@type $($told),+), Refusal> {
            $(let mut $told = 0;)+
            // SAFETY: every pointer is that of a borrowed slice with its length, or of a local variable. What is lent as `*mut` is borrowed
            // for writing or local, so it overlaps nothing else that is lent. The lists of `OpenedLists` are open.
            let status = unsafe {
                super::$function(
                    $($lent,)* $($arg,)* $($list.pointer(), $list.len(),)? $($output.as_mut_ptr(), $output.len(),)? $(&mut $told),+
                )
            };
            accepted(status, ($($told),+))
        }
    };
    (@type answer) => { u64 };
    (@type which, answer) => { (u64, u64) };
}

/// Hands a call to `$form!`, `plain` or `opened`, with what its shape says (table.rs): whether the words are lent to write or to read, and
/// the words that it tells its answer with.
macro_rules! by_shape {
    ($form:ident make $($call:tt)*) => { $form!(write (answer) $($call)*); };
    ($form:ident ask $($call:tt)*) => { $form!(read (answer) $($call)*); };
    ($form:ident which $($call:tt)*) => { $form!(read (which, answer) $($call)*); };
    ($form:ident fill $($call:tt)*) => { $form!(read (answer) $($call)*); };
}

macro_rules! plain {
    (write $told:tt $function:ident $name:ident $($rest:tt)*) => {
        safe!($function is $name, lends words: &mut [u64] = (words.as_mut_ptr(), words.len()), tells $told, $($rest)*);
    };
    (read $told:tt $function:ident $name:ident $($rest:tt)*) => {
        safe!($function is $name, lends words: &[u64] = (words.as_ptr(), words.len()), tells $told, $($rest)*);
    };
}

/// The index is lent as the words are, the memory always to write.
macro_rules! opened {
    (write $($call:tt)*) => { opened!(as_mut_ptr $($call)*); };
    (read $($call:tt)*) => { opened!(as_ptr $($call)*); };
    ($pointer:ident $told:tt $function:ident $name:ident $($rest:tt)*) => {
        safe!($function is $name, lends lists: &mut OpenedLists<'_> =
            (lists.words.$pointer(), lists.words.len(), lists.index.$pointer(), lists.index.len(),
             lists.memory.as_mut_ptr(), lists.memory.len()),
            tells $told, $($rest)*);
    };
}

macro_rules! safe_calls {
    ($(
        $(#[$doc:meta])*
        $shape:ident $name:ident $args:tt $(with $list:ident: $slice:tt)? $(into $output:ident)? -> $answer:ty
        = $plain:ident, $opened:ident refuses $rows:tt $example:tt
    )*) => {
        pub(crate) mod plain {
            use super::*;
            $(by_shape!(plain $shape $plain $name $args ($($list: $slice)?) ($($output)?));)*
        }
        pub(crate) mod opened {
            use super::*;
            $(by_shape!(opened $shape $opened $name $args ($($list: $slice)?) ($($output)?));)*
        }
    };
}

for_every_call!(safe_calls);
