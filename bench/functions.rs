// The functions of the archive, one line each: plain, opened, and those of an old archive, whose names have `old_` before them.
use crate::calls::{Call, Form, Lent};
#[cfg(opened)]
use crate::open_store::Open;

pub type Plain = fn(&mut [u64], &Call, &mut Lent) -> u32;

pub struct Function {
    // in the library, without `ferigulan_`, and in scripts
    pub name: &'static str,
    pub script: &'static str,
    // how many numbers it takes before a list or a text
    pub numbers: usize,
    #[cfg_attr(not(opened), allow(dead_code))]
    pub form: Form,
    pub plain: Plain,
    #[cfg(old)]
    pub old: Option<Plain>,
    #[cfg(opened)]
    pub opened: fn(&mut Open, &Call, &mut Lent) -> u32,
}

// What stands behind `yes`, or nothing.
#[cfg(old)]
macro_rules! only {
    (yes: $value:expr) => {
        Some($value)
    };
    (no: $value:expr) => {
        None
    };
    (yes $item:item) => {
        $item
    };
    (no $item:item) => {};
}

// The functions of an old archive. They return 0 or a refusal's number; or, with `one_word`, one word, the answer, or 2 to the 63 and the refusal's number.
#[cfg(old)]
macro_rules! of_old {
    ($($name:ident($($arg:ident: $t:ty),*);)*) => {
        #[cfg(not(one_word))]
        extern "C" { $(#[link_name = concat!("old_ferigulan_", stringify!($name))] pub fn $name($($arg: $t,)* answer: &mut u64) -> u32;)* }

        #[cfg(one_word)]
        mod linked {
            extern "C" { $(#[link_name = concat!("old_ferigulan_", stringify!($name))] pub fn $name($($arg: $t),*) -> u64;)* }
        }
        $(#[cfg(one_word)]
        pub unsafe fn $name($($arg: $t,)* answer: &mut u64) -> u32 {
            use crate::calls::REFUSED;
            let word = linked::$name($($arg),*);
            if word >= REFUSED {
                return (word - REFUSED) as u32;
            }
            *answer = word;
            0
        })*
    };
}

// Each line: the name in the library and in scripts, how many numbers there are, the form of the answer, the words; then what the function is lent between the words and `answer`, by
// the names that stand before. First, whether an old archive has them too.
macro_rules! functions {
    ($old:ident ($a:ident $b:ident $c:ident $d:ident $list:ident $text:ident $lent:ident)
     $($name:ident $script:literal $numbers:literal $form:ident $words:ty: ($($arg:ident: $t:ty = $value:expr),*);)*) => {
        mod plain {
            extern "C" {
                $(#[link_name = concat!("ferigulan_", stringify!($name))]
                pub fn $name(words: $words, n: usize, $($arg: $t,)* answer: &mut u64) -> u32;)*
            }
        }
        #[cfg(opened)]
        mod opened {
            extern "C" {
                $(#[link_name = concat!("ferigulan_opened_", stringify!($name))]
                pub fn $name(words: $words, n: usize, index: $words, m: usize, memory: *mut u64, k: usize, $($arg: $t,)* answer: &mut u64) -> u32;)*
            }
        }
        #[cfg(old)]
        only! { $old mod old { of_old! { $($name(words: $words, n: usize, $($arg: $t),*);)* } } }

        $(#[allow(non_upper_case_globals, unused_variables)]
        pub static $name: Function = Function {
            name: stringify!($name),
            script: $script,
            numbers: $numbers,
            form: Form::$form,
            plain: |w, Call { numbers: [$a, $b, $c, $d], list: $list, text: $text, .. }, $lent| unsafe {
                plain::$name(w.as_mut_ptr(), w.len(), $($value,)* &mut $lent.answer)
            },
            #[cfg(old)]
            old: only!($old: |w, Call { numbers: [$a, $b, $c, $d], list: $list, text: $text, .. }, $lent| unsafe {
                old::$name(w.as_mut_ptr(), w.len(), $($value,)* &mut $lent.answer)
            }),
            #[cfg(opened)]
            opened: |s, Call { numbers: [$a, $b, $c, $d], list: $list, text: $text, .. }, $lent| unsafe {
                let (w, i, k) = (&mut s.words, &mut s.index, &mut s.memory);
                opened::$name(w.as_mut_ptr(), w.len(), i.as_mut_ptr(), i.len(), k.as_mut_ptr(), k.len(), $($value,)* &mut $lent.answer)
            },
        };)*
    };
}

mod first {
    use super::*;
    functions! {
        yes (a b c d list text lent)
        kind "kind" 1 Number *const u64: (h: u64 = *a);
        get_bool "get_bool" 1 Number *const u64: (value: u64 = *a);
        make_int "int" 2 Number *mut u64: (min: u64 = *a, max: u64 = *b);
        make_float "float" 2 Number *mut u64: (size: u64 = *a, bits: u64 = *b);
        get_tuple "tuple" 0 Number *mut u64: (types: *const u64 = list.as_ptr(), len: usize = list.len());
        get_str "str" 0 Number *mut u64: (text: *const u8 = text.as_ptr(), len: usize = text.len());
        get_struct "struct" 1 Number *mut u64: (name: u64 = *a, fields: *const u64 = list.as_ptr(), len: usize = list.len());
        make_struct_fref "fref" 1 Number *mut u64: (name: u64 = *a);
        get_mem_ptr "ptr" 2 Number *mut u64: (to: u64 = *a, nil: u64 = *b);
        get_mem "mem" 2 Number *mut u64: (alias: u64 = *a, t: u64 = *b);
        make_ary "ary" 4 Number *mut u64: (of: u64 = *a, of_alias: u64 = *b, body: u64 = *c, body_alias: u64 = *d, text: *const u8 = text.as_ptr(), len: usize = text.len());
        meet "meet" 2 Number *mut u64: (x: u64 = *a, y: u64 = *b);
        isa "isa" 2 Number *const u64: (x: u64 = *a, y: u64 = *b);
        join "join" 2 Number *mut u64: (x: u64 = *a, y: u64 = *b);
        dual "dual" 1 Number *mut u64: (x: u64 = *a);
        glb "glb" 1 Number *mut u64: (x: u64 = *a);
        lub "lub" 1 Number *mut u64: (x: u64 = *a);
        is_final "is_final" 1 Number *const u64: (x: u64 = *a);
        make_ro "make_ro" 1 Number *mut u64: (x: u64 = *a);
    }
}

#[cfg(told)]
#[cfg_attr(not(lists), allow(dead_code))]
mod others {
    use super::*;
    functions! {
        no (a b c d list text lent)
        get_int "int" 1 Number *mut u64: (value: u64 = *a);
        get_float "float" 1 Number *mut u64: (bits: u64 = *a);
        make_init "make_init" 1 Number *const u64: (h: u64 = *a);
        make_zero "make_zero" 1 Number *const u64: (h: u64 = *a);
        non_zero "non_zero" 1 Number *mut u64: (h: u64 = *a);
        is_high "is_high" 1 Number *const u64: (h: u64 = *a);
        is_high_or_constant "is_high_or_constant" 1 Number *const u64: (h: u64 = *a);
        is_constant "is_constant" 1 Number *const u64: (h: u64 = *a);
        is_fref "is_fref" 1 Number *const u64: (h: u64 = *a);
        log_size "log_size" 1 Number *const u64: (h: u64 = *a);
        int_min "min" 1 Signed *const u64: (h: u64 = *a);
        int_max "max" 1 Signed *const u64: (h: u64 = *a);
        int_value "value" 1 SignedOrAbsent *const u64: (h: u64 = *a, which: &mut u64 = &mut lent.which);
        int_mask "mask" 1 Signed *const u64: (h: u64 = *a);
        float_sz "sz" 1 Signed *const u64: (h: u64 = *a);
        float_is_f32 "is_f32" 1 Number *const u64: (h: u64 = *a);
        float_value "float_value" 1 NumberOrAbsent *const u64: (h: u64 = *a, which: &mut u64 = &mut lent.which);
        float_reading "reading" 1 Reading *const u64: (h: u64 = *a, which: &mut u64 = &mut lent.which);
        struct_name "name" 1 Number *const u64: (s: u64 = *a);
        struct_fields "fields" 2 Filled *const u64: (s: u64 = *a, output: *mut u64 = lent.output[..*b as usize].as_mut_ptr(), k: usize = *b as usize);
        find "find" 2 NumberOrAbsent *const u64: (s: u64 = *a, name: u64 = *b, which: &mut u64 = &mut lent.which);
        find_alias "find_alias" 2 NumberOrAbsent *const u64: (s: u64 = *a, alias: u64 = *b, which: &mut u64 = &mut lent.which);
        is_ary "is_ary" 1 Number *const u64: (s: u64 = *a);
        offset "offset" 2 Number *const u64: (s: u64 = *a, i: u64 = *b);
        offsets "offsets" 2 Filled *const u64: (s: u64 = *a, output: *mut u64 = lent.output[..*b as usize].as_mut_ptr(), k: usize = *b as usize);
        ary_base "ary_base" 1 Number *const u64: (s: u64 = *a);
        ary_scale "ary_scale" 1 Number *const u64: (s: u64 = *a);
    }
}

#[cfg(lists)]
mod lists {
    use super::*;
    functions! {
        no (a b c d list text lent)
        meet_list "meet_list" 0 Number *mut u64: (types: *const u64 = list.as_ptr(), len: usize = list.len());
    }
}

pub mod of {
    pub use super::first::*;
    #[cfg(lists)]
    pub use super::lists::*;
    #[cfg(told)]
    pub use super::others::*;
}

// The calls of the lattice: on two types, or on one.
pub static OPERATIONS: [&Function; 8] = [&of::meet, &of::isa, &of::join, &of::dual, &of::glb, &of::lub, &of::is_final, &of::make_ro];
