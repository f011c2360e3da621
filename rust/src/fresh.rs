//! The types of the fresh store, which every store begins with, by the original's names.
//!
//! ```
//! use ferigulan::{fresh, Kind, Store};
//!
//! let mut words = [0; 94];
//! let store = Store::fresh(&mut words)?;
//! assert_eq!(store.kind(fresh::PTR_NULL)?, Kind::MemPtr);
//! assert_eq!((store.int_min(fresh::INT_I8)?, store.int_max(fresh::INT_I8)?), (-128, 127));
//! # Ok::<(), ferigulan::Refusal>(())
//! ```
use crate::Handle;

macro_rules! handles {
    ($($(#[$doc:meta])* $name:ident = $word:literal;)*) => {
        $($(#[$doc])* pub const $name: Handle = Handle::new($word);)*
    };
}

handles! {
    /// The name "$TOP".
    NAME_TOP = 1;
    /// The name "$BOT".
    NAME_BOT = 3;
    /// Bot, below every type.
    BOT = 5;
    /// Top, above every type.
    TOP = 6;
    /// Ctrl: control that is reached.
    CTRL = 7;
    /// XCtrl: control that is not reached.
    XCTRL = 8;
    /// The Int 0..0, which is also the Rust's `int_false`.
    INT_ZERO = 9;
    /// The Int 1..1, which is also the Rust's `int_true`.
    INT_ONE = 12;
    /// The Int 0..1, which is also the Rust's `int_u1`.
    INT_BOOL = 15;
    /// The struct $TOP, without fields.
    STRUCT_TOP = 18;
    /// The struct $BOT, without fields.
    STRUCT_BOT = 20;
    /// The high Int of all, from the largest number to the smallest.
    INT_TOP = 22;
    /// The Int of all numbers.
    INT_BOT = 25;
    /// The Int 2..2.
    INT_TWO = 28;
    /// The Int -128..127.
    INT_I8 = 31;
    /// The Int -32768..32767.
    INT_I16 = 34;
    /// The Int -2147483648..2147483647.
    INT_I32 = 37;
    /// The Int 0..255.
    INT_U8 = 40;
    /// The Int 0..65535.
    INT_U16 = 43;
    /// The Int 0..4294967295.
    INT_U32 = 46;
    /// The Float of size -64.
    FLOAT_TOP = 49;
    /// The Float of size -32.
    FLOAT_T32 = 52;
    /// The Float with the constant 0.0.
    FLOAT_ZERO = 55;
    /// The Float of size 32.
    FLOAT_B32 = 58;
    /// The Float of size 64.
    FLOAT_BOT = 61;
    /// The tuple (Ctrl, Ctrl).
    IF_BOTH = 64;
    /// The tuple (XCtrl, XCtrl).
    IF_NEITHER = 67;
    /// The tuple (Ctrl, XCtrl).
    IF_TRUE = 70;
    /// The tuple (XCtrl, Ctrl).
    IF_FALSE = 73;
    /// The Mem with alias 4294967295 and Top.
    MEM_TOP = 76;
    /// The Mem with alias 4294967295 and Bot.
    MEM_BOT = 79;
    /// The pointer to $BOT, or nil.
    PTR_BOT = 82;
    /// The pointer to $TOP, never nil.
    PTR_TOP = 85;
    /// The pointer to $TOP, or nil: "null".
    PTR_NULL = 88;
    /// The pointer to $BOT, never nil: "void".
    PTR_VOID = 91;
}
