//! The fresh store, and the handles of its entries under the names that the original Rust has for them.

use crate::entry::{self, head, Handle};
use crate::kind::{self, NO_ENTRY};
use crate::row_one;

pub const BOT: Handle = 5;
pub const TOP: Handle = 6;
pub const CTRL: Handle = 7;
pub const XCTRL: Handle = 8;
pub const INT_ZERO: Handle = 9;
pub const INT_TRUE: Handle = 12;
pub const INT_BOOL: Handle = 15;
pub const STRUCT_TOP: Handle = 18;
pub const STRUCT_BOT: Handle = 20;
pub const INT_TOP: Handle = 22;
pub const INT_BOT: Handle = 25;
pub const INT_I8: Handle = 31;
pub const INT_I16: Handle = 34;
pub const INT_I32: Handle = 37;
pub const INT_U8: Handle = 40;
pub const INT_U16: Handle = 43;
pub const INT_U32: Handle = 46;
pub const FLOAT_TOP: Handle = 49;
pub const FLOAT_ZERO: Handle = 55;
pub const FLOAT_B32: Handle = 58;
pub const FLOAT_BOT: Handle = 61;
pub const MEM_TOP: Handle = 76;
pub const MEM_BOT: Handle = 79;
pub const PTR_TOP: Handle = 85;
pub const PTR_NULL: Handle = 88;
pub const PTR_VOID: Handle = 91;

/// An alias is 32 bits; the largest is also the alias that different ones meet at.
pub const LARGEST_ALIAS: u64 = 4_294_967_295;

const NAME_OF_FOUR: u64 = head(kind::NAME, 0, 4);
const INT: u64 = head(kind::INT, 1, 0);
const STRUCT: u64 = head(kind::STRUCT, 1, 0);
const FLOAT: u64 = head(kind::FLOAT, 1, 0);
const PAIR: u64 = head(kind::TUPLE, 2, 2);
const MEM: u64 = head(kind::MEM, 2, 0);
const PTR: u64 = head(kind::MEM_PTR, 2, 0);
const SMALLEST: u64 = 1 << 63;
const LARGEST: u64 = SMALLEST - 1;

/// "Fresh, 94 words, entries at: ..". Word 0, the number of words used, and then the entries from word 1 on.
#[rustfmt::skip]
pub const WORDS: [u64; 94] = [
    94,
    // 1 "$TOP"; 3 "$BOT"
    NAME_OF_FOUR, u64::from_le_bytes(*b"$TOP\0\0\0\0"), NAME_OF_FOUR, u64::from_le_bytes(*b"$BOT\0\0\0\0"),
    // 5 to 8 Bot, Top, Ctrl, XCtrl
    head(kind::BOT, 1, 0), head(kind::TOP, 1, 0), head(kind::CTRL, 1, 0), head(kind::XCTRL, 1, 0),
    // Ints 9 0..0, 12 1..1, 15 0..1
    INT, 0, 0, INT, 1, 1, INT, 0, 1,
    // structs without fields 18 $TOP, 20 $BOT
    STRUCT, 1, STRUCT, 3,
    // Ints 22 top (largest..smallest), 25 bot (smallest..largest), 28 2..2
    INT, LARGEST, SMALLEST, INT, SMALLEST, LARGEST, INT, 2, 2,
    // 31 i8, 34 i16, 37 i32
    INT, -128i64 as u64, 127, INT, -32_768i64 as u64, 32_767, INT, -2_147_483_648i64 as u64, 2_147_483_647,
    // 40 u8, 43 u16, 46 u32
    INT, 0, 255, INT, 0, 65_535, INT, 0, 4_294_967_295,
    // Floats of size 49 -64, 52 -32, 55 0 (constant 0.0), 58 32, 61 64: sz + 64, bits
    FLOAT, 0, 0, FLOAT, 32, 0, FLOAT, 64, 0, FLOAT, 96, 0, FLOAT, 128, 0,
    // tuples 64 (Ctrl, Ctrl), 67 (XCtrl, XCtrl), 70 (Ctrl, XCtrl), 73 (XCtrl, Ctrl)
    PAIR, CTRL, CTRL, PAIR, XCTRL, XCTRL, PAIR, CTRL, XCTRL, PAIR, XCTRL, CTRL,
    // Mem with alias 4,294,967,295: 76 Top, 79 Bot
    MEM, LARGEST_ALIAS, TOP, MEM, LARGEST_ALIAS, BOT,
    // pointers 82 ($BOT, nil), 85 ($TOP, not nil), 88 ($TOP, nil), 91 ($BOT, not nil)
    PTR, STRUCT_BOT, 1, PTR, STRUCT_TOP, 0, PTR, STRUCT_TOP, 1, PTR, STRUCT_BOT, 0,
];

/// Where the entries start, and of which kinds they are.
pub const KINDS: [u8; 94] = {
    let mut kinds = [NO_ENTRY; 94];
    let mut at = 1;
    while at < WORDS.len() {
        kinds[at] = entry::kind(WORDS[at]);
        at += entry::length(WORDS[at]);
    }
    kinds
};

/// "One call writes a fresh store into a lent list and zeroes the rest". False, and no word changed, where the length is out of limits.
pub fn write(words: &mut [u64]) -> bool {
    if !row_one::length_is_right(words) {
        return false;
    }
    let (store, rest) = words.split_at_mut(WORDS.len());
    store.copy_from_slice(&WORDS);
    rest.fill(0);
    true
}
