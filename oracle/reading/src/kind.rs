//! The kinds of the store's table, and sets of them: what a call takes.

pub const NAME: u8 = 0;
pub const BOT: u8 = 1;
pub const TOP: u8 = 2;
pub const CTRL: u8 = 3;
pub const XCTRL: u8 = 4;
pub const INT: u8 = 5;
pub const FLOAT: u8 = 6;
pub const TUPLE: u8 = 7;
pub const STRUCT: u8 = 8;
pub const FREF: u8 = 9;
pub const MEM_PTR: u8 = 10;
pub const MEM: u8 = 11;

/// Stands where no entry starts. It is in no set of kinds.
pub const NO_ENTRY: u8 = 15;

/// A set of kinds: bit k is 1 where kind k is in it.
#[derive(Clone, Copy)]
pub struct Kinds(u16);

impl Kinds {
    pub const NAMES: Kinds = Kinds(1 << NAME);
    /// "Calls on types take kinds 1 to 11, unless said otherwise."
    pub const TYPES: Kinds = Kinds(0b1111_1111_1110);
    pub const INTS: Kinds = Kinds(1 << INT);
    pub const FLOATS: Kinds = Kinds(1 << FLOAT);
    /// Structs and forward references: "take 8 and 9".
    pub const STRUCTS: Kinds = Kinds(1 << STRUCT | 1 << FREF);
    /// Structs that have fields: what an array is among.
    pub const WITH_FIELDS: Kinds = Kinds(1 << STRUCT);
    /// "`make_zero` (Int, Float, pointer; else 3)".
    pub const WITH_ZERO: Kinds = Kinds(1 << INT | 1 << FLOAT | 1 << MEM_PTR);

    pub fn has(self, kind: u8) -> bool {
        self.0 >> kind & 1 == 1
    }
}
