//! What is read off a type's entry.

use crate::entry::{kind, n, name_words, Handle};
use crate::float::Float;
use crate::kind;
use crate::store::Store;

/// A type by its kind. The elements of a tuple and the fields of a struct are read one by one. `Struct` is of kinds 8 and 9: `n` is None
/// for a forward reference.
#[derive(Clone, Copy)]
pub enum Type {
    Bot,
    Top,
    Ctrl,
    XCtrl,
    Int { min: i64, max: i64 },
    Float(Float),
    Tuple { n: usize },
    Struct { n: Option<usize> },
    MemPtr { to: Handle, nil: bool },
    Mem { alias: u64, t: Handle },
}

#[derive(Clone, Copy)]
pub struct Field {
    pub fname: Handle,
    pub ty: Handle,
    pub alias: u64,
    pub final_field: bool,
}

impl Store<'_> {
    pub fn ty(&self, a: Handle) -> Type {
        let entry = self.entry(a);
        match kind(entry[0]) {
            kind::BOT => Type::Bot,
            kind::TOP => Type::Top,
            kind::CTRL => Type::Ctrl,
            kind::XCTRL => Type::XCtrl,
            kind::INT => Type::Int { min: entry[1] as i64, max: entry[2] as i64 },
            kind::FLOAT => Type::Float(Float { sz: entry[1] as i64 - 64, bits: entry[2] }),
            kind::TUPLE => Type::Tuple { n: n(entry[0]) },
            kind::STRUCT => Type::Struct { n: Some(n(entry[0])) },
            kind::FREF => Type::Struct { n: None },
            kind::MEM_PTR => Type::MemPtr { to: entry[1], nil: entry[2] == 1 },
            kind::MEM => Type::Mem { alias: entry[1], t: entry[2] },
            other => unreachable!("no type is of kind {other}"),
        }
    }

    /// Element `i` of a tuple.
    pub fn element(&self, tuple: Handle, i: usize) -> Handle {
        self.entry(tuple)[1 + i]
    }

    /// The name handle of a struct or forward reference.
    pub fn name(&self, s: Handle) -> Handle {
        self.entry(s)[1]
    }

    /// Field `i` of a struct: "field name, type, 2 × alias + final".
    pub fn field(&self, s: Handle, i: usize) -> Field {
        let words = &self.entry(s)[2 + 3 * i..];
        Field { fname: words[0], ty: words[1], alias: words[2] / 2, final_field: words[2] % 2 == 1 }
    }

    /// "Two names are the same where their bytes are": the fill is zero, so that equal bytes are equal words.
    pub fn same_name(&self, a: Handle, b: Handle) -> bool {
        self.entry(a) == self.entry(b)
    }

    pub fn name_is(&self, name: Handle, bytes: &[u8]) -> bool {
        n(self.entry(name)[0]) == bytes.len() && self.entry(name)[1..] == name_words(bytes)
    }
}
