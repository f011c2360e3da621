/// The kind of an entry, with document 01's numbers.
///
/// ```
/// use ferigulan::Kind;
///
/// assert_eq!(Kind::Tuple.number(), 7);
/// assert_eq!(Kind::from_number(11), Some(Kind::Mem));
/// assert_eq!(Kind::from_number(12), None);
/// ```
#[repr(u8)]
#[derive(Clone, Copy, PartialEq, Eq, PartialOrd, Ord, Hash, Debug)]
pub enum Kind {
    /// A name: up to 255 bytes. It is no type.
    Name = 0,
    /// Bot.
    Bot = 1,
    /// Top.
    Top = 2,
    /// Ctrl.
    Ctrl = 3,
    /// XCtrl.
    XCtrl = 4,
    /// A range of integers.
    Int = 5,
    /// A float: a constant, or a size.
    Float = 6,
    /// A tuple of up to 255 types.
    Tuple = 7,
    /// A struct of up to 255 fields.
    Struct = 8,
    /// A forward reference to a struct.
    Fref = 9,
    /// A pointer to a struct or to a forward reference.
    MemPtr = 10,
    /// A memory type.
    Mem = 11,
}

impl Kind {
    const ALL: [Kind; 12] = [
        Kind::Name,
        Kind::Bot,
        Kind::Top,
        Kind::Ctrl,
        Kind::XCtrl,
        Kind::Int,
        Kind::Float,
        Kind::Tuple,
        Kind::Struct,
        Kind::Fref,
        Kind::MemPtr,
        Kind::Mem,
    ];

    /// This kind's number.
    pub const fn number(self) -> u64 {
        self as u64
    }

    /// The kind with this number, if it is one of 0 to 11.
    pub const fn from_number(number: u64) -> Option<Kind> {
        if number < Kind::ALL.len() as u64 {
            Some(Kind::ALL[number as usize])
        } else {
            None
        }
    }
}
