//! A store's words as entries, read here on any words whatever, for showing alone: no call depends on it.
use ferigulan::Kind;

/// The most that a head may count: bytes of a name, elements, fields.
pub const MOST: u64 = 255;

/// What a head word says.
#[derive(Clone, Copy)]
pub struct Head {
    pub kind: u64,
    pub depth: u64,
    pub n: u64,
}

impl Head {
    pub fn of(word: u64) -> Head {
        Head { kind: word % 256, depth: word / 256 % 256, n: word / 65_536 }
    }
}

/// An entry whose head says where it ends.
#[derive(Clone, Copy)]
pub struct Entry<'a> {
    pub handle: u64,
    pub kind: Kind,
    pub depth: u64,
    pub n: u64,
    /// The words after the head.
    pub words: &'a [u64],
}

/// A field as it stands in an entry.
pub struct Field {
    pub name: u64,
    pub ty: u64,
    /// 2 × alias + final
    pub flags: u64,
}

/// How many words an entry has after its head, if `n` is one that a head may have there.
pub fn words_after(kind: Kind, n: u64) -> Option<usize> {
    let n = usize::try_from(n).ok().filter(|n| *n <= MOST as usize || !counts(kind))?;
    Some(match kind {
        Kind::Name => n.div_ceil(8),
        Kind::Bot | Kind::Top | Kind::Ctrl | Kind::XCtrl => 0,
        Kind::Int | Kind::Float | Kind::MemPtr | Kind::Mem => 2,
        Kind::Tuple => n,
        Kind::Struct => 1 + 3 * n,
        Kind::Fref => 1,
    })
}

/// Whether the head of this kind counts something.
pub fn counts(kind: Kind) -> bool {
    matches!(kind, Kind::Name | Kind::Tuple | Kind::Struct)
}

impl<'a> Entry<'a> {
    /// The entry at a handle, if a kind stands there and its words are there.
    pub fn at(words: &'a [u64], handle: u64) -> Option<Entry<'a>> {
        let start = usize::try_from(handle).ok()?;
        let head = Head::of(*words.get(start)?);
        let kind = Kind::from_number(head.kind)?;
        let size = words_after(kind, head.n)?;
        let words = words[start + 1..].get(..size)?;
        Some(Entry { handle, kind, depth: head.depth, n: head.n, words })
    }

    /// The bytes of a name.
    pub fn bytes(&self) -> Vec<u8> {
        self.words.iter().flat_map(|word| word.to_le_bytes()).take(self.n as usize).collect()
    }

    /// The fields of a struct.
    pub fn fields(&self) -> impl Iterator<Item = Field> + 'a {
        let words = if self.kind == Kind::Struct { &self.words[1..] } else { &[] };
        words.chunks_exact(3).map(|field| Field { name: field[0], ty: field[1], flags: field[2] })
    }

    /// Which words after the head are handles of names.
    pub fn names(&self) -> Vec<usize> {
        match self.kind {
            Kind::Struct => std::iter::once(0).chain((1..self.words.len()).step_by(3)).collect(),
            Kind::Fref => vec![0],
            _ => Vec::new(),
        }
    }

    /// Which words after the head are handles of types.
    pub fn types(&self) -> Vec<usize> {
        match self.kind {
            Kind::Tuple => (0..self.words.len()).collect(),
            Kind::Struct => (2..self.words.len()).step_by(3).collect(),
            Kind::MemPtr => vec![0],
            Kind::Mem => vec![1],
            _ => Vec::new(),
        }
    }

    /// Which words after the head are handles.
    pub fn parts(&self) -> Vec<usize> {
        [self.names(), self.types()].concat()
    }
}

/// What an entry of this kind is called.
pub fn kind_name(kind: Kind) -> &'static str {
    match kind {
        Kind::Name => "name",
        Kind::Bot => "Bot",
        Kind::Top => "Top",
        Kind::Ctrl => "Ctrl",
        Kind::XCtrl => "XCtrl",
        Kind::Int => "Int",
        Kind::Float => "Float",
        Kind::Tuple => "Tuple",
        Kind::Struct => "Struct",
        Kind::Fref => "Fref",
        Kind::MemPtr => "MemPtr",
        Kind::Mem => "Mem",
    }
}
