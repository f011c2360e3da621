//! A type in a readable form, off the words. It is for people, and outside what is proved.
use crate::entries::{kind_name, Entry};
use crate::names;
use ferigulan::{fresh, Handle, Kind};

/// A form has at most this many characters, and `..` where even its first level has more.
const LONGEST: usize = 200;

/// One that is not whole has more levels than the first only up to this many characters.
const LONGEST_PARTIAL: usize = 80;

/// No type of a well-formed store is deeper.
const DEEPEST: usize = 32;

/// The form of the entry at a handle: whole if it is short enough, else a few levels of it, and below them the handles of parts, `@94`. The
/// time that it takes is bounded by the length of a form, not by the type, whose parts may be shared.
pub fn readable(words: &[u64], handle: u64) -> String {
    let whole = Form::of(words, handle, DEEPEST, LONGEST);
    if whole.is_whole() {
        return whole.out;
    }
    let mut best = Form::of(words, handle, 1, LONGEST);
    for levels in 2..DEEPEST {
        let next = Form::of(words, handle, levels, LONGEST_PARTIAL);
        if next.is_cut {
            break;
        }
        best = next;
    }
    if best.is_cut {
        best.out.push_str("..");
    }
    best.out
}

struct Form<'a> {
    words: &'a [u64],
    levels: usize,
    out: String,
    /// How many characters there is room for.
    left: usize,
    /// Whether a part is given by its handle alone.
    has_handles: bool,
    /// Whether the room did not suffice.
    is_cut: bool,
}

impl<'a> Form<'a> {
    fn of(words: &'a [u64], handle: u64, levels: usize, room: usize) -> Form<'a> {
        let mut form = Form { words, levels, out: String::new(), left: room, has_handles: false, is_cut: false };
        form.entry(handle, 1);
        form
    }

    fn is_whole(&self) -> bool {
        !self.has_handles && !self.is_cut
    }

    /// Adds a piece, or marks that it does not fit.
    fn put(&mut self, piece: &str) {
        let size = piece.chars().count();
        self.is_cut |= size > self.left;
        if !self.is_cut {
            self.left -= size;
            self.out.push_str(piece);
        }
    }

    /// Adds what stands at a handle, `level` levels down. Each step into a part has put something before, so that a form that is full ends
    /// the walk.
    fn entry(&mut self, handle: u64, level: usize) {
        if self.is_cut {
            return;
        }
        let Some(entry) = Entry::at(self.words, handle) else { return self.put("?") };
        if level > self.levels && has_parts(&entry) {
            self.has_handles = true;
            return self.put(&format!("@{handle}"));
        }
        match entry.kind {
            Kind::Name => self.put(&names::quoted(&entry.bytes(), LONGEST - 4)),
            Kind::Bot | Kind::Top | Kind::Ctrl | Kind::XCtrl => self.put(kind_name(entry.kind)),
            Kind::Int => self.put(&int(entry.words[0] as i64, entry.words[1] as i64)),
            Kind::Float => self.put(&float(entry.words[0], entry.words[1])),
            Kind::Tuple => self.tuple(&entry, level),
            Kind::Struct => self.structure(&entry, level),
            Kind::Fref => {
                self.put("fref ");
                self.name(entry.words[0]);
            }
            Kind::MemPtr => self.pointer(entry.words[0], entry.words[1], level),
            Kind::Mem => {
                self.put(&format!("#{}: ", entry.words[0]));
                self.entry(entry.words[1], level + 1);
            }
        }
    }

    /// Adds a name within a type, as much of it as fits.
    fn name(&mut self, handle: u64) {
        match Entry::at(self.words, handle).filter(|entry| entry.kind == Kind::Name) {
            Some(entry) => self.put(&names::within(&entry.bytes(), LONGEST / 2)),
            None => self.put("?"),
        }
    }

    fn tuple(&mut self, tuple: &Entry, level: usize) {
        self.put("(");
        for (i, handle) in tuple.words.iter().enumerate() {
            self.separate(i);
            self.entry(*handle, level + 1);
            if self.is_cut {
                return;
            }
        }
        self.put(")");
    }

    fn structure(&mut self, structure: &Entry, level: usize) {
        self.name(structure.words[0]);
        if is_fresh(structure) {
            return;
        }
        self.put(" {");
        for (i, field) in structure.fields().enumerate() {
            self.separate(i);
            self.name(field.name);
            self.put(if field.flags % 2 == 1 { ": final " } else { ": " });
            self.entry(field.ty, level + 1);
            if self.is_cut {
                return;
            }
        }
        self.put("}");
    }

    fn separate(&mut self, before: usize) {
        if before > 0 {
            self.put(", ");
        }
    }

    fn pointer(&mut self, to: u64, nil: u64, level: usize) {
        if let Some(name) = pointer_name(to, nil) {
            return self.put(name);
        }
        self.put("*");
        self.entry(to, level + 1);
        if nil == 1 {
            self.put("?");
        }
    }
}

/// Whether the form of an entry goes on into other types.
fn has_parts(entry: &Entry) -> bool {
    match entry.kind {
        Kind::Tuple | Kind::Struct => entry.n > 0,
        Kind::MemPtr => pointer_name(entry.words[0], entry.words[1]).is_none(),
        Kind::Mem => true,
        _ => false,
    }
}

/// The pointers that have a name.
fn pointer_name(to: u64, nil: u64) -> Option<&'static str> {
    match (Handle::new(to), nil) {
        (fresh::STRUCT_TOP, 1) => Some("null"),
        (fresh::STRUCT_BOT, 0) => Some("*void"),
        _ => None,
    }
}

/// Whether a struct is the $TOP or $BOT that rules name, not another one of that name.
fn is_fresh(structure: &Entry) -> bool {
    structure.n == 0 && [fresh::STRUCT_TOP, fresh::STRUCT_BOT].contains(&Handle::new(structure.handle))
}

/// An Int: its name, its number if it is a constant, else its ends; `~` before it where it is high.
fn int(min: i64, max: i64) -> String {
    match (int_name(min, max), int_name(max, min)) {
        (Some(name), _) => name.to_string(),
        (None, Some(name)) => format!("~{name}"),
        (None, None) if min == max => format!("{min}"),
        (None, None) if min > max => format!("~{min}..{max}"),
        (None, None) => format!("{min}..{max}"),
    }
}

fn int_name(min: i64, max: i64) -> Option<&'static str> {
    Some(match (min, max) {
        (i64::MIN, i64::MAX) => "int",
        (0, 1) => "bool",
        (-0x80, 0x7f) => "i8",
        (-0x8000, 0x7fff) => "i16",
        (-0x8000_0000, 0x7fff_ffff) => "i32",
        (0, 0xff) => "u8",
        (0, 0xffff) => "u16",
        (0, 0xffff_ffff) => "u32",
        _ => return None,
    })
}

/// A Float: the size as it is stored, 64 more than it is, and the bits of its constant if that is 0.
fn float(size: u64, bits: u64) -> String {
    match size {
        0 => "~f64".to_string(),
        32 => "~f32".to_string(),
        64 => constant(bits),
        96 => "f32".to_string(),
        128 => "f64".to_string(),
        _ => "?".to_string(),
    }
}

/// A Float's size alone.
pub fn float_size(size: i8) -> String {
    float((i64::from(size) + 64) as u64, 0)
}

/// The constant of a Float, so that other bits give another text.
pub fn constant(bits: u64) -> String {
    let value = f64::from_bits(bits);
    if value.is_nan() && bits != 0x7ff8_0000_0000_0000 {
        return format!("NaN({bits:#x})");
    }
    format!("{value:?}")
}
