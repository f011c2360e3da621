//! The script language, read as the program `calls` reads it: one call a line, words separated by one space, `;` before a comment.

/// A call as it stands in a script: plain numbers, and a text for those calls that take one.
#[derive(Clone, Debug, PartialEq)]
pub struct Call {
    pub name: &'static str,
    pub numbers: Vec<u64>,
    pub text: Vec<u8>,
}

/// What a line is.
pub enum Line {
    /// A comment, or nothing.
    Empty,
    Call(Call),
    Malformed,
}

/// How a call is written: its name, the least and the largest count of its numbers, whether a text stands behind them.
struct Shape(&'static str, usize, usize, bool);

const ANY: usize = usize::MAX;

const SHAPES: &[Shape] = &[
    // The lent list itself.
    Shape("list", 1, 2, false),
    Shape("fresh", 0, 1, false),
    Shape("poke", 2, 2, false),
    Shape("peek", 1, 1, false),
    Shape("dump", 0, 0, false),
    Shape("dumpall", 0, 0, false),
    Shape("check", 0, 0, false),
    Shape("keep", 0, 0, false),
    Shape("kept", 0, 0, false),
    Shape("open", 0, 0, false),
    Shape("close", 0, 0, false),
    // The search for an entry by its words: document 02, Slip 2.
    Shape("find_entry", 1, ANY, false),
    // The saved catalogue: document 02, Slip 3. The number of `save` is the length of the output, and stands behind the label.
    Shape("save", 1, 1, true),
    Shape("load", 0, 0, true),
    Shape("reload", 0, 0, false),
    Shape("file", 0, 0, false),
    Shape("fpoke", 2, 2, false),
    Shape("fcut", 1, 1, false),
    Shape("fadd", 0, 0, true),
    // The makers.
    Shape("kind", 1, 1, false),
    Shape("get_bool", 1, 1, false),
    Shape("int", 1, 2, false),
    Shape("float", 1, 2, false),
    Shape("tuple", 0, ANY, false),
    Shape("str", 0, 0, true),
    Shape("struct", 1, ANY, false),
    Shape("fref", 1, 1, false),
    Shape("ptr", 2, 2, false),
    Shape("mem", 2, 2, false),
    Shape("ary", 4, 4, true),
    // The lattice.
    Shape("meet", 2, 2, false),
    Shape("isa", 2, 2, false),
    Shape("dual", 1, 1, false),
    Shape("join", 2, 2, false),
    Shape("glb", 1, 1, false),
    Shape("lub", 1, 1, false),
    Shape("is_final", 1, 1, false),
    Shape("make_ro", 1, 1, false),
    // The merge of a list: its handles, or how often one handle stands in it.
    Shape("meet_list", 0, ANY, false),
    Shape("meet_rep", 2, 2, false),
    // The other calls: of types,
    Shape("make_init", 1, 1, false),
    Shape("make_zero", 1, 1, false),
    Shape("non_zero", 1, 1, false),
    Shape("is_high", 1, 1, false),
    Shape("is_high_or_constant", 1, 1, false),
    Shape("is_constant", 1, 1, false),
    Shape("is_fref", 1, 1, false),
    Shape("log_size", 1, 1, false),
    // of Ints,
    Shape("min", 1, 1, false),
    Shape("max", 1, 1, false),
    Shape("value", 1, 1, false),
    Shape("mask", 1, 1, false),
    // of Floats,
    Shape("sz", 1, 1, false),
    Shape("is_f32", 1, 1, false),
    Shape("float_value", 1, 1, false),
    Shape("reading", 1, 1, false),
    // of structs; the second number of `fields` and `offsets` is the length of the output.
    Shape("name", 1, 1, false),
    Shape("fields", 2, 2, false),
    Shape("find", 2, 2, false),
    Shape("find_alias", 2, 2, false),
    Shape("is_ary", 1, 1, false),
    Shape("offset", 2, 2, false),
    Shape("offsets", 2, 2, false),
    Shape("ary_base", 1, 1, false),
    Shape("ary_scale", 1, 1, false),
];

/// The name of a call as these programs know it.
pub fn known_name(name: &str) -> Option<&'static str> {
    SHAPES.iter().find(|shape| shape.0 == name).map(|shape| shape.0)
}

pub fn read_line(line: &str) -> Line {
    let line = without_comment(line);
    if line.is_empty() {
        return Line::Empty;
    }
    match read_call(line) {
        Some(call) => Line::Call(call),
        None => Line::Malformed,
    }
}

/// The line without its comment and the spaces before that. A line without a comment keeps its spaces, and they spoil it.
pub fn without_comment(line: &str) -> &str {
    match line.find(';') {
        Some(at) => line[..at].trim_end_matches(' '),
        None => line,
    }
}

fn read_call(line: &str) -> Option<Call> {
    let (name, rest) = line.split_once(' ').map_or((line, None), |(name, rest)| (name, Some(rest)));
    let Shape(name, least, most, has_text) = SHAPES.iter().find(|shape| shape.0 == name)?;
    let mut words: Vec<&str> = rest.into_iter().flat_map(|rest| rest.split(' ')).collect();
    if has_text_first(name) && words.len() > 1 {
        words.rotate_right(1);
    }
    let mut words = words.into_iter();
    let count = if *has_text { *most } else { ANY };
    let numbers = words.by_ref().take(count).map(read_number).collect::<Option<Vec<_>>>()?;
    let text = match words.next() {
        Some(word) => read_text(word)?,
        None => Vec::new(),
    };
    let fits = *least <= numbers.len() && numbers.len() <= *most && words.next().is_none();
    fits.then_some(Call { name, numbers, text })
}

/// Whether the text of a call stands before its number.
fn has_text_first(name: &str) -> bool {
    name == "save"
}

/// Decimal digits, `-` before them for the two's complement, or `0x` before hex digits.
fn read_number(word: &str) -> Option<u64> {
    if let Some(digits) = word.strip_prefix("0x") {
        return read_digits(digits, 16, 16);
    }
    match word.strip_prefix('-') {
        Some(digits) => {
            let size = read_digits(digits, 10, 20)?;
            (size <= 1 << 63).then_some(size.wrapping_neg())
        }
        None => read_digits(word, 10, 20),
    }
}

fn read_digits(digits: &str, base: u32, most: usize) -> Option<u64> {
    // from_str_radix would take a sign, which the language does not.
    let all_digits = digits.chars().all(|c| c.is_digit(base));
    (all_digits && digits.len() <= most).then(|| u64::from_str_radix(digits, base).ok()).flatten()
}

/// A pair of hex digits for each byte. A word is never empty: the empty text is no word at all.
fn read_text(word: &str) -> Option<Vec<u8>> {
    let digits = word.chars().map(|c| c.to_digit(16)).collect::<Option<Vec<_>>>()?;
    let pairs = !digits.is_empty() && digits.len() % 2 == 0;
    pairs.then(|| digits.chunks(2).map(|pair| (16 * pair[0] + pair[1]) as u8).collect())
}

/// How often a handle stands in a list at most: the program `calls` has room for as many numbers.
const MOST_REPEATED: u64 = 131_072;

impl Call {
    /// The same call with its list written out, where the line says how often one handle stands in it. Nothing where that is too often.
    pub fn written_out(&self) -> Option<Call> {
        match (self.name, &self.numbers[..]) {
            ("meet_rep", [count, _]) if *count > MOST_REPEATED => None,
            ("meet_rep", [count, handle]) => Some(Call { name: "meet_list", numbers: vec![*handle; *count as usize], text: vec![] }),
            _ => Some(self.clone()),
        }
    }

    fn write_numbers(&self, f: &mut std::fmt::Formatter<'_>) -> std::fmt::Result {
        self.numbers.iter().try_for_each(|number| write!(f, " {number}"))
    }

    fn write_text(&self, f: &mut std::fmt::Formatter<'_>) -> std::fmt::Result {
        if !self.text.is_empty() {
            f.write_str(" ")?;
        }
        self.text.iter().try_for_each(|byte| write!(f, "{byte:02x}"))
    }
}

impl std::fmt::Display for Call {
    fn fmt(&self, f: &mut std::fmt::Formatter<'_>) -> std::fmt::Result {
        f.write_str(self.name)?;
        if has_text_first(self.name) {
            self.write_text(f)?;
            return self.write_numbers(f);
        }
        self.write_numbers(f)?;
        self.write_text(f)
    }
}
