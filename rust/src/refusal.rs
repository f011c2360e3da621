use core::error::Error;
use core::fmt;

macro_rules! refusals {
    ($($name:ident = $number:literal, $condition:literal;)*) => {
        /// Why a call is turned back: the rows of document 01's table "Calls turned back", and rows 13 to 15, which document 02 adds.
        ///
        /// The first that applies is given, and only then; they are tested in the order 1, 13, 14, 15, 2, 3 and so on up to 12. A refused
        /// call has changed no word of the store, nor of an output, nor a byte of a file. Displayed, a refusal is that row's condition in
        /// the documents' words.
        ///
        /// ```
        /// use ferigulan::{Refusal, Store};
        ///
        /// let refusal = Store::fresh(&mut [0; 93]).unwrap_err();
        /// assert_eq!(refusal, Refusal::NotWellFormed);
        /// assert_eq!(refusal.number(), 1);
        /// assert_eq!(refusal.to_string(), "store length out of limits, or not well formed");
        /// ```
        #[repr(u8)]
        #[derive(Clone, Copy, PartialEq, Eq, PartialOrd, Ord, Hash, Debug)]
        pub enum Refusal {
            $(#[doc = concat!("Row ", $number, ": ", $condition, ".")] $name = $number,)*
        }

        impl Refusal {
            /// The refusal with this row's number, if it is one of 1 to 15.
            pub const fn from_number(number: u32) -> Option<Refusal> {
                match number {
                    $($number => Some(Refusal::$name),)*
                    _ => None,
                }
            }

            const fn condition(self) -> &'static str {
                match self {
                    $(Refusal::$name => $condition,)*
                }
            }
        }
    };
}

refusals! {
    NotWellFormed = 1, "store length out of limits, or not well formed";
    NoEntry = 2, "handle starts no entry";
    WrongKind = 3, "entry of a kind the call does not take";
    BadValue = 4, "value: float size not 0, ±32, ±64; size not 0 with bits not 0; field list length no multiple of 4; alias over 4,294,967,295; flag not 0 or 1";
    TooMany = 5, "over 255 name bytes, elements or fields";
    TooDeep = 6, "depth over 32";
    ForwardReference = 7, "fields wanted of a forward reference";
    IndexTooLarge = 8, "offset index above the field count";
    NoLogSize = 9, "no log size";
    BodyWithoutNil = 10, "array body a pointer without nil";
    OutputTooShort = 11, "output shorter than the answer";
    NoRoom = 12, "the entries to append do not fit";
    ListTooLong = 13, "list over 4,096 handles";
    BadTrailer = 14, "trailer missing or not fitting the length";
    BadWords = 15, "words that behind the fresh ones form no store of any allowed length, or one with two equal entries";
}

impl Refusal {
    /// The row's number, from 1 to 15.
    pub const fn number(self) -> u8 {
        self as u8
    }
}

impl fmt::Display for Refusal {
    fn fmt(&self, f: &mut fmt::Formatter<'_>) -> fmt::Result {
        f.pad(self.condition())
    }
}

impl Error for Refusal {}
