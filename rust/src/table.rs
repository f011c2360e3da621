//! Every call, said once: what it does, what it is lent and answers, the archive's functions, its refusals (but row 1) and an example.
//!
//! `for_every_call!(macro)` hands the whole table to a macro; calls.rs, store.rs, opened_store.rs and sys.rs each make their form of every
//! call from it. An entry is
//!
//! ```text
//! /// What the call does, and what it answers.
//! SHAPE NAME(ARGUMENTS) [with LIST: [ELEMENT]] [into OUTPUT] -> ANSWER
//! = PLAIN FUNCTION, OPENED FUNCTION refuses [REFUSALS] {
//!     /// the lines of the example, in which `store` is a fresh store of 512 words
//! }
//! ```
//!
//! where the shape says how the call is lent the words, and an opened store's index with them, and what it tells:
//!
//! | shape | lent to | tells |
//! |---|---|---|
//! | `make` | write | its answer |
//! | `ask` | read | its answer |
//! | `which` | read | in which of two ways it answers, and its answer |
//! | `fill` | read | how many words of its output it filled |
//!
//! Every call on an opened store is lent the memory to write.
//!
//! The arguments' types are those of `argument!` in word.rs.

/// How a call of this shape borrows the words, or the store that they are.
macro_rules! borrowed {
    (make $lent:ty) => {
        &mut $lent
    };
    ($reads:ident $lent:ty) => {
        &$lent
    };
}

/// The line of a call's documentation that names its refusals.
///
/// It begins with a space, as every line does that a macro passes on from `///`; rustdoc takes off what all lines have in common.
macro_rules! refused_with {
    ($first:ident $($row:ident)*) => {
        concat!(" Refused with ", refused_with!(@link $first) $(, ", ", refused_with!(@link $row))*, ".")
    };
    (@link $row:ident) => {
        concat!("[`", stringify!($row), "`](crate::Refusal::", stringify!($row), ")")
    };
}

/// The line that leads to a call's example.
macro_rules! example_at {
    ($name:ident) => {
        concat!(" An example is at [`Store::", stringify!($name), "`](crate::Store::", stringify!($name), ").")
    };
}

macro_rules! for_every_call {
    ($each:ident) => {
        $each! {
            // ---- the makers

            /// The kind of a type.
            ///
            /// A name is no type: its handle is refused, so that [`Kind::Name`](crate::Kind::Name) is never the answer.
            ask kind(h: Handle) -> Kind
            = ferigulan_kind, ferigulan_opened_kind refuses [NoEntry WrongKind] {
                /// assert_eq!(store.kind(fresh::IF_BOTH)?, Kind::Tuple);
                /// assert_eq!(store.kind(fresh::NAME_TOP), Err(Refusal::WrongKind));
            }

            /// The Int of a truth value: [`INT_ZERO`](crate::fresh::INT_ZERO) for 0 or `false`, [`INT_ONE`](crate::fresh::INT_ONE) for 1 or
            /// `true`.
            ask get_bool(value: Word) -> Handle
            = ferigulan_get_bool, ferigulan_opened_get_bool refuses [BadValue] {
                /// assert_eq!(store.get_bool(true)?, fresh::INT_ONE);
                /// assert_eq!(store.get_bool(2_u64), Err(Refusal::BadValue));
            }

            /// The Int of one value, by its handle.
            make get_int(value: i64) -> Handle
            = ferigulan_get_int, ferigulan_opened_get_int refuses [NoRoom] {
                /// let eight = store.get_int(8)?;
                /// assert_eq!(store.int_value(eight)?, Some(8));
            }

            /// The Int of the numbers from `min` to `max`, by its handle. Where `max` is less than `min` it is a high one.
            make make_int(min: i64, max: i64) -> Handle
            = ferigulan_make_int, ferigulan_opened_make_int refuses [NoRoom] {
                /// assert_eq!(store.make_int(0, 255)?, fresh::INT_U8);
                /// let counter = store.make_int(0, 7)?;
                /// assert_eq!((store.int_min(counter)?, store.int_max(counter)?), (0, 7));
            }

            /// The Float of one constant, by its handle. Constants are told apart by their bits: 0.0 and -0.0 are two, and so are two NaNs.
            make get_float(value: f64) -> Handle
            = ferigulan_get_float, ferigulan_opened_get_float refuses [NoRoom] {
                /// assert_eq!(store.get_float(0.0)?, fresh::FLOAT_ZERO);
                /// assert_ne!(store.get_float(-0.0)?, fresh::FLOAT_ZERO);
            }

            /// The Float of a size and a constant, by its handle. The size is 0 for a constant; else it is 32 or 64, or -32 or -64 for a
            /// high one, and the constant is 0.0.
            make make_float(sz: i64, con: f64) -> Handle
            = ferigulan_make_float, ferigulan_opened_make_float refuses [BadValue NoRoom] {
                /// assert_eq!(store.make_float(32, 0.0)?, fresh::FLOAT_B32);
                /// assert_eq!(store.make_float(32, 0.5), Err(Refusal::BadValue));
                /// assert_eq!(store.make_float(16, 0.0), Err(Refusal::BadValue));
            }

            /// The tuple of these types, at most 255, by its handle.
            make get_tuple() with types: [Handle] -> Handle
            = ferigulan_get_tuple, ferigulan_opened_get_tuple refuses [NoEntry WrongKind TooMany TooDeep NoRoom] {
                /// assert_eq!(store.get_tuple(&[fresh::CTRL, fresh::XCTRL])?, fresh::IF_TRUE);
                /// assert_eq!(store.get_tuple(&[fresh::BOT; 256]), Err(Refusal::TooMany));
            }

            /// The name of these bytes, at most 255, by its handle. Structs and fields are named by such handles.
            make get_str() with name: [u8] -> Handle
            = ferigulan_get_str, ferigulan_opened_get_str refuses [TooMany NoRoom] {
                /// assert_eq!(store.get_str(b"$TOP")?, fresh::NAME_TOP);
                /// let speed = store.get_str(b"speed")?;
                /// assert_eq!(store.get_str(b"speed")?, speed);
            }

            /// The struct of this name and these fields, at most 255, by its handle. A field is four words: its name's handle, its type's,
            /// its alias (at most 4,294,967,295), and 1 if it is final, else 0. [`Field::words`](crate::Field::words) makes such a list.
            make get_struct(name: Handle) with fields: [u64] -> Handle
            = ferigulan_get_struct, ferigulan_opened_get_struct refuses [NoEntry WrongKind BadValue TooMany TooDeep NoRoom] {
                /// let (name, speed) = (store.get_str(b"Ride")?, store.get_str(b"speed")?);
                /// let fields = [Field::new(speed, fresh::INT_U16, 1_u32, false)];
                /// let ride = store.get_struct(name, Field::words(&fields))?;
                /// assert_eq!(store.find(ride, speed)?, Some(0));
                /// assert_eq!(store.get_struct(name, &[0; 3]), Err(Refusal::BadValue));
            }

            /// The array of this length, an Int, and this element type, by its handle: a struct that is named by `text` in brackets (at
            /// most 255 bytes in all), with a final field "#" of type `len` and a field "[]" of type `body` that is not final.
            make make_ary(len: Handle, len_alias: Word, body: Handle, body_alias: Word) with text: [u8] -> Handle
            = ferigulan_make_ary, ferigulan_opened_make_ary refuses [NoEntry WrongKind BadValue TooMany TooDeep BodyWithoutNil NoRoom] {
                /// let bytes = store.make_ary(fresh::INT_U32, 1_u32, fresh::INT_U8, 2_u32, b"u8")?;
                /// assert!(store.is_ary(bytes)?);
                /// assert_eq!(store.struct_name(bytes)?, store.get_str(b"[u8]")?);
                /// let refused = store.make_ary(fresh::INT_U32, 1_u32, fresh::PTR_VOID, 2_u32, b"*void");
                /// assert_eq!(refused, Err(Refusal::BodyWithoutNil));
            }

            /// The forward reference to a struct of this name, by its handle.
            make make_struct_fref(name: Handle) -> Handle
            = ferigulan_make_struct_fref, ferigulan_opened_make_struct_fref refuses [NoEntry WrongKind NoRoom] {
                /// let name = store.get_str(b"Ride")?;
                /// let ride = store.make_struct_fref(name)?;
                /// assert_eq!(store.kind(ride)?, Kind::Fref);
                /// assert_eq!(store.is_ary(ride), Err(Refusal::ForwardReference));
            }

            /// The pointer to this struct or forward reference, by its handle; it may be nil where `nil` is 1 or `true`.
            make get_mem_ptr(to: Handle, nil: Word) -> Handle
            = ferigulan_get_mem_ptr, ferigulan_opened_get_mem_ptr refuses [NoEntry WrongKind BadValue TooDeep NoRoom] {
                /// assert_eq!(store.get_mem_ptr(fresh::STRUCT_TOP, true)?, fresh::PTR_NULL);
                /// assert_eq!(store.get_mem_ptr(fresh::BOT, true), Err(Refusal::WrongKind));
            }

            /// The memory type of this alias (at most 4,294,967,295) and this type, by its handle.
            make get_mem(alias: Word, t: Handle) -> Handle
            = ferigulan_get_mem, ferigulan_opened_get_mem refuses [NoEntry WrongKind BadValue TooDeep NoRoom] {
                /// assert_eq!(store.get_mem(u32::MAX, fresh::BOT)?, fresh::MEM_BOT);
                /// assert_eq!(store.get_mem(1_u64 << 32, fresh::BOT), Err(Refusal::BadValue));
            }

            // ---- the lattice

            /// The merge of two types, by its handle: what is known of a value that is of the one or of the other.
            make meet(a: Handle, b: Handle) -> Handle
            = ferigulan_meet, ferigulan_opened_meet refuses [NoEntry WrongKind NoRoom] {
                /// let (counter, eight) = (store.make_int(0, 7)?, store.get_int(8)?);
                /// assert_eq!(store.meet(counter, eight)?, store.make_int(0, 8)?);
                /// assert_eq!(store.meet(counter, fresh::CTRL)?, fresh::BOT);
            }

            /// The merge of these types, at most 4,096, from left to right, starting at [`TOP`](crate::fresh::TOP), by its handle: each as
            /// [`meet`](crate::Store::meet) makes it, and of no types `TOP`. What is made on the way is appended too.
            ///
            /// All handles are tested first, and a refusal leaves the store as it was before the first merge. Where calls alone have made the
            /// store, lists of the same types give one handle in any order, if these reach no memory type and no forward reference.
            make meet_list() with types: [Handle] -> Handle
            = ferigulan_meet_list, ferigulan_opened_meet_list refuses [ListTooLong NoEntry WrongKind NoRoom] {
                /// let (counter, eight) = (store.make_int(0, 7)?, store.get_int(8)?);
                /// let merged = store.meet_list(&[counter, fresh::INT_TWO, eight])?;
                /// assert_eq!(merged, store.make_int(0, 8)?);
                /// assert_eq!(store.meet_list(&[eight, fresh::INT_TWO, counter, eight])?, merged);
                /// assert_eq!(store.meet_list(&[])?, fresh::TOP);
                /// assert_eq!(store.meet_list(&[counter; 4_097]), Err(Refusal::ListTooLong));
            }

            /// Whether `a` is `b` or above it: whether their merge would be `b`. It makes no entry, and asks for no room.
            ask isa(a: Handle, b: Handle) -> bool
            = ferigulan_isa, ferigulan_opened_isa refuses [NoEntry WrongKind] {
                /// assert!(store.isa(fresh::INT_U8, fresh::INT_I32)?);
                /// assert!(!store.isa(fresh::INT_I32, fresh::INT_U8)?);
            }

            /// The type turned over, by its handle: Bot and Top, Ctrl and XCtrl, $BOT and $TOP, and the ends of Ints change places, the
            /// sizes of Floats change sign, final and nil are negated, down into the parts.
            make dual(a: Handle) -> Handle
            = ferigulan_dual, ferigulan_opened_dual refuses [NoEntry WrongKind NoRoom] {
                /// assert_eq!(store.dual(fresh::PTR_NULL)?, fresh::PTR_VOID);
                /// assert_eq!(store.dual(fresh::INT_BOT)?, fresh::INT_TOP);
            }

            /// The merge from the other side, by its handle: the dual of the meet of the duals. What they need on the way is made too.
            make join(a: Handle, b: Handle) -> Handle
            = ferigulan_join, ferigulan_opened_join refuses [NoEntry WrongKind NoRoom] {
                /// let (a, b) = (store.make_int(0, 7)?, store.make_int(4, 9)?);
                /// assert_eq!(store.join(a, b)?, store.make_int(4, 7)?);
            }

            /// The fixed lower type that the original names so, by its handle: of an Int [`INT_BOT`](crate::fresh::INT_BOT), of a Float
            /// [`FLOAT_BOT`](crate::fresh::FLOAT_BOT), and so on down into the parts.
            make glb(a: Handle) -> Handle
            = ferigulan_glb, ferigulan_opened_glb refuses [NoEntry WrongKind NoRoom] {
                /// assert_eq!(store.glb(fresh::INT_U8)?, fresh::INT_BOT);
                /// assert_eq!(store.glb(fresh::PTR_VOID)?, fresh::PTR_BOT);
            }

            /// The fixed upper type that the original names so, by its handle: of an Int [`INT_TOP`](crate::fresh::INT_TOP), of a Float
            /// [`FLOAT_TOP`](crate::fresh::FLOAT_TOP), of a tuple [`TOP`](crate::fresh::TOP), and so on down into the parts.
            make lub(a: Handle) -> Handle
            = ferigulan_lub, ferigulan_opened_lub refuses [NoEntry WrongKind NoRoom] {
                /// assert_eq!(store.lub(fresh::INT_U8)?, fresh::INT_TOP);
                /// assert_eq!(store.lub(fresh::CTRL)?, fresh::XCTRL);
            }

            /// Whether all fields that are reached from the type, through pointers and fields, are final. Tuples, memory types and forward
            /// references are, whatever they hold.
            ask is_final(a: Handle) -> bool
            = ferigulan_is_final, ferigulan_opened_is_final refuses [NoEntry WrongKind] {
                /// let (name, speed) = (store.get_str(b"Ride")?, store.get_str(b"speed")?);
                /// let fields = [Field::new(speed, fresh::INT_U16, 1_u32, false)];
                /// let ride = store.get_struct(name, Field::words(&fields))?;
                /// assert!(!store.is_final(ride)?);
                /// assert!(store.is_final(fresh::INT_U16)?);
            }

            /// The read-only form of the type, through pointers, by its handle: every field of a struct becomes final, and the type of a
            /// field that was not final is made read-only too; the type of a field that was final stays.
            make make_ro(a: Handle) -> Handle
            = ferigulan_make_ro, ferigulan_opened_make_ro refuses [NoEntry WrongKind NoRoom] {
                /// let (name, speed) = (store.get_str(b"Ride")?, store.get_str(b"speed")?);
                /// let fields = [Field::new(speed, fresh::INT_U16, 1_u32, false)];
                /// let ride = store.get_struct(name, Field::words(&fields))?;
                /// let read_only = store.make_ro(ride)?;
                /// assert!(store.is_final(read_only)?);
            }

            // ---- what is told of a type

            /// The type that a variable of this type begins with, by its handle: the zero of an Int, a Float or a pointer that may be nil,
            /// [`TOP`](crate::fresh::TOP) for a pointer that may not, and else the type itself.
            ask make_init(a: Handle) -> Handle
            = ferigulan_make_init, ferigulan_opened_make_init refuses [NoEntry WrongKind] {
                /// assert_eq!(store.make_init(fresh::INT_U8)?, fresh::INT_ZERO);
                /// assert_eq!(store.make_init(fresh::PTR_VOID)?, fresh::TOP);
            }

            /// The zero of an Int, a Float or a pointer, by its handle: [`INT_ZERO`](crate::fresh::INT_ZERO),
            /// [`FLOAT_ZERO`](crate::fresh::FLOAT_ZERO) or [`PTR_NULL`](crate::fresh::PTR_NULL).
            ask make_zero(a: Handle) -> Handle
            = ferigulan_make_zero, ferigulan_opened_make_zero refuses [NoEntry WrongKind] {
                /// assert_eq!(store.make_zero(fresh::FLOAT_B32)?, fresh::FLOAT_ZERO);
                /// assert_eq!(store.make_zero(fresh::CTRL), Err(Refusal::WrongKind));
            }

            /// The type without its zero, as the original has it, by its handle: an Int that begins or ends with 0 is cut there (0..0 is
            /// 1..1), and any other Int stays; a pointer is [`PTR_VOID`](crate::fresh::PTR_VOID); another type is its
            /// [`glb`](crate::Store::glb).
            make non_zero(a: Handle) -> Handle
            = ferigulan_non_zero, ferigulan_opened_non_zero refuses [NoEntry WrongKind NoRoom] {
                /// let range = store.make_int(-4, 0)?;
                /// assert_eq!(store.non_zero(range)?, store.make_int(-4, -1)?);
                /// assert_eq!(store.non_zero(fresh::PTR_NULL)?, fresh::PTR_VOID);
            }

            /// Whether the type is high: on Top's side of the lattice's centre. Of pointers [`PTR_TOP`](crate::fresh::PTR_TOP) alone is;
            /// tuples, structs and memory types never are.
            ask is_high(a: Handle) -> bool
            = ferigulan_is_high, ferigulan_opened_is_high refuses [NoEntry WrongKind] {
                /// assert!(store.is_high(fresh::INT_TOP)?);
                /// assert!(!store.is_high(fresh::INT_ONE)?);
            }

            /// Whether the type [is high](crate::Store::is_high) or [a constant](crate::Store::is_constant).
            ask is_high_or_constant(a: Handle) -> bool
            = ferigulan_is_high_or_constant, ferigulan_opened_is_high_or_constant refuses [NoEntry WrongKind] {
                /// assert!(store.is_high_or_constant(fresh::INT_ONE)?);
                /// assert!(!store.is_high_or_constant(fresh::INT_BOOL)?);
            }

            /// Whether the type is a constant: an Int or Float of one value, or [`PTR_NULL`](crate::fresh::PTR_NULL).
            ask is_constant(a: Handle) -> bool
            = ferigulan_is_constant, ferigulan_opened_is_constant refuses [NoEntry WrongKind] {
                /// assert!(store.is_constant(fresh::PTR_NULL)?);
                /// assert!(!store.is_constant(fresh::INT_TOP)?);
            }

            /// Whether the type is a forward reference, or a pointer to one.
            ask is_fref(a: Handle) -> bool
            = ferigulan_is_fref, ferigulan_opened_is_fref refuses [NoEntry WrongKind] {
                /// let name = store.get_str(b"Ride")?;
                /// let ride = store.make_struct_fref(name)?;
                /// let pointer = store.get_mem_ptr(ride, false)?;
                /// assert!(store.is_fref(pointer)?);
                /// assert!(!store.is_fref(fresh::PTR_VOID)?);
            }

            /// The log size of the type: 0, 1, 2 or 3 where a field of it takes 1, 2, 4 or 8 bytes.
            ask log_size(a: Handle) -> u64
            = ferigulan_log_size, ferigulan_opened_log_size refuses [NoEntry WrongKind NoLogSize] {
                /// assert_eq!(store.log_size(fresh::INT_U16)?, 1);
                /// let counter = store.make_int(0, 7)?;
                /// assert_eq!(store.log_size(counter), Err(Refusal::NoLogSize));
            }

            // ---- what is told of an Int

            /// The lower end of an Int; of a high one, the larger number.
            ask int_min(a: Handle) -> i64
            = ferigulan_int_min, ferigulan_opened_int_min refuses [NoEntry WrongKind] {
                /// assert_eq!(store.int_min(fresh::INT_I16)?, -32768);
                /// assert_eq!(store.int_min(fresh::FLOAT_ZERO), Err(Refusal::WrongKind));
            }

            /// The upper end of an Int; of a high one, the smaller number.
            ask int_max(a: Handle) -> i64
            = ferigulan_int_max, ferigulan_opened_int_max refuses [NoEntry WrongKind] {
                /// assert_eq!(store.int_max(fresh::INT_I16)?, 32767);
                /// assert_eq!(store.int_max(fresh::INT_TOP)?, i64::MIN);
            }

            /// The value of an Int that is a constant, or `None`.
            which int_value(a: Handle) -> Option<i64>
            = ferigulan_int_value, ferigulan_opened_int_value refuses [NoEntry WrongKind] {
                /// assert_eq!(store.int_value(fresh::INT_TWO)?, Some(2));
                /// assert_eq!(store.int_value(fresh::INT_BOOL)?, None);
            }

            /// The bits that numbers of an Int have: bit k is 1 exactly if some number of the range has bit k. Of a high Int it is 0.
            ask int_mask(a: Handle) -> i64
            = ferigulan_int_mask, ferigulan_opened_int_mask refuses [NoEntry WrongKind] {
                /// let range = store.make_int(16, 18)?;
                /// assert_eq!(store.int_mask(range)?, 0b10011);
                /// assert_eq!(store.int_mask(fresh::INT_TOP)?, 0);
            }

            // ---- what is told of a Float

            /// The size of a Float: 0 of a constant, else 32 or 64, or -32 or -64.
            ask float_sz(a: Handle) -> i8
            = ferigulan_float_sz, ferigulan_opened_float_sz refuses [NoEntry WrongKind] {
                /// assert_eq!(store.float_sz(fresh::FLOAT_TOP)?, -64);
                /// assert_eq!(store.float_sz(fresh::FLOAT_ZERO)?, 0);
            }

            /// Whether a Float's constant is single precision, that is, binary32 holds its value exactly: infinities and both zeros yes,
            /// NaN no. A Float of a size alone has the constant 0.0.
            ask float_is_f32(a: Handle) -> bool
            = ferigulan_float_is_f32, ferigulan_opened_float_is_f32 refuses [NoEntry WrongKind] {
                /// let (half, tenth) = (store.get_float(0.5)?, store.get_float(0.1)?);
                /// assert!(store.float_is_f32(half)?);
                /// assert!(!store.float_is_f32(tenth)?);
            }

            /// The value of a Float that is a constant, with its own bits, or `None`.
            which float_value(a: Handle) -> Option<f64>
            = ferigulan_float_value, ferigulan_opened_float_value refuses [NoEntry WrongKind] {
                /// let half = store.get_float(0.5)?;
                /// assert_eq!(store.float_value(half)?, Some(0.5));
                /// assert_eq!(store.float_value(fresh::FLOAT_B32)?, None);
            }

            /// What a Float says: a constant with its value, or a size alone.
            which float_reading(a: Handle) -> Reading
            = ferigulan_float_reading, ferigulan_opened_float_reading refuses [NoEntry WrongKind] {
                /// assert_eq!(store.float_reading(fresh::FLOAT_ZERO)?, Reading::Constant(0.0));
                /// assert_eq!(store.float_reading(fresh::FLOAT_B32)?, Reading::Sized(32));
            }

            // ---- what is told of a struct

            /// The handle of a struct's name, or of a forward reference's.
            ask struct_name(s: Handle) -> Handle
            = ferigulan_struct_name, ferigulan_opened_struct_name refuses [NoEntry WrongKind] {
                /// assert_eq!(store.struct_name(fresh::STRUCT_TOP)?, fresh::NAME_TOP);
            }

            /// Writes the field list of a struct into `output`, four words a field, and answers how many words that are. Those behind them
            /// keep. [`Field::from_words`](crate::Field::from_words) reads such a list.
            fill struct_fields(s: Handle) into output -> usize
            = ferigulan_struct_fields, ferigulan_opened_struct_fields refuses [NoEntry WrongKind ForwardReference OutputTooShort] {
                /// let bytes = store.make_ary(fresh::INT_U32, 1_u32, fresh::INT_U8, 2_u32, b"u8")?;
                /// let mut output = [7; 10];
                /// let filled = store.struct_fields(bytes, &mut output)?;
                /// let fields = Field::from_words(&output[..filled]);
                /// assert_eq!((fields.len(), fields[1].ty, fields[1].alias), (2, fresh::INT_U8, 2));
                /// assert_eq!(output[8..], [7, 7]);
            }

            /// The number, from 0, of the first field with this name, or `None`. Names are the same where their bytes are.
            which find(s: Handle, name: Handle) -> Option<u64>
            = ferigulan_find, ferigulan_opened_find refuses [NoEntry WrongKind ForwardReference] {
                /// let bytes = store.make_ary(fresh::INT_U32, 1_u32, fresh::INT_U8, 2_u32, b"u8")?;
                /// let body = store.get_str(b"[]")?;
                /// assert_eq!(store.find(bytes, body)?, Some(1));
                /// assert_eq!(store.find(bytes, fresh::NAME_TOP)?, None);
            }

            /// The number, from 0, of the first field with this alias, or `None`.
            which find_alias(s: Handle, alias: Word) -> Option<u64>
            = ferigulan_find_alias, ferigulan_opened_find_alias refuses [NoEntry WrongKind BadValue ForwardReference] {
                /// let bytes = store.make_ary(fresh::INT_U32, 1_u32, fresh::INT_U8, 2_u32, b"u8")?;
                /// assert_eq!(store.find_alias(bytes, 2_u32)?, Some(1));
                /// assert_eq!(store.find_alias(bytes, 3_u32)?, None);
            }

            /// Whether a struct is an array: it has two fields, of which the second is named "[]".
            ask is_ary(s: Handle) -> bool
            = ferigulan_is_ary, ferigulan_opened_is_ary refuses [NoEntry WrongKind ForwardReference] {
                /// let bytes = store.make_ary(fresh::INT_U32, 1_u32, fresh::INT_U8, 2_u32, b"u8")?;
                /// assert!(store.is_ary(bytes)?);
                /// assert!(!store.is_ary(fresh::STRUCT_TOP)?);
            }

            /// The byte at which field `index` of a struct begins; at the field count, the end, which is rounded up to 8. Fields of 8 bytes
            /// come first, then those of 4, 2 and 1, each group in the fields' order.
            ask offset(s: Handle, index: u64) -> u64
            = ferigulan_offset, ferigulan_opened_offset refuses [NoEntry WrongKind ForwardReference IndexTooLarge NoLogSize] {
                /// let bytes = store.make_ary(fresh::INT_U32, 1_u32, fresh::INT_U8, 2_u32, b"u8")?;
                /// assert_eq!((store.offset(bytes, 1)?, store.offset(bytes, 2)?), (4, 8));
                /// assert_eq!(store.offset(bytes, 3), Err(Refusal::IndexTooLarge));
            }

            /// Writes where the fields of a struct begin, and the end, into `output`, a word each, and answers how many words that are.
            /// Those behind them keep. The numbers are those of [`offset`](crate::Store::offset).
            fill offsets(s: Handle) into output -> usize
            = ferigulan_offsets, ferigulan_opened_offsets refuses [NoEntry WrongKind ForwardReference NoLogSize OutputTooShort] {
                /// let bytes = store.make_ary(fresh::INT_U32, 1_u32, fresh::INT_U8, 2_u32, b"u8")?;
                /// let mut output = [7; 4];
                /// assert_eq!(store.offsets(bytes, &mut output)?, 3);
                /// assert_eq!(output, [0, 4, 8, 7]);
                /// assert_eq!(store.offsets(bytes, &mut output[..2]), Err(Refusal::OutputTooShort));
            }

            /// The byte at which an array's elements begin.
            ask ary_base(s: Handle) -> u64
            = ferigulan_ary_base, ferigulan_opened_ary_base refuses [NoEntry WrongKind NoLogSize] {
                /// let bytes = store.make_ary(fresh::INT_U32, 1_u32, fresh::INT_U8, 2_u32, b"u8")?;
                /// assert_eq!(store.ary_base(bytes)?, 4);
                /// assert_eq!(store.ary_base(fresh::STRUCT_TOP), Err(Refusal::WrongKind));
            }

            /// The log size of an array's elements.
            ask ary_scale(s: Handle) -> u64
            = ferigulan_ary_scale, ferigulan_opened_ary_scale refuses [NoEntry WrongKind NoLogSize] {
                /// let shorts = store.make_ary(fresh::INT_U32, 1_u32, fresh::INT_U16, 2_u32, b"u16")?;
                /// assert_eq!(store.ary_scale(shorts)?, 1);
            }
        }
    };
}
