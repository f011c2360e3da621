//! type_float.rs: a float's size and constant, its reading, single precision, and what a Float is asked.

use crate::entry::Handle;
use crate::fresh;
use crate::kind::Kinds;
use crate::refusals::{take, Refusal};
use crate::store::Store;
use crate::types::Type;

#[derive(Clone, Copy)]
pub struct Float {
    pub sz: i64,
    pub bits: u64,
}

/// "A reading of a float is a constant with its value, or a size alone."
#[derive(Clone, Copy)]
pub enum Reading {
    Constant(u64),
    Sized(i64),
}

impl Float {
    pub fn reading(self) -> Reading {
        match self.sz {
            0 => Reading::Constant(self.bits),
            sz => Reading::Sized(sz),
        }
    }

    /// Of a size alone the Rust asks the constant beside it, which is 0.0.
    pub fn is_f32(self) -> bool {
        is_single(self.bits)
    }
}

/// "A constant (size 0) is single precision if binary32 holds its value exactly: infinities and both zeros yes, NaN no."
fn is_single(bits: u64) -> bool {
    let fraction = bits & ((1 << 52) - 1);
    let exponent = (bits >> 52 & 0x7ff) as i64;
    match exponent {
        // An infinity or a NaN; a zero or a subnormal, which lies far below 2 to the -149, the least that binary32 holds.
        0x7ff | 0 => fraction == 0,
        // From 2 to the 128 on there is none but infinity.
        _ if exponent - 1_023 > 127 => false,
        // 1.fraction times 2 to the `power`. Its last bit is worth 2 to the (power - 52); binary32 has 23 bits of fraction, none of them
        // worth less than 2 to the -149. The bits in between have to be 0.
        _ => {
            let power = exponent - 1_023;
            let between = (power - 23).max(-149) - (power - 52);
            (fraction | 1 << 52).trailing_zeros() as i64 >= between
        }
    }
}

/// "Floats (answers 64 and 32 are handles 61 and 58): .."
pub fn meet((a, f): (Handle, Float), (b, g): (Handle, Float)) -> Handle {
    use Reading::{Constant, Sized};
    match (f.reading(), g.reading()) {
        // "64 with any is 64"
        (Sized(64), _) | (_, Sized(64)) => fresh::FLOAT_BOT,
        // "-64 yields"; "two floats of one negative size give the first handle"
        (_, Sized(-64)) => a,
        (Sized(-64), _) => b,
        // "32 with a constant not single is 64, with all else 32"
        (Sized(32), Constant(c)) | (Constant(c), Sized(32)) if !is_single(c) => fresh::FLOAT_BOT,
        (Sized(32), _) | (_, Sized(32)) => fresh::FLOAT_B32,
        // No size is left but -32: two of them, again the first.
        (Sized(_), Sized(_)) => a,
        // "-32 with a single constant is the constant, with another 64"
        (Constant(c), Sized(_)) if is_single(c) => a,
        (Sized(_), Constant(c)) if is_single(c) => b,
        (Constant(_), Sized(_)) | (Sized(_), Constant(_)) => fresh::FLOAT_BOT,
        // "two constants are 32 if both single, else 64"
        (Constant(c), Constant(d)) if is_single(c) && is_single(d) => fresh::FLOAT_B32,
        (Constant(_), Constant(_)) => fresh::FLOAT_BOT,
    }
}

/// A Float that is asked for something: rows 2 and 3.
pub fn asked(store: &Store, a: Handle) -> Result<Float, Refusal> {
    take(store, [(a, Kinds::FLOATS)])?;
    match store.ty(a) {
        Type::Float(f) => Ok(f),
        _ => Err(3),
    }
}

#[cfg(test)]
mod tests {
    use super::is_single;

    fn held_by_binary32(bits: u64) -> bool {
        let value = f64::from_bits(bits);
        value as f32 as f64 == value
    }

    #[test]
    fn is_single_is_the_cast_there_and_back() {
        let mut fractions: Vec<u64> = (0..=52).flat_map(|k| [1 << k, (1 << k) - 1, !((1 << k) - 1), 1 << k | 1 << 51]).collect();
        fractions.extend((0..2_000u64).map(|i| i.wrapping_mul(0x9e37_79b9_7f4a_7c15) >> (i % 40)));
        let mut singles = 0;
        for exponent in 0..0x800u64 {
            for fraction in &fractions {
                for sign in [0, 1 << 63] {
                    let bits = sign | exponent << 52 | fraction & ((1 << 52) - 1);
                    assert_eq!(is_single(bits), held_by_binary32(bits), "{bits:#x}");
                    singles += u32::from(is_single(bits));
                }
            }
        }
        assert!(singles > 10_000);
    }

    #[test]
    fn the_least_single_is_two_to_the_minus_149() {
        assert!(is_single(2f64.powi(-149).to_bits()));
        assert!(!is_single(2f64.powi(-150).to_bits()));
        assert!(is_single(f64::from(f32::MAX).to_bits()));
        assert!(!is_single(2f64.powi(128).to_bits()));
        assert!(is_single(f64::NEG_INFINITY.to_bits()) && is_single((-0.0f64).to_bits()));
        assert!(!is_single(f64::NAN.to_bits()) && !is_single(0.1f64.to_bits()));
    }
}
