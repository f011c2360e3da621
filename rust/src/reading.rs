/// What a Float says: a constant with its value, or a size alone.
#[derive(Clone, Copy, PartialEq, Debug)]
pub enum Reading {
    /// The constant, with its own bits: -0.0 stays -0.0, and a NaN keeps its payload.
    Constant(f64),
    /// The size: 32 or 64, or -32 or -64 of a high Float.
    Sized(i8),
}
