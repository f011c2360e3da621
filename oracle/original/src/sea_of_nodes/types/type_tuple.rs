//! Ours, from document 01: "a tuple is a list of types".
use crate::sea_of_nodes::types::Ty;

pub type Tuple<'t> = &'t [Ty<'t>];
