//! Ours, from document 01: "`Mem` is a 32-bit `alias` and a type `t`".
use crate::sea_of_nodes::types::Ty;

#[derive(Eq, PartialEq, Copy, Clone, Hash, Debug)]
pub struct Mem<'t> {
    pub alias: u32,
    pub t: Ty<'t>,
}
