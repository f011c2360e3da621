//! The original type lattice as a crate of its own. Its eight files come unchanged from the folder given to build.sh; the modules
//! around them, and the three small types that were not handed over, are ours.
pub mod datastructures;
pub mod sea_of_nodes;
