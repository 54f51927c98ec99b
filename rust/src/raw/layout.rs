//! Sizes, alignments and offsets of the public structs, asserted at compile
//! time against include/jespurla_layout.def, which the C side is held to as well.

use core::mem::{align_of, offset_of, size_of};

use super::*;

include!(concat!(env!("OUT_DIR"), "/layout.rs"));
