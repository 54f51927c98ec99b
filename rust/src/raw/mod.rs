//! The calls with numbers and structs as C has them, behind safe functions.
//!
//! This is what the rest of the crate stands on. It takes every number, listed or not, and hands
//! back each answer as the library gives it: a struct whose first field is the refusal, 0 for none.
//! Slices stand for pointers with lengths, and references for lent zones. `include/jespurla.h` has
//! the rule of each call.
//!
//! A call that takes a zone by value wants 256 KiB of stack; those whose names end in `_lent` copy
//! no zone. Structs that can be compared with `==` here are compared field by field, whether the
//! library looks at a field or not. Zones can't: [`zone_same`] says whether two mean the same.

#[allow(unsafe_code)]
mod calls;
mod job;
mod layout;
mod lease;
mod moment;
mod name_option;
mod query;
mod server_list;
mod zone;

pub use calls::*;
pub use job::*;
pub use lease::*;
pub use moment::{Moment, Span};
pub use name_option::*;
pub use query::*;
pub use server_list::*;
pub use zone::*;
