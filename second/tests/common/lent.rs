//! Memory that is lent to both programs, and the zones that are lent to the
//! product.

use std::array;
use std::hint::black_box;
use std::mem;
use std::ptr;
use std::slice;

use jespurla::raw::{Entry, Zone};

use super::random::Random;

/// Octets around every lent part that nobody may touch.
const GUARD: usize = 16;

/// The memory as it is after a call. The compiler may take it that what was
/// lent to be read has not been written; here it has to look.
pub fn afresh<T: ?Sized>(memory: &T) -> &T {
    black_box(memory)
}

/// The octets of a zone or of a place of it.
fn octets<T: OfOctets>(whole: &T) -> &[u8] {
    // SAFETY: the struct is made of octets alone, without gaps.
    unsafe { slice::from_raw_parts(ptr::from_ref(whole).cast(), mem::size_of::<T>()) }
}

/// The structs that are made of octets alone.
pub trait OfOctets {}
impl OfOctets for Entry {}
impl OfOctets for Zone {}

/// Whether two of them are alike to the last octet.
pub fn is_same<T: OfOctets>(left: &T, right: &T) -> bool {
    octets(afresh(left)) == octets(afresh(right))
}

/// How many places of a zone have an octet that is not as it was.
pub fn places_written(before: &Zone, after: &Zone) -> usize {
    let places = before.entries.iter().zip(&afresh(after).entries);
    let written = places.filter(|(before, after)| octets(*before) != octets(*after));
    written.count()
}

/// Two memories of N lent parts each, between guards.
pub struct Memory<const N: usize> {
    lengths: [usize; N],
    second: Vec<u8>,
    product: Vec<u8>,
}

impl<const N: usize> Memory<N> {
    pub fn new() -> Memory<N> {
        Memory {
            lengths: [0; N],
            second: Vec::new(),
            product: Vec::new(),
        }
    }

    /// Lays out both alike: random octets, and in the first parts those that
    /// are given.
    pub fn lay_out(&mut self, random: &mut Random, lengths: [usize; N], given: &[&[u8]]) {
        self.lengths = lengths;
        let lent: usize = lengths.iter().sum();
        self.second.resize(lent + (N + 1) * GUARD, 0);
        random.fill(&mut self.second);
        for (part, octets) in self.second().into_iter().zip(given) {
            part.copy_from_slice(octets);
        }
        self.product.clone_from(&self.second);
    }

    /// What the second program is lent.
    pub fn second(&mut self) -> [&mut [u8]; N] {
        parts(&mut self.second, self.lengths)
    }

    /// What the product is lent.
    pub fn product(&mut self) -> [&mut [u8]; N] {
        parts(&mut self.product, self.lengths)
    }

    /// Whether both are alike to the last octet, guards included.
    pub fn is_alike(&self) -> bool {
        self.second == *afresh(&self.product)
    }
}

/// The parts of a memory, each between guards.
fn parts<const N: usize>(memory: &mut [u8], lengths: [usize; N]) -> [&mut [u8]; N] {
    let mut rest = memory;
    array::from_fn(|at| {
        let (_, lent) = mem::take(&mut rest).split_at_mut(GUARD);
        let (part, behind) = lent.split_at_mut(lengths[at]);
        rest = behind;
        part
    })
}
