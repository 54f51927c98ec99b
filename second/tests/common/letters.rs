//! Names in other letters: the same name with some letters in the other case,
//! and different names that a wrong folding would take for the same.

use second::zone::{Name, Zone, FREE};

use super::names;
use super::random::Random;
use super::tally::Tally;
use super::zones::entry_at;

/// The bit in which a capital letter and its small one differ.
const CASE: u8 = 0x20;

/// What a name that is asked for can find in a zone, besides what stands
/// there. Only calls that are answered are counted.
pub const MET: &[&str] = &[
    OTHER_LETTERS,
    "beside a name, bit 5 of @",
    "beside a name, bit 5 of [",
    "beside a name, bit 5 of 192 to 222",
    "beside a name, bit 5 of a length",
    "beside a name, bit 5 of another",
];

/// A name that meets itself in other letters, which about a third of the calls
/// are to do.
pub const OTHER_LETTERS: &str = "name in other letters";

/// A name with some of its letters in the other case, one at the least; as it
/// is where it has no letters.
pub fn respelled(random: &mut Random, name: &[u8]) -> Vec<u8> {
    let letters = (0..name.len()).filter(|&at| name[at].is_ascii_alphabetic());
    let letters: Vec<usize> = letters.collect();
    let mut other = name.to_vec();
    match random.below(4) {
        0 => other.make_ascii_uppercase(),
        1 => other.make_ascii_lowercase(),
        2 => letters
            .iter()
            .for_each(|&at| other[at] ^= CASE & random.octet()),
        _ => {}
    }
    if other == name && !letters.is_empty() {
        other[random.pick(&letters)] ^= CASE;
    }
    other
}

/// An octet that is no letter; with the other value of bit 5 it is none
/// either, and another one.
fn no_letter(random: &mut Random) -> u8 {
    let upper = random.between(192, 222) as u8;
    let any = random.octet();
    let any = if any.is_ascii_alphabetic() { b'@' } else { any };
    random.pick(&[b'@', b'[', upper, any])
}

/// Two different names that are alike but for bit 5 of one octet: one of the
/// first or the last label of a given name, or a length octet.
pub fn apart(random: &mut Random, name: &[u8]) -> [Vec<u8>; 2] {
    if random.one_in(5) {
        return lengths_apart(random);
    }
    let at = random.pick(&[1, name.len() - 2]);
    let octet = no_letter(random);
    [octet, octet ^ CASE].map(|octet| {
        let mut name = name.to_vec();
        name[at] = octet;
        name
    })
}

/// A name of one label of 33 octets, and one of labels of 1 and 31 octets,
/// that differ in the first octet alone.
fn lengths_apart(random: &mut Random) -> [Vec<u8>; 2] {
    let mut long = names::full(random, 35);
    (long[0], long[2], long[34]) = (33, 31, 0);
    (3..34).for_each(|at| long[at] = names::label_octet(random));
    let mut short = long.clone();
    short[0] ^= CASE;
    [long, short]
}

/// Of two different names that are alike but for bit 5 of some octets, what
/// the first of those is.
fn apart_in(one: &Name, other: &Name) -> Option<&'static str> {
    let (ones, others) = (one.as_slice(), other.as_slice());
    let mut octets = ones.iter().zip(others);
    let alike = ones.len() == others.len() && octets.all(|(a, b)| (a ^ b) & !CASE == 0);
    let differs = |&at: &usize| !ones[at].eq_ignore_ascii_case(&others[at]);
    let at = (0..ones.len()).filter(|_| alike).find(differs)?;
    Some(match ones[at] & !CASE {
        _ if at == 0 => MET[4],
        b'@' => MET[1],
        b'[' => MET[2],
        192..=222 => MET[3],
        _ => MET[5],
    })
}

/// Whether both names have the same octets, the letters in the same case.
pub fn is_spelled_alike(one: &Name, other: &Name) -> bool {
    one.as_slice() == other.as_slice()
}

/// Whether the zone has the name in other letters.
pub fn meets_itself(zone: &Zone, name: &Name) -> bool {
    entry_at(zone, name).is_some_and(|entry| !is_spelled_alike(&entry.name, name))
}

/// Counts what a name meets in a zone; whether that is itself in other
/// letters.
pub fn count(tally: &mut Tally, zone: &Zone, name: &Name) -> bool {
    let named = zone.entries.iter().filter(|entry| entry.kind != FREE);
    let beside = named.filter_map(|entry| apart_in(&entry.name, name));
    beside.for_each(|kind| tally.count(kind));
    let met = meets_itself(zone, name);
    if met {
        tally.count(OTHER_LETTERS);
    }
    met
}
