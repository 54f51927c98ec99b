//! Packets damaged at every place.

use super::random::Random;

/// Octets of a packet that are changed, at the most.
const CHANGED: usize = 600;
/// How far a packet is cut, at the most: below what the fixed fields need.
const SHORTEST: usize = 230;

/// A packet with each octet changed, one at a time, to several others.
fn changed(random: &mut Random, packet: &[u8], at: usize) -> Vec<Vec<u8>> {
    let octet = packet[at];
    let others = [0, 255, octet.wrapping_add(1), octet.wrapping_sub(1)];
    let change = |other: u8| {
        let mut damaged = packet.to_vec();
        damaged[at] = other;
        damaged
    };
    others
        .into_iter()
        .chain([random.octet()])
        .map(change)
        .collect()
}

/// A packet with every octet changed, one at a time, and every cut of it.
pub fn damaged(random: &mut Random, packet: &[u8]) -> Vec<Vec<u8>> {
    let places = 0..packet.len().min(CHANGED);
    let mut all: Vec<_> = places.flat_map(|at| changed(random, packet, at)).collect();
    let cuts = (SHORTEST..packet.len()).rev();
    all.extend(cuts.map(|length| packet[..length].to_vec()));
    all
}
