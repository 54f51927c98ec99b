//! Faults of a reply, each enough for refusal 20 by itself.

use super::random::Random;
use super::replies::{Ending, Reply};

/// Makes a reply malformed in one way.
type Plant = fn(&mut Random, &mut Reply);

/// Kinds of replies in which a fault is one.
const ALL: &[u8] = &[11, 12, 13];
const ACTIVE: &[u8] = &[13];

/// The ways in which a reply is malformed, whatever else stands in it.
const FAULTS: [(&str, &[u8], Plant); 36] = [
    ("20: under 240 octets", ALL, |random, reply| {
        let any = random.below(240);
        reply.octets = Some(random.pick(&[0, 1, 236, 239, 239, any]));
    }),
    ("20: over 1,500 octets", ALL, |random, reply| {
        let any = random.between(1_501, 2_000);
        reply.octets = Some(random.pick(&[1_501, 1_501, 1_502, any, 65_536 + 300]));
    }),
    ("20: cookie", ALL, |random, reply| {
        reply.cookie[random.below(4)] ^= 1 << random.below(8);
    }),
    ("20: option past the end", ALL, |random, reply| {
        end_with(reply, Ending::Past);
        if random.one_in(2) {
            end_with(reply, Ending::Code);
        }
    }),
    ("20: no end option", ALL, |_, reply| {
        end_with(reply, Ending::Missing);
    }),
    ("20: op", ALL, |random, reply| {
        let any = random.between(3, 255) as u8;
        reply.op = random.pick(&[0, 1, 1, 3, any, 130]);
    }),
    ("20: hlen above 16", ALL, |random, reply| {
        let any = random.between(17, 255) as u8;
        reply.hlen = random.pick(&[17, 17, 18, 32, any, 255]);
    }),
    ("20: 53 absent", ALL, |_, reply| reply.remove(53)),
    ("20: 53 twice", ALL, |random, reply| {
        reply.double(random, 53, &[1]);
    }),
    ("20: 53 not one octet", ALL, |random, reply| {
        let any = random.between(2, 255);
        let length = random.pick(&[0, 2, 3, any, 255]);
        reply.replace(random, 53, length);
    }),
    ("20: 53 not 11 to 13", ALL, |random, reply| {
        let any = random.between(14, 255) as u8;
        reply.kind = random.pick(&[0, 1, 9, 10, 10, 14, 14, any, 255]);
        reply.replace(random, 53, 1);
    }),
    ("20: 54 absent, kind 11", &[11], |_, reply| reply.remove(54)),
    ("20: 54 absent, kind 12", &[12], |_, reply| reply.remove(54)),
    ("20: 54 absent, kind 13", ACTIVE, |_, reply| {
        reply.remove(54);
    }),
    ("20: 54 twice, kind 11", &[11], double_server),
    ("20: 54 twice, kind 12", &[12], double_server),
    ("20: 54 twice, kind 13", ACTIVE, double_server),
    ("20: 54 not 4 octets, kind 11", &[11], lengthen_server),
    ("20: 54 not 4 octets, kind 12", &[12], lengthen_server),
    ("20: 54 not 4 octets, kind 13", ACTIVE, lengthen_server),
    ("20: 51 twice", ACTIVE, |random, reply| {
        reply.double(random, 51, &[4]);
    }),
    ("20: 51 not 4 octets", ACTIVE, |random, reply| {
        let length = not_four(random);
        reply.replace(random, 51, length);
    }),
    ("20: 91 twice", ACTIVE, |random, reply| {
        reply.double(random, 91, &[4]);
    }),
    ("20: 91 not 4 octets", ACTIVE, |random, reply| {
        let length = not_four(random);
        reply.replace(random, 91, length);
    }),
    ("20: 61 twice, kind 11", &[11], double_id),
    ("20: 61 twice, kind 12", &[12], double_id),
    ("20: 61 twice, kind 13", ACTIVE, double_id),
    ("20: 61 under 2 octets", ACTIVE, |random, reply| {
        let length = random.below(2);
        reply.replace(random, 61, length);
    }),
    ("20: 61 over 64 octets", ACTIVE, |random, reply| {
        let length = above(random, 65);
        reply.replace(random, 61, length);
    }),
    ("20: 82 twice", ACTIVE, |random, reply| {
        reply.double(random, 82, &[1, 2, 20, 64]);
    }),
    ("20: 82 empty", ACTIVE, |random, reply| {
        reply.replace(random, 82, 0);
    }),
    ("20: 82 over 64 octets", ACTIVE, |random, reply| {
        let length = above(random, 65);
        reply.replace(random, 82, length);
    }),
    ("20: 92 twice", ACTIVE, |random, reply| {
        reply.double(random, 92, &[8, 12, 100, 252]);
    }),
    ("20: 92 under 8 octets", ACTIVE, |random, reply| {
        let any = random.below(8);
        let length = random.pick(&[0, 4, 4, any]);
        reply.replace(random, 92, length);
    }),
    ("20: 92 over 252 octets", ACTIVE, |random, reply| {
        let length = random.between(253, 255);
        reply.replace(random, 92, length);
    }),
    ("20: 92 not a multiple of 4", ACTIVE, |random, reply| {
        let length = 4 * random.between(2, 62) + random.between(1, 3);
        reply.replace(random, 92, length);
    }),
];

fn end_with(reply: &mut Reply, ending: Ending) {
    reply.octets = None;
    reply.ending = ending;
}

fn double_server(random: &mut Random, reply: &mut Reply) {
    reply.double(random, 54, &[4]);
}

fn lengthen_server(random: &mut Random, reply: &mut Reply) {
    let length = not_four(random);
    reply.replace(random, 54, length);
}

fn double_id(random: &mut Random, reply: &mut Reply) {
    reply.double(random, 61, &[2, 3, 20, 64]);
}

/// A length that an option of one address or span never has.
fn not_four(random: &mut Random) -> usize {
    let any = random.between(5, 255);
    random.pick(&[0, 1, 2, 3, 5, 8, any, 255])
}

/// A length from `least` on.
fn above(random: &mut Random, least: usize) -> usize {
    let any = random.between(least, 255);
    random.pick(&[least, least, least + 1, any, 255])
}

/// What the faults are called.
pub fn labels() -> Vec<&'static str> {
    FAULTS.iter().map(|(label, ..)| *label).collect()
}

/// Draws a fault, and a kind of reply in which it is one.
pub fn draw(random: &mut Random) -> (usize, u8) {
    let fault = random.below(FAULTS.len());
    (fault, random.pick(FAULTS[fault].1))
}

/// Plants the fault that was drawn; what it is called.
pub fn plant(random: &mut Random, reply: &mut Reply, fault: usize) -> &'static str {
    let (label, _, plant) = FAULTS[fault];
    plant(random, reply);
    label
}

/// What an option of this length is called where the length is a fault.
pub fn of_length(kind: u8, code: u8, length: usize) -> Option<&'static str> {
    match (code, kind, length) {
        (53, _, 1) | (54, _, 4) | (51 | 91, 13, 4) => None,
        (53, ..) => Some("20: 53 not one octet"),
        (54, 11, _) => Some("20: 54 not 4 octets, kind 11"),
        (54, 12, _) => Some("20: 54 not 4 octets, kind 12"),
        (54, ..) => Some("20: 54 not 4 octets, kind 13"),
        (_, 11 | 12, _) => None,
        (51, ..) => Some("20: 51 not 4 octets"),
        (91, ..) => Some("20: 91 not 4 octets"),
        (61, _, 0..=1) => Some("20: 61 under 2 octets"),
        (61, _, 65..) => Some("20: 61 over 64 octets"),
        (82, _, 0) => Some("20: 82 empty"),
        (82, _, 65..) => Some("20: 82 over 64 octets"),
        (92, _, 0..=7) => Some("20: 92 under 8 octets"),
        (92, _, 253..) => Some("20: 92 over 252 octets"),
        (92, ..) if !length.is_multiple_of(4) => Some("20: 92 not a multiple of 4"),
        _ => None,
    }
}

/// What an option that stands there more than once is called where that is a
/// fault.
pub fn of_repeat(kind: u8, code: u8) -> Option<&'static str> {
    match (code, kind) {
        (53, _) => Some("20: 53 twice"),
        (54, 11) => Some("20: 54 twice, kind 11"),
        (54, 12) => Some("20: 54 twice, kind 12"),
        (54, _) => Some("20: 54 twice, kind 13"),
        (61, 11) => Some("20: 61 twice, kind 11"),
        (61, 12) => Some("20: 61 twice, kind 12"),
        (61, _) => Some("20: 61 twice, kind 13"),
        (_, 11 | 12) => None,
        (51, _) => Some("20: 51 twice"),
        (82, _) => Some("20: 82 twice"),
        (91, _) => Some("20: 91 twice"),
        (92, _) => Some("20: 92 twice"),
        _ => None,
    }
}
