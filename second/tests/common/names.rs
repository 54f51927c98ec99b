//! Names of wanted lengths, sound and faulty.

use super::random::Random;

/// An octet of a label: a letter of either case mostly, else any.
pub fn label_octet(random: &mut Random) -> u8 {
    let letter = b'A' + random.below(26) as u8;
    let any = random.octet();
    random.pick(&[letter, letter.to_ascii_lowercase(), any])
}

/// Appends labels of exactly `octets` octets in all; 1 can't be met.
fn push_labels(random: &mut Random, octets: usize, name: &mut Vec<u8>) {
    assert_ne!(octets, 1);
    let end = name.len() + octets;
    while name.len() < end {
        let left = end - name.len();
        let most = (left - 1).min(63);
        let label = if random.one_in(3) {
            most
        } else {
            random.between(1, most)
        };
        // A single octet left over would be no label.
        let label = if left - 1 - label == 1 {
            if label == 1 {
                2
            } else {
                label - 1
            }
        } else {
            label
        };
        name.push(label as u8);
        name.extend((0..label).map(|_| label_octet(random)));
    }
}

/// Labels up to the end, of any length but 1, over the limit too.
pub fn partial(random: &mut Random, octets: usize) -> Vec<u8> {
    let mut name = Vec::with_capacity(octets + 1);
    push_labels(random, octets, &mut name);
    name
}

/// Labels and a closing 0, over the limit too; 2 octets can't be met.
pub fn full(random: &mut Random, octets: usize) -> Vec<u8> {
    let mut name = partial(random, octets - 1);
    name.push(0);
    name
}

/// A sound full name, mostly short.
pub fn some_full(random: &mut Random) -> Vec<u8> {
    let most = random.pick(&[8, 20, 100, 255]);
    let octets = random.between(3, most);
    full(random, octets)
}

/// A sound partial name, mostly short.
pub fn some_partial(random: &mut Random) -> Vec<u8> {
    let most = random.pick(&[8, 20, 100, 254]);
    let octets = random.between(2, most);
    partial(random, octets)
}

/// A field that is near a name but need not be one.
pub fn some_faulty(random: &mut Random) -> Vec<u8> {
    let mut name = if random.one_in(2) {
        some_full(random)
    } else {
        some_partial(random)
    };
    let at = random.below(name.len());
    match random.below(6) {
        0 => name[at] = random.octet(),
        1 => name[at] = random.pick(&[0, 1, 63, 64, 65, 128, 192, 255]),
        2 => name.truncate(at),
        3 => name.push(random.pick(&[0, 1, 64, 255])),
        4 => {
            // The first length octet is one no label may have.
            name[0] = random.between(64, 255) as u8;
            name.resize(random.between(1, 300), 1);
        }
        _ => {
            let octets = random.between(255, 300);
            name = if random.one_in(2) {
                full(random, octets)
            } else {
                partial(random, octets)
            };
        }
    }
    name
}

/// Octets without a plan, or drawn from a few small ones.
pub fn some_octets(random: &mut Random) -> Vec<u8> {
    let most = random.pick(&[1, 4, 12, 60, 300]);
    let mut octets = vec![0; random.between(0, most)];
    random.fill(&mut octets);
    let span = random.pick(&[0, 2, 3, 5, 70]);
    if span > 0 {
        octets.iter_mut().for_each(|octet| *octet %= span);
    }
    octets
}
