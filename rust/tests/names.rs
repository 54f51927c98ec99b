//! Names in presentation form and as they stand in messages.

use std::collections::HashSet;
use std::hash::{BuildHasher, BuildHasherDefault, DefaultHasher};

use jespurla::{Name, ParseNameError, Refusal};

/// Numbers that look random, the same in every run.
struct Random(u64);

impl Random {
    fn below(&mut self, bound: usize) -> usize {
        self.0 ^= self.0 << 13;
        self.0 ^= self.0 >> 7;
        self.0 ^= self.0 << 17;
        (self.0 >> 11) as usize % bound
    }

    fn octets(&mut self, length: usize) -> Vec<u8> {
        (0..length).map(|_| self.below(256) as u8).collect()
    }

    /// The octets of a full name, of any length up to 255.
    fn wire(&mut self) -> Vec<u8> {
        let (most, mut wire) = (2 + self.below(253), Vec::new());
        while wire.len() + 2 <= most {
            let label = 1 + self.below(63.min(most - wire.len() - 1));
            wire.push(label as u8);
            wire.extend(self.octets(label));
        }
        wire.push(0);
        wire
    }
}

/// The octets of a name with labels of these lengths.
fn labels(lengths: &[usize]) -> Vec<u8> {
    let label = |&length: &usize| [vec![length as u8], vec![b'a'; length]].concat();
    let mut wire: Vec<u8> = lengths.iter().flat_map(label).collect();
    wire.push(0);
    wire
}

/// Whether the names are equal, and their hashes with them.
fn are_equal(left: &Name, right: &Name) -> bool {
    let hash = |name| BuildHasherDefault::<DefaultHasher>::default().hash_one(name);
    let equal = left == right;
    assert_eq!(equal, hash(left) == hash(right), "{left} {right}");
    equal
}

/// What an octet counts as: one from 65 to 90 as the one 32 above it, any other as itself.
fn folded(octet: &u8) -> u8 {
    match octet {
        65..=90 => octet + 32,
        _ => *octet,
    }
}

/// Reads a name, prints it and reads it again.
fn round_trip(wire: &[u8]) -> Name {
    let name = Name::from_wire(wire).expect("a full name");
    let text = name.to_string();
    assert!(text.bytes().all(|octet| octet.is_ascii_graphic()), "{text}");
    assert!(text.ends_with('.'), "{text}");
    let again: Name = text.parse().expect("what was printed");
    assert_eq!(again.as_wire(), wire, "{text}");
    assert_eq!(again, name);
    name
}

#[test]
fn random_names_are_printed_and_read_back() {
    let mut random = Random(0x1234_5678_9abc_def1);
    let mut lengths = HashSet::new();
    for _ in 0..20_000 {
        let wire = random.wire();
        round_trip(&wire);
        lengths.insert(wire.len());
    }
    assert!(lengths.contains(&255) && lengths.contains(&3));
}

/// Texts of signs that mean something: each is refused, or read as a name that is printed and read
/// back.
#[test]
fn random_texts_are_refused_or_names() {
    let mut random = Random(0xfedc_ba98_7654_3211);
    let signs = ["a", "Z", "0", "1", "2", "9", ".", "\\", "-", " ", "\u{e4}"];
    let mut names = 0;
    for _ in 0..50_000 {
        let length = random.below(12);
        let text: String = (0..length)
            .map(|_| signs[random.below(signs.len())])
            .collect();
        if let Ok(name) = text.parse::<Name>() {
            round_trip(name.as_wire());
            names += 1;
        }
    }
    assert!(names > 1_000 && names < 49_000, "{names}");
}

#[test]
fn every_octet_is_printed_and_read_back() {
    for octet in 0..=255 {
        let name = round_trip(&[1, octet, 2, octet, octet, 0]);
        let escaped = format!("\\{octet:03}");
        let written: Name = format!("{escaped}.{escaped}{escaped}")
            .parse()
            .expect("digits");
        assert_eq!(written.as_wire(), name.as_wire());
    }
}

#[test]
fn the_longest_names_are_printed_and_read_back() {
    round_trip(&labels(&[1; 127]));
    round_trip(&labels(&[63, 63, 63, 61]));
    round_trip(&labels(&[63]));
    round_trip(&labels(&[1]));
}

#[test]
fn a_final_dot_makes_no_difference() {
    let [with, without] = ["pipe7.stage.", "pipe7.stage"].map(|text| text.parse::<Name>());
    assert_eq!(with, without);
    assert_eq!(with.expect("a name").as_wire(), b"\x05pipe7\x05stage\x00");
}

#[test]
fn what_means_something_in_a_zone_file_is_escaped() {
    let text = |wire: &[u8]| Name::from_wire(wire).expect("a full name").to_string();
    assert_eq!(text(b"\x03a.b\x00"), r"a\.b.");
    assert_eq!(text(b"\x02a\\\x00"), r"a\\.");
    assert_eq!(text(b"\x06\"();@$\x00"), r#"\"\(\)\;\@\$."#);
    assert_eq!(text(b"\x04 \x00\x7f\xff\x00"), r"\032\000\127\255.");
    assert_eq!(text(b"\x05a-_*!\x00"), "a-_*!.");
}

#[test]
fn a_backslash_quotes_a_character() {
    let wire = |text: &str| text.parse::<Name>().map(|name| name.as_wire().to_vec());
    assert_eq!(wire(r"a\.b"), Ok(b"\x03a.b\x00".to_vec()));
    assert_eq!(wire(r"\a\ \\"), Ok(b"\x03a \\\x00".to_vec()));
    assert_eq!(wire(r"\0651"), Ok(b"\x02A1\x00".to_vec()));
}

#[test]
fn texts_that_are_no_names_are_refused() {
    let why = |text: &str| text.parse::<Name>().expect_err("no name");
    for text in ["", ".", "..", "a..", ".a", "a..b"] {
        assert_eq!(why(text), ParseNameError::EmptyLabel, "{text}");
    }
    for text in [
        r"\", r"a\", r"\1", r"\12", r"\12a", r"\256", r"\999.a", "\\\u{e4}", "\\\n",
    ] {
        assert_eq!(why(text), ParseNameError::Escape, "{text}");
    }
    for text in ["a b", "\u{e4}", "a\n", "\0"] {
        assert_eq!(why(text), ParseNameError::Character, "{text}");
    }
    assert_eq!(why(&"a".repeat(64)), ParseNameError::LabelTooLong);
    assert_eq!(why(&"a.".repeat(128)), ParseNameError::NameTooLong);
    let (label, rest) = ("a".repeat(63), "a".repeat(62));
    assert_eq!(
        why(&format!("{label}.{label}.{label}.{rest}")),
        ParseNameError::NameTooLong
    );
    assert_eq!(why("a..").to_string(), "a label is empty");
}

#[test]
fn octets_that_are_no_full_name_are_refused() {
    let bad: [&[u8]; 7] = [
        b"",
        b"\x00",
        b"\x05pipe7",
        b"\x05pipe",
        b"\x05pipe7\x00\x00",
        b"\xc0\x00",
        &[1; 256],
    ];
    for wire in bad {
        assert_eq!(Name::from_wire(wire), Err(Refusal::Name), "{wire:?}");
    }
    for lengths in [&[64][..], &[1; 128][..], &[63, 63, 63, 62][..]] {
        assert_eq!(Name::from_wire(&labels(lengths)), Err(Refusal::Name));
    }
}

#[test]
fn octets_count_as_themselves_but_for_capital_letters() {
    let of = |octet| Name::from_wire(&[1, octet, 0]).expect("a full name");
    let pairs = (0..=255).flat_map(|left| (0..=255).map(move |right| (left, right)));
    let mut equal = 0;
    for (left, right) in pairs {
        let told = are_equal(&of(left), &of(right));
        assert_eq!(told, folded(&left) == folded(&right), "{left} {right}");
        equal += usize::from(told);
    }
    assert_eq!(equal, 256 + 2 * 26);
}

#[test]
fn the_longest_names_are_compared_to_their_end() {
    let longest = |wire: &[u8]| Name::from_wire(wire).expect("a full name");
    let mut wire = labels(&[63, 63, 63, 61]);
    let small = longest(&wire);
    assert!(are_equal(&small, &longest(&wire.to_ascii_uppercase())));
    wire[253] = b'A';
    assert!(are_equal(&small, &longest(&wire)));
    wire[253] = b'B';
    assert!(!are_equal(&small, &longest(&wire)));
}

/// One bit of a name is changed, in a label or in the length of one: often the bit in which the two
/// forms of a letter differ.
#[test]
fn random_names_are_equal_where_their_folded_octets_are() {
    let mut random = Random(0x0f1e_2d3c_4b5a_6971);
    let mut seen = [0; 2];
    for _ in 0..50_000 {
        let wire = random.wire();
        let mut other = wire.clone();
        other[random.below(wire.len())] ^= [32, 1, 64, 128][random.below(4)];
        let Ok(name) = Name::from_wire(&other) else {
            continue;
        };
        let told = are_equal(&Name::from_wire(&wire).expect("a full name"), &name);
        assert!(told == wire.iter().map(folded).eq(other.iter().map(folded)));
        assert_eq!(name.as_wire(), other);
        seen[usize::from(told)] += 1;
    }
    assert!(seen.iter().all(|&count| count > 1_000), "{seen:?}");
}

#[test]
fn names_are_equal_in_whatever_letters() {
    let name = |text: &str| text.parse::<Name>().expect("a name");
    assert_eq!(name("oboe.stage"), name(r"o\098oe.stage."));
    assert_eq!(name("oboe.stage"), name(r"\079bOE.Stage"));
    assert_ne!(name("oboe.stage"), name(r"oboe\.stage"));
    assert_ne!(name(r"\196"), name(r"\228"));
    let set: HashSet<Name> = ["a", "a.", "A", "b"].map(name).into_iter().collect();
    assert_eq!(set.len(), 2);
    assert_eq!(name("Oboe.Stage").to_string(), "Oboe.Stage.");
    assert_eq!(name("Oboe").labels().next(), Some(&b"Oboe"[..]));
    assert_eq!(format!("{:?}", name("a.b")), "Name(a.b.)");
    assert_eq!(
        name(r"a\.b.c").labels().collect::<Vec<_>>(),
        [&b"a.b"[..], b"c"]
    );
}
