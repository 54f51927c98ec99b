//! Compares the product's name option calls with the second program.

mod common;

use common::names;
use common::product::{flag_answer, name_answer};
use common::random::{from_both_seeds, FIXED_SEED};
use common::run::Run;
use jespurla::raw;
use second::name_option::{answer, flag_decision, shape, Shape};

/// Options compared by one run, at the least.
const CASES: usize = 1_000_000;
/// Cases of each refusal and each kind of answer, at the least.
const EACH: usize = 1_000;
/// Reply buffers at and around the limit.
const BUFFERS: [usize; 5] = [0, 255, 256, 257, 300];

const KINDS: &[&str] = &[
    "refusal 10",
    "refusal 11, suffix",
    "refusal 11, name",
    "refusal 12",
    "refusal 13",
    "refusal 14",
    "whole name",
    "completed name",
    "whole name, letters of both cases",
    "completed name, letters of both cases",
    "completed name, letters of both cases in the suffix",
    "flags 0",
    "flags 1",
    "flags 2",
    "flags 4",
];

/// One call's arguments.
#[derive(Clone, Debug)]
struct Case {
    value: Vec<u8>,
    suffix: Vec<u8>,
    honour_s: u8,
    honour_n: u8,
    reply_len: usize,
}

impl Run<3> {
    /// Runs both programs on one case and compares the whole memories.
    fn compare(&mut self, case: &Case) {
        let lengths = [case.value.len(), case.suffix.len(), case.reply_len];
        let given: [&[u8]; 2] = [&case.value, &case.suffix];
        self.memory.lay_out(&mut self.random, lengths, &given);
        let (s, n) = (case.honour_s, case.honour_n);
        let [value, suffix, reply] = self.memory.second();
        let expected = answer(value, suffix, s != 0, n != 0, reply);
        let flags = if expected.is_ok() { reply[0] } else { 0 };
        if let Ok(length) = expected {
            assert_eq!(reply[1..length], completed(case), "octet for octet");
        }
        let [value, suffix, reply] = self.memory.product();
        let got = raw::name_option_answer(value, suffix, s, n, reply);
        let same = got == name_answer(expected);
        if !same || !self.memory.is_alike() {
            println!("second {expected:?}, product {got:x?}, {case:02x?}");
            panic!("the programs differ, seed {}", self.random.seed);
        }
        self.count(case, expected, flags);
    }

    fn count(&mut self, case: &Case, expected: Result<usize, u8>, flags: u8) {
        self.tally.cases += 1;
        match expected {
            Err(11) if shape(&case.suffix) != Shape::Full => self.tally.count("refusal 11, suffix"),
            Err(11) => self.tally.count("refusal 11, name"),
            Err(refusal) => self.tally.count(&format!("refusal {refusal}")),
            Ok(_) => {
                self.tally.count(&format!("flags {flags}"));
                self.count_name(case);
            }
        }
    }

    fn count_name(&mut self, case: &Case) {
        let name = &case.value[1..];
        let whole = shape(name) == Shape::Full;
        let title = if whole {
            "whole name"
        } else {
            "completed name"
        };
        self.tally.count(title);
        if has_both_cases(name) {
            self.tally.count(&format!("{title}, letters of both cases"));
        }
        if !whole && has_both_cases(&case.suffix) {
            self.tally
                .count("completed name, letters of both cases in the suffix");
        }
    }

    /// 0, or any of the octets that mean yes.
    fn honour(&mut self) -> u8 {
        self.random.pick(&[0, 0, 0, 1, 1, 2, 128, 255])
    }

    /// Flags that are mostly sound, with any upper bits.
    fn flags(&mut self) -> u8 {
        if self.random.one_in(8) {
            return self.random.octet();
        }
        let low = self.random.pick(&[0, 1, 1, 4]);
        self.random.octet() & 0xf8 | low
    }

    /// A sound name mostly, else a field with a fault or without a plan.
    fn name(&mut self) -> Vec<u8> {
        match self.random.below(8) {
            0 => names::some_faulty(&mut self.random),
            1 => names::some_octets(&mut self.random),
            2..=4 => names::some_full(&mut self.random),
            _ => names::some_partial(&mut self.random),
        }
    }

    /// A full name mostly, else anything.
    fn suffix(&mut self) -> Vec<u8> {
        if self.random.one_in(8) {
            return self.name();
        }
        names::some_full(&mut self.random)
    }

    /// A case whose parts are drawn apart, so that faults meet.
    fn mixed_case(&mut self) -> Case {
        let mut value = Vec::with_capacity(320);
        if !self.random.one_in(64) {
            value.push(self.flags());
            if !self.random.one_in(32) {
                value.extend(self.name());
            }
        }
        let short = self.random.one_in(24);
        Case {
            value,
            suffix: self.suffix(),
            honour_s: self.honour(),
            honour_n: self.honour(),
            reply_len: if short {
                self.random.below(256)
            } else {
                256 + self.random.below(45)
            },
        }
    }

    /// A case that meets no refusal, but for a completed name too long.
    fn sound_case(&mut self) -> Case {
        let mut value = vec![self.flags() & 0xf9];
        value.extend(if self.random.one_in(2) {
            names::some_full(&mut self.random)
        } else {
            names::some_partial(&mut self.random)
        });
        Case {
            value,
            suffix: names::some_full(&mut self.random),
            honour_s: self.honour(),
            honour_n: self.honour(),
            reply_len: 256,
        }
    }

    /// Every octet of a sound value and suffix changed, one at a time.
    fn damage(&mut self) {
        let mut case = self.sound_case();
        for at in 0..case.value.len() {
            for octet in self.damaged(case.value[at]) {
                case.value[at] = octet;
                self.compare(&case);
            }
        }
        for at in 0..case.suffix.len() {
            for octet in self.damaged(case.suffix[at]) {
                case.suffix[at] = octet;
                self.compare(&case);
            }
        }
    }

    /// What an octet is changed to; at last to itself, which mends it.
    fn damaged(&mut self, octet: u8) -> [u8; 12] {
        let (up, down) = (octet.wrapping_add(1), octet.wrapping_sub(1));
        let any = self.random.octet();
        [0, 1, 2, 63, 64, 128, 192, 255, up, down, any, octet]
    }

    /// Option names at every limit.
    fn names_at_limits(&mut self) -> Vec<Vec<u8>> {
        let random = &mut self.random;
        let mut made = vec![vec![], vec![0], vec![0, 0], vec![1], vec![1, 0], vec![2, 7]];
        for octets in [3, 4, 65, 66, 67, 129, 253, 254, 255, 256, 257] {
            made.push(names::full(random, octets));
            made.push(names::partial(random, octets - 1));
        }
        made.push(names::partial(random, 257));
        // One label of 63 or more, with and without the closing 0.
        for label in [62, 63, 64, 65, 127, 128, 191, 192, 193, 253, 254, 255] {
            let mut name = vec![label as u8];
            name.resize(1 + label, b'l');
            made.push(name.clone());
            name.push(0);
            made.push(name.clone());
            name.push(0);
            made.push(name);
        }
        made
    }

    /// Suffixes at every limit, full ones and others.
    fn suffixes_at_limits(&mut self) -> Vec<Vec<u8>> {
        let random = &mut self.random;
        let mut made = vec![vec![], vec![0], vec![1], vec![64, 0], vec![1, 7, 0, 0]];
        for octets in [3, 7, 65, 66, 127, 254, 255, 256] {
            made.push(names::full(random, octets));
        }
        for octets in [2, 64, 254, 255] {
            made.push(names::partial(random, octets));
        }
        made
    }

    /// Every name, suffix and buffer at its limit with each of the others.
    fn limits(&mut self) {
        let suffixes = self.suffixes_at_limits();
        for name in self.names_at_limits() {
            for suffix in &suffixes {
                for (turn, reply_len) in (0..32).flat_map(|turn| BUFFERS.map(|len| (turn, len))) {
                    let yes = self.random.pick(&[1, 2, 128, 255]);
                    let flags = self.random.octet() & 0xf8 | turn & 7;
                    self.compare(&Case {
                        value: [&[flags], &name[..]].concat(),
                        suffix: suffix.clone(),
                        honour_s: yes * (turn >> 3 & 1),
                        honour_n: yes * (turn >> 4),
                        reply_len,
                    });
                }
            }
        }
    }

    /// Empty values against every suffix and buffer.
    fn empty_values(&mut self) {
        for suffix in self.suffixes_at_limits() {
            for (turn, reply_len) in (0..4).flat_map(|turn| BUFFERS.map(|len| (turn, len))) {
                self.compare(&Case {
                    value: vec![],
                    suffix: suffix.clone(),
                    honour_s: turn & 1,
                    honour_n: turn >> 1,
                    reply_len,
                });
            }
        }
    }

    /// Completed names of 254, 255 and 256 octets, split at every place.
    fn completed(&mut self) {
        for whole in [254, 255, 256] {
            for head in 2..=whole - 3 {
                for flags in [0, 1, 4] {
                    let name = names::partial(&mut self.random, head);
                    let case = Case {
                        value: [&[flags], &name[..]].concat(),
                        suffix: names::full(&mut self.random, whole - head),
                        honour_s: self.honour(),
                        honour_n: self.honour(),
                        reply_len: 256,
                    };
                    self.compare(&case);
                }
            }
        }
    }

    fn whole(mut self) {
        self.limits();
        self.empty_values();
        self.completed();
        for _ in 0..200 {
            self.damage();
        }
        while self.tally.cases < CASES {
            let case = self.mixed_case();
            self.compare(&case);
        }
        let title = format!("seed {}, name options", self.random.seed);
        self.tally.report(&title, CASES, EACH);
    }
}

/// The name that the answer to a sound case has.
fn completed(case: &Case) -> Vec<u8> {
    let name = &case.value[1..];
    match shape(name) {
        Shape::Full => name.to_vec(),
        _ => [name, &case.suffix].concat(),
    }
}

fn has_both_cases(name: &[u8]) -> bool {
    name.iter().any(u8::is_ascii_uppercase) && name.iter().any(u8::is_ascii_lowercase)
}

#[test]
fn every_flag_decision_is_the_same() {
    let honours = [0, 1, 2, 127, 128, 255];
    for flags in 0..=255 {
        for (s, n) in honours.iter().flat_map(|&s| honours.map(|n| (s, n))) {
            let expected = flag_answer(flag_decision(flags, s != 0, n != 0));
            let got = raw::flag_decision(flags, s, n);
            assert_eq!(got, expected, "flags {flags}, honours {s} {n}");
        }
    }
}

#[test]
fn answers_are_the_same() {
    from_both_seeds(|seed| Run::new(seed, KINDS).whole());
}

/// Fields far over any limit end in a refusal too, however many labels they
/// have.
#[test]
fn huge_fields_are_answered_the_same() {
    let mut run = Run::new(FIXED_SEED, KINDS);
    let labels = |octets: usize| [1, b'a'].repeat(octets / 2);
    for octets in [256, 65_536, 65_792, 4_000_000] {
        for closing in [&[][..], &[0]] {
            let huge = [&labels(octets)[..], closing].concat();
            let mut case = Case {
                value: [&[0], &huge[..]].concat(),
                suffix: b"\x05stage\x00".to_vec(),
                honour_s: 1,
                honour_n: 0,
                reply_len: 256,
            };
            run.compare(&case);
            case.value.truncate(7);
            case.reply_len = 70_000;
            run.compare(&case);
            case.suffix = huge;
            run.compare(&case);
        }
    }
}
