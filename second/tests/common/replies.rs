//! Replies to lease queries, sound and with faults that are known.

use second::desk_reply::{Reading, ASSOCIATED_MAX};

use super::random::Random;
use super::request_lists::{some_list, LISTABLE};

const MAGIC: [u8; 4] = [99, 130, 83, 99];
/// The options that the box writes, in its order.
pub const WRITTEN: [u8; 7] = [53, 54, 51, 61, 82, 91, 92];
/// Those that are not looked at in a reply of kind 11 or 12.
pub const UNREAD: [u8; 5] = [51, 61, 82, 91, 92];
/// Codes that the box writes in no reply, beside that of a request list.
const FOREIGN: [u8; 8] = [1, 12, 50, 52, 60, 81, 90, 254];
/// The request list, which a reply may carry as well.
pub const REQUEST_LIST: u8 = 55;
const PAD: u8 = 0;
/// Octets that the options of a sound reply have at the most, so that two
/// more of any length fit.
const OPTIONS_MAX: usize = 700;

/// Where the options stop, and how.
#[derive(Clone, Copy, PartialEq, Debug)]
pub enum Ending {
    End,
    Missing,
    /// The last option claims more octets than there are.
    Past,
    /// The last octet is a code without a length.
    Code,
}

/// A reply before it is laid out.
#[derive(Clone, Debug)]
pub struct Reply {
    pub op: u8,
    pub cookie: [u8; 4],
    pub xid: u32,
    pub kind: u8,
    pub address: u32,
    pub htype: u8,
    pub hlen: u8,
    pub chaddr: [u8; 16],
    /// Codes and values; a code of 0 is an octet of padding.
    pub options: Vec<(u8, Vec<u8>)>,
    pub ending: Ending,
    /// What stands behind the end option.
    pub tail: Vec<u8>,
    /// The length it is cut or filled to, come what may.
    pub octets: Option<usize>,
}

impl Reply {
    /// A reply with options 53 and 54 alone.
    fn new(random: &mut Random, kind: u8) -> Reply {
        let mut reply = Reply {
            op: 2,
            cookie: MAGIC,
            xid: random.next() as u32,
            kind,
            address: random.next() as u32,
            htype: random.octet(),
            hlen: random.between(0, 16) as u8,
            chaddr: [0; 16],
            options: vec![(53, vec![kind])],
            ending: Ending::End,
            tail: Vec::new(),
            octets: None,
        };
        random.fill(&mut reply.chaddr);
        reply.push(random, 54, 4);
        reply
    }

    /// A reply that meets no refusal, with what the box writes in this kind;
    /// each option that a request list decides on is there or not.
    pub fn bare(random: &mut Random, kind: u8) -> Reply {
        let mut reply = Reply::new(random, kind);
        if kind != 13 {
            return reply;
        }
        for code in LISTABLE {
            let id = random.pick(&[2, 3, 19, 63, 64]);
            let relay = random.pick(&[1, 2, 20, 63, 64]);
            match code {
                _ if random.one_in(2) => {}
                61 => reply.push(random, code, id),
                82 => reply.push(random, code, relay),
                _ => reply.push_span(random, code),
            }
        }
        if !random.one_in(3) {
            let count = random.between(2, ASSOCIATED_MAX);
            let length = 4 * random.pick(&[2, 3, count, 62, 63]);
            reply.push(random, 92, length);
        }
        reply
    }

    /// A reply that meets no refusal, in any order of options, with others
    /// between them and octets behind.
    pub fn sound(random: &mut Random, kind: u8) -> Reply {
        let mut reply = Reply::bare(random, kind);
        if kind != 13 && !random.one_in(3) {
            reply.add_unread(random);
        }
        reply.add_lists(random);
        reply.add_foreign(random);
        if !random.one_in(4) {
            random.shuffle(&mut reply.options);
        }
        reply.tail = random
            .pick(&[&[][..], &[], &[0, 0], &[53, 1, 10, 61, 9], &[255]])
            .to_vec();
        if random.one_in(12) {
            reply.octets = Some(random.pick(&[1_499, 1_500]));
        }
        reply
    }

    /// Options of an active lease where nobody looks at them: of any length,
    /// and twice, but for 61.
    fn add_unread(&mut self, random: &mut Random) {
        for code in UNREAD {
            let times = match code {
                61 => random.below(2),
                _ => random.below(3),
            };
            let usual = random.pick(&[4, 4, 8, 20]);
            let any = random.between(0, 255);
            let length = random.pick(&[usual, usual, 0, 1, any]);
            let fits = self.size() + times * (2 + length) <= OPTIONS_MAX;
            (0..if fits { times } else { 0 }).for_each(|_| self.push(random, code, length));
        }
    }

    /// Request lists, none to three, at times empty ones.
    fn add_lists(&mut self, random: &mut Random) {
        for _ in 0..random.pick(&[0, 0, 0, 1, 1, 2, 3]) {
            let list = match random.below(3) {
                0 => vec![],
                _ => some_list(random, 40),
            };
            if self.size() + 2 + list.len() <= OPTIONS_MAX {
                let at = random.between(0, self.options.len());
                self.options.insert(at, (REQUEST_LIST, list));
            }
        }
    }

    /// Options that the box never writes, and padding.
    fn add_foreign(&mut self, random: &mut Random) {
        for _ in 0..random.pick(&[0, 0, 1, 2, 5]) {
            let length = random.pick(&[0, 1, 4, 20, 40]);
            let code = random.pick(&FOREIGN);
            if self.size() + 2 + length <= OPTIONS_MAX {
                self.insert(random, code, length);
            }
        }
        for _ in 0..random.pick(&[0, 0, 1, 3]) {
            self.insert(random, PAD, 0);
        }
    }

    /// Octets of the options.
    fn size(&self) -> usize {
        self.options.iter().map(|(_, value)| 2 + value.len()).sum()
    }

    fn push(&mut self, random: &mut Random, code: u8, length: usize) {
        let value = self.value_for(random, code, length);
        self.options.push((code, value));
    }

    /// An option of a span, at times the least or the greatest.
    fn push_span(&mut self, random: &mut Random, code: u8) {
        let any = random.next() as u32;
        let span = random.pick(&[0, 1, any, any, u32::MAX - 1, u32::MAX]);
        self.options.push((code, span.to_be_bytes().to_vec()));
    }

    /// Puts an option among the others.
    pub fn insert(&mut self, random: &mut Random, code: u8, length: usize) {
        let at = random.between(0, self.options.len());
        let value = self.value_for(random, code, length);
        self.options.insert(at, (code, value));
    }

    /// Any octets; for option 53 the kind of the reply.
    fn value_for(&self, random: &mut Random, code: u8, length: usize) -> Vec<u8> {
        let mut value = vec![self.kind; length];
        if code != 53 {
            random.fill(&mut value);
        }
        value
    }

    pub fn remove(&mut self, code: u8) {
        self.options.retain(|option| option.0 != code);
    }

    /// Gives an option another length.
    pub fn replace(&mut self, random: &mut Random, code: u8, length: usize) {
        self.remove(code);
        self.insert(random, code, length);
    }

    /// Has an option stand there twice, its lengths being of those given.
    pub fn double(&mut self, random: &mut Random, code: u8, lengths: &[usize]) {
        let [one, other] = [(); 2].map(|()| random.pick(lengths));
        self.replace(random, code, one);
        self.insert(random, code, other);
    }

    fn value(&self, code: u8) -> Option<&[u8]> {
        let found = self.options.iter().find(|option| option.0 == code);
        found.map(|(_, value)| &value[..])
    }

    /// What a sound reply says.
    pub fn told(&self) -> Reading {
        let mut told = Reading {
            kind: self.kind,
            address: self.address,
            htype: self.htype,
            hlen: self.hlen,
            chaddr: self.chaddr,
            left: None,
            since: None,
            addresses: [0; ASSOCIATED_MAX],
            count: 0,
        };
        if self.kind == 13 {
            let number = |octets: &[u8]| u32::from_be_bytes(octets.try_into().expect("four"));
            told.left = self.value(51).map(number);
            told.since = self.value(91).map(number);
            for octets in self.value(92).unwrap_or(&[]).chunks(4) {
                told.addresses[told.count] = number(octets);
                told.count += 1;
            }
        }
        told
    }

    /// The packet, with anything in the fields that nobody reads.
    pub fn packet(&self, random: &mut Random) -> Vec<u8> {
        let mut packet = vec![0; 240];
        random.fill(&mut packet);
        packet[..3].copy_from_slice(&[self.op, self.htype, self.hlen]);
        packet[4..8].copy_from_slice(&self.xid.to_be_bytes());
        packet[12..16].copy_from_slice(&self.address.to_be_bytes());
        packet[28..44].copy_from_slice(&self.chaddr);
        packet[236..].copy_from_slice(&self.cookie);
        for (code, value) in &self.options {
            packet.push(*code);
            if *code != PAD {
                packet.push(value.len() as u8);
                packet.extend(value);
            }
        }
        self.end(random, &mut packet);
        let octets = self.octets.unwrap_or(packet.len());
        packet.resize(octets, random.pick(&[0, 53, 61, 255]));
        packet
    }

    fn end(&self, random: &mut Random, packet: &mut Vec<u8>) {
        match self.ending {
            Ending::End => {
                packet.push(255);
                packet.extend(&self.tail);
            }
            Ending::Missing => packet.resize(packet.len() + random.below(3), PAD),
            Ending::Past => {
                let claimed = random.between(1, 255);
                packet.extend([random.pick(&[12, 82, 92, 254]), claimed as u8]);
                packet.resize(packet.len() + random.below(claimed), 255);
            }
            Ending::Code => packet.push(random.pick(&[1, 53, 61, 254])),
        }
    }
}
