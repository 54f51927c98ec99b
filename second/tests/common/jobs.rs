//! Jobs and the zones they meet: few names, owners and addresses, so that
//! jobs get in each other's way.

use second::job::{self, Job};
use second::zone::{Address, Dhcid, Entry, Name, Set, Zone, FREE, HELD, PLACES, SET_MAX, STATIC};

use super::random::Random;
use super::requests::{Kind, Request};
use super::zones::{again, filler, Stock};

/// The stages of adds and removes, ended or not.
pub const STAGES: [u8; 11] = [
    job::BEFORE_A,
    job::BEFORE_B,
    job::DONE,
    job::CONFLICT,
    job::NO_ROOM,
    job::GAVE_UP,
    job::BEFORE_FIRST,
    job::BEFORE_SECOND,
    job::NOT_OURS,
    job::GONE,
    job::KEPT,
];

/// What a stage is called.
pub fn called(stage: u8) -> &'static str {
    match stage {
        job::BEFORE_A => "before A",
        job::BEFORE_B => "before B",
        job::DONE => "done",
        job::CONFLICT => "conflict",
        job::NO_ROOM => "no room",
        job::GAVE_UP => "gave up",
        job::BEFORE_FIRST => "before first remove",
        job::BEFORE_SECOND => "before second remove",
        job::NOT_OURS => "not ours",
        job::GONE => "gone",
        job::KEPT => "kept",
        _ => panic!("no stage has the number {stage}"),
    }
}

/// The counts an add's stage can have; a remove has none.
pub fn counts(stage: u8) -> Option<&'static [u8]> {
    match stage {
        job::BEFORE_A => Some(&[0, 2, 4]),
        job::BEFORE_B => Some(&[1, 3, 5]),
        job::DONE | job::NO_ROOM => Some(&[1, 2, 3, 4, 5, 6]),
        job::CONFLICT => Some(&[2, 4, 6]),
        job::GAVE_UP => Some(&[6]),
        _ => None,
    }
}

/// The second program's fresh job: an add where the request is A.
pub fn fresh(request: &Request) -> Result<Job, u8> {
    let (name, dhcid, address) = (&request.name, &request.dhcid, &request.address);
    if request.kind == Kind::A {
        job::new_add(name, dhcid, request.family, address, request.policy)
    } else {
        job::new_remove(name, dhcid, request.family, address)
    }
}

/// A start: a zone, the arguments of its new jobs, and the jobs whose steps
/// come first.
pub struct Start {
    pub zone: Zone,
    pub jobs: Vec<Request>,
    pub steps: Vec<usize>,
}

/// What a list's zone and jobs are made of.
pub struct Pool {
    stock: Stock,
    names: Vec<Name>,
    dhcids: Vec<Dhcid>,
    /// They differ within the first four octets.
    addresses: Vec<Address>,
}

/// Addresses that differ from one in a bit each.
fn near_addresses(random: &mut Random) -> Vec<Address> {
    let mut base = [0; 16];
    random.fill(&mut base);
    let mut addresses = vec![base];
    for bit in 0..5 {
        let mut address = base;
        address[random.below(4)] ^= 1 << bit;
        addresses.push(address);
    }
    addresses
}

impl Pool {
    pub fn new(random: &mut Random) -> Pool {
        let stock = Stock::new(random);
        let drawn: Vec<Request> = (0..3).map(|_| stock.request(random)).collect();
        let mut names: Vec<Name> = Vec::new();
        for request in &drawn[..random.pick(&[1, 1, 2, 3])] {
            if !names.contains(&request.name) {
                names.push(request.name);
            }
        }
        Pool {
            stock,
            names,
            dhcids: drawn.iter().map(|request| request.dhcid).collect(),
            addresses: near_addresses(random),
        }
    }

    /// A set of `count` addresses from one on, with anything past the count.
    fn set<const W: usize>(&self, first: usize, count: u8) -> Set<W> {
        let mut set = Set::EMPTY;
        for (at, item) in set.items.iter_mut().enumerate() {
            let address = self.addresses[(first + at) % self.addresses.len()];
            item.copy_from_slice(&address[..W]);
        }
        set.count = count;
        set
    }

    fn entry(&self, random: &mut Random, name: Name) -> Entry {
        let counts = [0, 0, 1, 1, 2, 4, 4, 4];
        let (fours, sixes) = (random.pick(&counts), random.pick(&counts));
        let first = random.below(self.addresses.len());
        Entry {
            kind: random.pick(&[STATIC, HELD, HELD, HELD, HELD, HELD, HELD, HELD]),
            name,
            dhcid: random.pick(&self.dhcids),
            v4: self.set(first, fours),
            v6: self.set(first, sixes),
        }
    }

    /// A free place, at times with anything in its other fields.
    fn free(&self, random: &mut Random) -> Entry {
        if !random.one_in(8) {
            return Entry::FREE;
        }
        let name = random.pick(&self.names);
        let mut entry = self.entry(random, name);
        entry.kind = FREE;
        entry.v4.count = random.octet();
        entry
    }

    /// A zone of none to four names, or of 62 to 64.
    pub fn zone(&self, random: &mut Random) -> Zone {
        let names = self.names.iter().filter(|_| random.one_in(2)).copied();
        let names: Vec<Name> = names.collect();
        let filled = if random.one_in(6) {
            random.pick(&[PLACES - 2, PLACES - 1, PLACES, PLACES])
        } else {
            random.pick(&[0, 0, 0, 2, 4])
        };
        self.zone_of(random, names, filled)
    }

    /// A zone of these names, and of others until `filled` are there.
    fn zone_of(&self, random: &mut Random, mut names: Vec<Name>, filled: usize) -> Zone {
        while names.len() < filled {
            names.push(filler(names.len()));
        }
        let mut zone = Zone::EMPTY;
        for (at, entry) in zone.entries.iter_mut().enumerate() {
            *entry = match names.get(at) {
                Some(name) => {
                    let name = again(random, name);
                    self.entry(random, name)
                }
                None => self.free(random),
            };
        }
        let turn = random.below(PLACES);
        zone.entries.rotate_left(turn);
        zone
    }

    /// The arguments of a sound new job.
    pub fn request(&self, random: &mut Random) -> Request {
        let name = random.pick(&self.names);
        Request {
            kind: random.pick(&[Kind::A, Kind::A, Kind::RemoveFirst]),
            name: again(random, &name),
            dhcid: random.pick(&self.dhcids),
            family: random.pick(&[4, 4, 6]),
            address: random.pick(&self.addresses),
            policy: random.pick(&[0, 0, 0, 0, 1, 2]),
        }
    }

    /// A few jobs, alike ones among them, and any zone.
    pub fn start(&self, random: &mut Random) -> Start {
        let mut jobs = vec![self.request(random)];
        for _ in 1..random.between(2, 6) {
            let next = if random.one_in(4) {
                random.pick(&jobs)
            } else {
                self.request(random)
            };
            jobs.push(next);
        }
        Start {
            zone: self.zone(random),
            jobs,
            steps: Vec::new(),
        }
    }

    /// A start where an add keeps missing a name, as others delete the name
    /// and add it again between its requests. One of those is left out, or
    /// none: then the add gives up.
    pub fn chase(&self, random: &mut Random) -> Start {
        let other = Request {
            policy: 0,
            ..self.request(random)
        };
        let mut kind = |kind| Request {
            kind,
            name: again(random, &other.name),
            ..other
        };
        let removes = [Kind::RemoveFirst; 3].map(&mut kind);
        let [mut add, second, third] = [Kind::A; 3].map(kind);
        if random.one_in(2) {
            add.dhcid[random.below(35)] ^= 1;
            add.address = random.pick(&self.addresses);
        }
        let jobs = [&[add], &removes[..], &[second, third]].concat();
        let between: [&[usize]; 5] = [&[1, 1], &[4], &[2, 2], &[5], &[3, 3]];
        let left_out = random.pick(&[1, 2, 2, 3, 4, 4, between.len(), between.len()]);
        let mut steps = vec![0];
        for (at, others) in between.iter().enumerate() {
            if at != left_out {
                steps.extend(*others);
            }
            steps.push(0);
        }
        Start {
            zone: self.zone_with(random, &other),
            jobs,
            steps,
        }
    }

    /// A start where jobs on two names want the last place of a zone: an owner
    /// gives it up and takes it back, and adds of the other name take it.
    pub fn crowd(&self, random: &mut Random) -> Start {
        let owner = Request {
            kind: Kind::RemoveFirst,
            policy: 0,
            ..self.request(random)
        };
        let [remove, add] = [Kind::RemoveFirst, Kind::A].map(|kind| (kind, owner.name));
        let other = (Kind::A, filler(PLACES));
        let mut jobs = vec![owner];
        for _ in 1..random.between(2, 4) {
            let (kind, name) = random.pick(&[remove, add, other, other, other, other]);
            let name = again(random, &name);
            jobs.push(Request {
                kind,
                name,
                ..owner
            });
        }
        let mut zone = self.zone_of(random, vec![owner.name], PLACES);
        hold(random, &mut zone, &owner);
        Start {
            zone,
            jobs,
            steps: vec![0; random.pick(&[0, 2, 2, 2])],
        }
    }

    /// A zone where a job's name is held, with its address only.
    pub fn zone_with(&self, random: &mut Random, job: &Request) -> Zone {
        let mut zone = self.zone(random);
        hold(random, &mut zone, job);
        zone
    }

    /// An add that finds no room, after any of its requests, and its zone:
    /// 64 other names before A, four other addresses before B.
    pub fn crowded(&self, random: &mut Random) -> (Zone, Job) {
        let at = random.below(self.addresses.len());
        let stage = random.pick(&[job::BEFORE_A, job::BEFORE_B]);
        let job = Job {
            stage,
            count: random.pick(counts(stage).expect("an add's stage")),
            policy: 0,
            address: self.addresses[at],
            ..self.job(random)
        };
        if stage == job::BEFORE_A {
            return (self.zone_of(random, Vec::new(), PLACES), job);
        }
        let filled = random.pick(&[1, PLACES]);
        let mut zone = self.zone_of(random, vec![job.name], filled);
        let named = |entry: &&mut Entry| entry.kind != FREE && entry.name == job.name;
        let entry = zone.entries.iter_mut().find(named).expect("its name");
        (entry.kind, entry.dhcid) = (HELD, job.dhcid);
        match job.family {
            4 => entry.v4 = self.set(at + 1, SET_MAX as u8),
            _ => entry.v6 = self.set(at + 1, SET_MAX as u8),
        }
        (zone, job)
    }

    /// A job at any stage, with a count the stage can have.
    pub fn job(&self, random: &mut Random) -> Job {
        let request = self.request(random);
        let any = random.pick(&STAGES);
        let stage = random.pick(&[any, any, job::BEFORE_A, job::BEFORE_B, job::BEFORE_B]);
        let count = match counts(stage) {
            Some(possible) => random.pick(possible),
            None => random.pick(&[0, 0, 1, 7, 255]),
        };
        let policy = match counts(stage) {
            Some(_) => request.policy,
            None => random.pick(&[0, 2, 3, 255]),
        };
        Job {
            stage,
            count,
            family: request.family,
            policy,
            name: request.name,
            dhcid: request.dhcid,
            address: request.address,
        }
    }

    /// Breaks a zone's form; the way it was done.
    pub fn break_zone(&self, random: &mut Random, zone: &mut Zone) -> &'static str {
        self.stock.break_zone(random, zone)
    }
}

/// Lets a job's name be held, with its address only.
fn hold(random: &mut Random, zone: &mut Zone, job: &Request) {
    let named = |entry: &Entry| entry.kind != FREE && entry.name == job.name;
    let known = zone.entries.iter().position(named);
    let at = known.unwrap_or_else(|| random.below(PLACES));
    let mut entry = Entry {
        kind: HELD,
        name: again(random, &job.name),
        dhcid: job.dhcid,
        ..Entry::FREE
    };
    match job.family {
        4 => entry.v4 = Set::only(std::array::from_fn(|octet| job.address[octet])),
        _ => entry.v6 = Set::only(job.address),
    }
    zone.entries[at] = entry;
}

/// Makes one of a job's numbers wrong; the way it was done. Only an add's
/// count and policy are read.
pub fn break_number(random: &mut Random, job: &mut Job) -> &'static str {
    match (random.below(4), counts(job.stage)) {
        (0, Some(possible)) => {
            while possible.contains(&job.count) {
                job.count = random.pick(&[0, 1, 2, 3, 4, 5, 6, 7, 8, 128, 255]);
            }
            "18: count"
        }
        (1, Some(_)) => {
            job.policy = random.pick(&[3, 4, 128, 255]);
            "18: policy"
        }
        (2, _) => {
            job.family = no_family(random);
            "18: family"
        }
        _ => {
            job.stage = random.pick(&[0, 7, 8, 9, 10, 16, 17, 128, 255]);
            "18: stage"
        }
    }
}

/// Puts anything in all of a job but its stage.
pub fn scramble(random: &mut Random, job: &mut Job) {
    (job.count, job.family, job.policy) = (random.octet(), random.octet(), random.octet());
    job.name.len = random.octet();
    random.fill(&mut job.name.octets);
    random.fill(&mut job.dhcid);
    random.fill(&mut job.address);
}

pub fn no_family(random: &mut Random) -> u8 {
    random.pick(&[0, 1, 2, 3, 5, 7, 46, 255])
}
