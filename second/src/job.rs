//! Add and remove jobs (document 01, "Zone, requests and jobs").
//!
//! A job sends one request a step and keeps in its stage what it sends next
//! or how it ended. Refusals keep the order of "Refusal numbers".
//! [`serial_order`] looks for the order of whole jobs that demand 3 promises,
//! [`serial_order_keeping`] for one in which some jobs stand before others
//! (document 02, n).

use std::collections::{BTreeMap, HashSet};

use crate::zone::{self, Address, Answer, Dhcid, FirstAnswer, Holding, Name, SecondAnswer, Zone};

/// Stages of an add.
pub const BEFORE_A: u8 = 1;
pub const BEFORE_B: u8 = 2;
pub const DONE: u8 = 3;
pub const CONFLICT: u8 = 4;
pub const NO_ROOM: u8 = 5;
pub const GAVE_UP: u8 = 6;
/// Stages of a remove.
pub const BEFORE_FIRST: u8 = 11;
pub const BEFORE_SECOND: u8 = 12;
pub const NOT_OURS: u8 = 13;
pub const GONE: u8 = 14;
pub const KEPT: u8 = 15;

/// Requests an add sends at the most.
pub const REQUESTS_MAX: u8 = 6;

/// A job by value. A remove's policy and count are ignored.
#[derive(Clone, Copy, PartialEq, Eq, Debug)]
pub struct Job {
    pub stage: u8,
    /// Requests an add has sent.
    pub count: u8,
    pub family: u8,
    pub policy: u8,
    pub name: Name,
    pub dhcid: Dhcid,
    pub address: Address,
}

impl Job {
    pub fn is_add(&self) -> bool {
        (BEFORE_A..=GAVE_UP).contains(&self.stage)
    }

    pub fn has_ended(&self) -> bool {
        matches!(self.stage, DONE..=GAVE_UP | NOT_OURS..=KEPT)
    }

    /// Refusal 18 unless stage, count, family and policy are ones the rules
    /// list, and the count one the stage can have.
    fn check_numbers(&self) -> Result<(), u8> {
        let possible = match self.stage {
            BEFORE_A => matches!(self.count, 0 | 2 | 4),
            BEFORE_B => matches!(self.count, 1 | 3 | 5),
            DONE | NO_ROOM => matches!(self.count, 1..=REQUESTS_MAX),
            CONFLICT => matches!(self.count, 2 | 4 | 6),
            GAVE_UP => self.count == REQUESTS_MAX,
            BEFORE_FIRST..=KEPT => true,
            _ => false,
        };
        if !possible {
            return Err(18);
        }
        let policy = if self.is_add() { self.policy } else { 0 };
        zone::check_numbers(self.family, policy)
    }

    /// The request an unended job is at, and the stage its answer leads to.
    fn send(&mut self, zone: &mut Zone) {
        let (name, dhcid, address) = (&self.name, &self.dhcid, &self.address);
        self.stage = match self.stage {
            BEFORE_A => {
                self.count += 1;
                after_add(
                    zone::send_a(zone, name, dhcid, self.family, address),
                    self.count,
                )
            }
            BEFORE_B => {
                self.count += 1;
                let policy = self.policy;
                let answer = zone::send_b(zone, name, dhcid, self.family, address, policy);
                after_add(answer, self.count)
            }
            BEFORE_FIRST => {
                match zone::send_remove_first(zone, name, dhcid, self.family, address) {
                    FirstAnswer::Passed => BEFORE_SECOND,
                    FirstAnswer::NotOurs => NOT_OURS,
                }
            }
            BEFORE_SECOND => match zone::send_remove_second(zone, name, dhcid) {
                SecondAnswer::Gone => GONE,
                SecondAnswer::NotHeld | SecondAnswer::HasAddress => KEPT,
            },
            ended => ended,
        };
    }
}

/// Where an add goes after an answer to its request number `sent`.
fn after_add(answer: Answer, sent: u8) -> u8 {
    match answer {
        Answer::Success => DONE,
        Answer::YxDomain => BEFORE_B,
        Answer::NxDomain if sent == REQUESTS_MAX => GAVE_UP,
        Answer::NxDomain => BEFORE_A,
        Answer::NxRrset => CONFLICT,
        Answer::NoRoom => NO_ROOM,
    }
}

/// A fresh add job; refusals 18, then 11.
pub fn new_add(
    name: &Name,
    dhcid: &Dhcid,
    family: u8,
    address: &Address,
    policy: u8,
) -> Result<Job, u8> {
    zone::check_numbers(family, policy)?;
    zone::check_name(name)?;
    Ok(Job {
        stage: BEFORE_A,
        count: 0,
        family,
        policy,
        name: *name,
        dhcid: *dhcid,
        address: *address,
    })
}

/// A fresh remove job; refusals 18, then 11.
pub fn new_remove(name: &Name, dhcid: &Dhcid, family: u8, address: &Address) -> Result<Job, u8> {
    let add = new_add(name, dhcid, family, address, 0)?;
    Ok(Job {
        stage: BEFORE_FIRST,
        ..add
    })
}

/// One step in place: one request, or nothing once the job has ended.
/// Refusals 17, 18, 11.
pub fn step_in_place(zone: &mut Zone, job: &mut Job) -> Result<(), u8> {
    zone::check(zone)?;
    job.check_numbers()?;
    zone::check_name(&job.name)?;
    job.send(zone);
    Ok(())
}

/// One step by value: the refusal or 0, the next zone and the next job.
pub fn step(mut zone: Zone, mut job: Job) -> (u8, Zone, Job) {
    let refusal = step_in_place(&mut zone, &mut job).err().unwrap_or(0);
    (refusal, zone, job)
}

/// Steps a job to its end, alone; a refused job stays where it is.
pub fn run_whole(zone: &mut Zone, job: &mut Job) -> Result<(), u8> {
    while !job.has_ended() {
        step_in_place(zone, job)?;
    }
    Ok(())
}

/// An order of whole jobs, as places in `jobs`, that leads from `start` to
/// the zone `end` and gives every add its answer (demand 3).
///
/// `jobs` are fresh, at most 64; `answers` has the stage each one ended with,
/// read for adds only. Adds that found no room or gave up are left out.
pub fn serial_order(start: &Zone, jobs: &[Job], end: &Zone, answers: &[u8]) -> Option<Vec<usize>> {
    serial_order_keeping(start, jobs, end, answers, &vec![0; jobs.len()])
}

/// The same, of orders where `before[at]` has a bit for every job that must
/// stand before job `at`. Bits of jobs that are left out do not count.
pub fn serial_order_keeping(
    start: &Zone,
    jobs: &[Job],
    end: &Zone,
    answers: &[u8],
    before: &[u64],
) -> Option<Vec<usize>> {
    let mut search = Search::new(jobs, end, answers, before);
    let remaining = search.remaining();
    search.extend(start, remaining).then_some(search.order)
}

/// Whether a job that ended with this stage has no place in an order: an add
/// that found no room or gave up.
pub fn is_left_out(job: &Job, answer: u8) -> bool {
    job.is_add() && matches!(answer, NO_ROOM | GAVE_UP)
}

type ZoneSet = BTreeMap<Vec<u8>, Holding>;

/// A search for an order, one job deeper at a time.
struct Search<'a> {
    jobs: &'a [Job],
    answers: &'a [u8],
    /// The jobs that must stand before each job.
    before: &'a [u64],
    end: ZoneSet,
    /// Jobs left and zones from which no order leads to the end. Which of the
    /// jobs left must stand before which is told by the jobs left alone.
    dead: HashSet<(u64, ZoneSet)>,
    order: Vec<usize>,
}

impl<'a> Search<'a> {
    fn new(jobs: &'a [Job], end: &Zone, answers: &'a [u8], before: &'a [u64]) -> Search<'a> {
        assert!(jobs.len() <= 64 && jobs.len() == answers.len() && jobs.len() == before.len());
        Search {
            jobs,
            answers,
            before,
            end: zone::as_set(end),
            dead: HashSet::new(),
            order: Vec::new(),
        }
    }

    /// The jobs that have a place in an order.
    fn remaining(&self) -> u64 {
        let left_out = |&at: &usize| is_left_out(&self.jobs[at], self.answers[at]);
        let places = (0..self.jobs.len()).filter(|at| !left_out(at));
        places.fold(0, |remaining, at| remaining | 1 << at)
    }

    /// Whether the jobs in `remaining` can follow; `order` then has them.
    fn extend(&mut self, zone: &Zone, remaining: u64) -> bool {
        let state = (remaining, zone::as_set(zone));
        if remaining == 0 {
            return state.1 == self.end;
        }
        if self.dead.contains(&state) {
            return false;
        }
        for at in 0..self.jobs.len() {
            if !self.is_next(at, remaining) || self.twin_before(at, remaining) {
                continue;
            }
            if let Some(next) = self.run(zone, at) {
                self.order.push(at);
                if self.extend(&next, remaining & !(1 << at)) {
                    return true;
                }
                self.order.pop();
            }
        }
        self.dead.insert(state);
        false
    }

    /// Whether a job remains and none that must stand before it does.
    fn is_next(&self, at: usize, remaining: u64) -> bool {
        remaining >> at & 1 == 1 && self.before[at] & remaining == 0
    }

    /// Whether an earlier job that could be next is alike, so that trying this
    /// one in its place shows nothing new. Where both could be next, they may
    /// change places in an order if the same jobs must stand after them.
    fn twin_before(&self, at: usize, remaining: u64) -> bool {
        (0..at).any(|other| {
            self.is_next(other, remaining)
                && self.jobs[other] == self.jobs[at]
                && self.answers[other] == self.answers[at]
                && self.same_after(other, at, remaining)
        })
    }

    /// Whether the jobs that remain and must stand after one job are those
    /// that must stand after another.
    fn same_after(&self, one: usize, other: usize, remaining: u64) -> bool {
        let remains = |at: &usize| remaining >> at & 1 == 1;
        let mut left = (0..self.jobs.len()).filter(remains);
        left.all(|at| (self.before[at] >> one ^ self.before[at] >> other) & 1 == 0)
    }

    /// The zone after one whole job, unless an add answers otherwise.
    fn run(&self, zone: &Zone, at: usize) -> Option<Zone> {
        let (mut zone, mut job) = (zone.clone(), self.jobs[at]);
        run_whole(&mut zone, &mut job).ok()?;
        (!job.is_add() || job.stage == self.answers[at]).then_some(zone)
    }
}

#[cfg(test)]
mod tests {
    use super::*;
    use crate::zone::{as_set, Entry, Set, HELD, STATIC};

    const X: Dhcid = [1; 35];
    const Y: Dhcid = [2; 35];

    fn name(number: u8) -> Name {
        Name::new(&[2, b'n', number, 0]).unwrap()
    }

    /// The same name with a capital letter.
    fn capital(number: u8) -> Name {
        Name::new(&[2, b'N', number, 0]).unwrap()
    }

    fn add(number: u8, dhcid: Dhcid, last: u8) -> Job {
        new_add(&name(number), &dhcid, 4, &[last; 16], 0).unwrap()
    }

    fn remove(number: u8, dhcid: Dhcid, last: u8) -> Job {
        new_remove(&name(number), &dhcid, 4, &[last; 16]).unwrap()
    }

    fn held(number: u8, dhcid: Dhcid, last: u8) -> Entry {
        let v4 = Set::only([last; 4]);
        Entry {
            kind: HELD,
            name: name(number),
            dhcid,
            v4,
            ..Entry::FREE
        }
    }

    fn zone(entries: &[Entry]) -> Zone {
        let mut zone = Zone::EMPTY;
        zone.entries[..entries.len()].copy_from_slice(entries);
        zone
    }

    /// One unrefused step; the stage it leads to.
    fn go(zone: &mut Zone, job: &mut Job) -> u8 {
        assert_eq!(step_in_place(zone, job), Ok(()));
        job.stage
    }

    #[test]
    fn p11_another_owner_is_a_conflict_in_two() {
        let mut z = zone(&[held(0, X, 1)]);
        let before = as_set(&z);
        let mut job = add(0, Y, 2);
        assert_eq!(go(&mut z, &mut job), BEFORE_B);
        assert_eq!(go(&mut z, &mut job), CONFLICT);
        assert_eq!((job.count, as_set(&z)), (2, before));
    }

    #[test]
    fn p12_an_add_between_two_remove_requests() {
        let start = zone(&[held(0, X, 1)]);
        let fresh = [remove(0, X, 1), add(0, Y, 2)];
        let ([mut x, mut y], mut z) = (fresh, start.clone());
        assert_eq!(go(&mut z, &mut x), BEFORE_SECOND);
        assert_eq!(go(&mut z, &mut y), BEFORE_B);
        assert_eq!(go(&mut z, &mut y), CONFLICT);
        assert_eq!(go(&mut z, &mut x), GONE);
        assert!(as_set(&z).is_empty());
        let order = serial_order(&start, &fresh, &z, &[GONE, CONFLICT]);
        assert_eq!(order, Some(vec![1, 0]));
        assert_eq!(
            serial_order(&start, &fresh, &start, &[GONE, CONFLICT]),
            None
        );
    }

    #[test]
    fn an_order_keeps_who_stands_before_whom() {
        // X leaves and comes back, or comes first and then leaves.
        let start = zone(&[held(0, X, 1)]);
        let end = zone(&[held(0, X, 9)]);
        let jobs = [remove(0, X, 1), add(0, X, 9)];
        let order = |before: [u64; 2]| {
            let answers = [GONE, DONE];
            serial_order_keeping(&start, &jobs, &end, &answers, &before)
        };
        assert_eq!(order([0, 0b01]), Some(vec![0, 1]));
        assert_eq!(order([0b10, 0]), Some(vec![1, 0]));
        assert_eq!(order([0b10, 0b01]), None);
        assert_eq!(order([0b01, 0]), None);
        assert!(order([0, 0]).is_some());
    }

    #[test]
    fn jobs_left_out_stand_before_none() {
        let jobs = [add(0, X, 1), add(1, X, 1)];
        let end = zone(&[held(1, X, 1)]);
        let order = |answers| serial_order_keeping(&Zone::EMPTY, &jobs, &end, answers, &[0, 0b01]);
        assert_eq!(order(&[NO_ROOM, DONE]), Some(vec![1]));
        assert_eq!(order(&[GAVE_UP, DONE]), Some(vec![1]));
        assert_eq!(order(&[DONE, DONE]), None);
    }

    #[test]
    fn alike_jobs_keep_who_stands_before_them() {
        // Y's conflict needs X's name, and the first of X's adds comes after.
        let jobs = [add(0, X, 1), add(0, X, 1), add(0, Y, 2)];
        let end = zone(&[held(0, X, 1)]);
        let order = |before: [u64; 3]| {
            let answers = [DONE, DONE, CONFLICT];
            serial_order_keeping(&Zone::EMPTY, &jobs, &end, &answers, &before)
        };
        assert_eq!(order([0b100, 0, 0]), Some(vec![1, 2, 0]));
        assert_eq!(order([0, 0b100, 0]), Some(vec![0, 2, 1]));
        assert_eq!(order([0b100, 0b100, 0]), None);
    }

    #[test]
    fn alike_jobs_keep_who_stands_after_them() {
        // X's name stands at the end, so an add comes after the remove. One
        // comes before it, and that is the one that has to.
        let jobs = [add(0, X, 1), add(0, X, 1), remove(0, X, 1)];
        let end = zone(&[held(0, X, 1)]);
        let order = |before: [u64; 3]| {
            let answers = [DONE, DONE, GONE];
            serial_order_keeping(&Zone::EMPTY, &jobs, &end, &answers, &before)
        };
        assert_eq!(order([0, 0, 0b010]), Some(vec![1, 2, 0]));
        assert_eq!(order([0, 0, 0b001]), Some(vec![0, 2, 1]));
        assert_eq!(order([0, 0, 0b011]), None);
    }

    #[test]
    fn p12_in_other_letters() {
        let start = zone(&[held(0, X, 1)]);
        let other = |job| Job {
            name: capital(0),
            ..job
        };
        let fresh = [other(remove(0, X, 1)), other(add(0, Y, 2)), add(0, Y, 2)];
        let ([mut x, mut y, mut again], mut z) = (fresh, start.clone());
        assert_eq!(go(&mut z, &mut x), BEFORE_SECOND);
        assert_eq!(go(&mut z, &mut y), BEFORE_B);
        assert_eq!(go(&mut z, &mut again), BEFORE_B);
        assert_eq!(go(&mut z, &mut again), CONFLICT);
        assert_eq!(z.entries[0].name.as_slice(), name(0).as_slice());
        assert_eq!(go(&mut z, &mut x), GONE);
        assert_eq!(go(&mut z, &mut y), BEFORE_A);
        assert_eq!(go(&mut z, &mut y), DONE);
        assert_eq!(z.entries[0].name.as_slice(), capital(0).as_slice());
        let order = serial_order(&start, &fresh, &z, &[GONE, DONE, CONFLICT]);
        assert_eq!(order, Some(vec![2, 0, 1]));
    }

    #[test]
    fn add_gives_up_after_six() {
        let mut job = add(0, X, 1);
        let mut zones = [zone(&[held(0, Y, 1)]), Zone::EMPTY];
        for sent in 1..=6 {
            // A finds the name, B misses it, three times over.
            let stage = go(&mut zones[usize::from(sent % 2 == 0)], &mut job);
            let expected = match sent {
                6 => GAVE_UP,
                1 | 3 | 5 => BEFORE_B,
                _ => BEFORE_A,
            };
            assert_eq!((stage, job.count), (expected, sent));
        }
        let ended = job;
        assert_eq!(go(&mut zones[0], &mut job), GAVE_UP);
        assert_eq!(job, ended);
    }

    #[test]
    fn adds_alone() {
        let mut z = Zone::EMPTY;
        let (mut first, mut second) = (add(0, X, 1), add(0, X, 2));
        run_whole(&mut z, &mut first).unwrap();
        run_whole(&mut z, &mut second).unwrap();
        assert_eq!((first.stage, first.count), (DONE, 1));
        assert_eq!((second.stage, second.count), (DONE, 2));
        for last in 3..=5 {
            let mut job = add(0, X, last);
            run_whole(&mut z, &mut job).unwrap();
            let expected = if last == 5 { NO_ROOM } else { DONE };
            assert_eq!((job.stage, job.count), (expected, 2));
        }
        let mut full = Zone::EMPTY;
        for (number, entry) in full.entries.iter_mut().enumerate() {
            *entry = held(number as u8, X, 1);
        }
        let mut job = add(64, X, 1);
        run_whole(&mut full, &mut job).unwrap();
        assert_eq!((job.stage, job.count), (NO_ROOM, 1));
    }

    #[test]
    fn removes_alone() {
        let mut z = zone(&[held(0, X, 1), held(1, X, 1)]);
        for (job, end) in [
            (remove(0, Y, 1), NOT_OURS),
            (remove(2, X, 1), NOT_OURS),
            (remove(0, X, 2), KEPT),
            (remove(0, X, 1), GONE),
        ] {
            let mut job = job;
            run_whole(&mut z, &mut job).unwrap();
            assert_eq!(job.stage, end);
        }
        assert_eq!(as_set(&z), as_set(&zone(&[held(1, X, 1)])));
    }

    #[test]
    fn seven_stages_are_ends() {
        let ended = |stage: &u8| {
            let job = Job {
                stage: *stage,
                ..add(0, X, 1)
            };
            job.has_ended()
        };
        let ends: Vec<u8> = (0..=255).filter(ended).collect();
        let adds = [DONE, CONFLICT, NO_ROOM, GAVE_UP];
        assert_eq!(ends, [&adds[..], &[NOT_OURS, GONE, KEPT]].concat());
    }

    #[test]
    fn counts_a_stage_can_have() {
        let allowed: [(u8, &[u8]); 6] = [
            (BEFORE_A, &[0, 2, 4]),
            (BEFORE_B, &[1, 3, 5]),
            (DONE, &[1, 2, 3, 4, 5, 6]),
            (CONFLICT, &[2, 4, 6]),
            (NO_ROOM, &[1, 2, 3, 4, 5, 6]),
            (GAVE_UP, &[6]),
        ];
        for stage in 0..=255u8 {
            for count in [0, 1, 2, 3, 4, 5, 6, 7, 255] {
                let listed = allowed.iter().find(|(known, _)| *known == stage);
                let fine = match listed {
                    Some((_, counts)) => counts.contains(&count),
                    None => (11..=15).contains(&stage),
                };
                let job = Job {
                    stage,
                    count,
                    ..add(0, X, 1)
                };
                let (refusal, _, next) = step(Zone::EMPTY, job);
                assert_eq!(refusal, if fine { 0 } else { 18 });
                assert!(fine || next == job);
            }
        }
    }

    #[test]
    fn refusals_of_a_new_job_come_in_order() {
        let cut = Name::new(&[1, 7]).unwrap();
        assert_eq!(new_add(&cut, &X, 5, &[0; 16], 0), Err(18));
        assert_eq!(new_add(&cut, &X, 4, &[0; 16], 3), Err(18));
        assert_eq!(new_add(&cut, &X, 6, &[0; 16], 2), Err(11));
        assert_eq!(new_remove(&cut, &X, 7, &[0; 16]), Err(18));
        assert_eq!(new_remove(&cut, &X, 4, &[0; 16]), Err(11));
    }

    #[test]
    fn refusals_of_a_step_come_in_order() {
        let cut = Name::new(&[1, 7]).unwrap();
        let bad = zone(&[Entry {
            kind: 7,
            ..Entry::FREE
        }]);
        let job = Job {
            name: cut,
            family: 9,
            ..add(0, X, 1)
        };
        assert_eq!(step(bad.clone(), job).0, 17);
        assert_eq!(step(Zone::EMPTY, job).0, 18);
        assert_eq!(
            step(
                Zone::EMPTY,
                Job {
                    policy: 3,
                    family: 4,
                    ..job
                }
            )
            .0,
            18
        );
        assert_eq!(step(Zone::EMPTY, Job { family: 4, ..job }).0, 11);
        let ended = Job {
            stage: KEPT,
            policy: 200,
            count: 200,
            ..remove(0, X, 1)
        };
        assert_eq!(step(bad, ended).0, 17);
        assert_eq!(step(Zone::EMPTY, ended).0, 0);
        assert_eq!(step(Zone::EMPTY, Job { family: 0, ..ended }).0, 18);
        assert_eq!(step(Zone::EMPTY, Job { name: cut, ..ended }).0, 11);
    }

    /// A small repeatable generator (xorshift).
    struct Random(u64);

    impl Random {
        fn below(&mut self, bound: u64) -> u8 {
            self.0 ^= self.0 << 13;
            self.0 ^= self.0 >> 7;
            self.0 ^= self.0 << 17;
            (self.0 >> 11).wrapping_rem(bound) as u8
        }

        fn dhcid(&mut self) -> Dhcid {
            if self.below(3) == 0 {
                Y
            } else {
                X
            }
        }

        /// A few held names with addresses, a static one, and `filler` others.
        fn zone(&mut self, filler: u8) -> Zone {
            let mut entries: Vec<Entry> = (100..100 + filler)
                .map(|number| Entry {
                    kind: STATIC,
                    ..held(number, X, 1)
                })
                .collect();
            for number in 0..self.below(3) {
                let mut entry = held(number, self.dhcid(), 1);
                let more = self.below(4);
                entry.v4.count += more;
                (0..4).for_each(|at| entry.v4.items[at] = [1 + at as u8; 4]);
                entries.push(entry);
            }
            zone(&entries)
        }

        fn job(&mut self) -> Job {
            let family = if self.below(6) == 0 { 6 } else { 4 };
            let address = [1 + self.below(5); 16];
            let spelled = if self.below(3) == 0 { capital } else { name };
            let (name, dhcid) = (spelled(self.below(3)), self.dhcid());
            if self.below(2) == 0 {
                return new_remove(&name, &dhcid, family, &address).unwrap();
            }
            let policy = [0, 0, 0, 1, 2][usize::from(self.below(5))];
            new_add(&name, &dhcid, family, &address, policy).unwrap()
        }

        /// Steps of the jobs in any mixture; the zone they leave, and the
        /// stages with which the jobs ended.
        fn mix(&mut self, start: &Zone, fresh: &[Job]) -> (Zone, Vec<u8>) {
            let (mut z, mut jobs) = (start.clone(), fresh.to_vec());
            while !jobs.iter().all(Job::has_ended) {
                let at = usize::from(self.below(jobs.len() as u64));
                go(&mut z, &mut jobs[at]);
            }
            (z, jobs.iter().map(|job| job.stage).collect())
        }
    }

    #[test]
    fn mixed_steps_have_a_serial_order() {
        let mut random = Random(0x4703);
        let mut ends = [0; 16];
        for round in 0..3_000u32 {
            let filler = if round % 2 == 0 {
                0
            } else {
                60 + random.below(3)
            };
            let start = random.zone(filler);
            let fresh: Vec<Job> = (0..2 + random.below(4)).map(|_| random.job()).collect();
            let (z, answers) = random.mix(&start, &fresh);
            answers
                .iter()
                .for_each(|&stage| ends[usize::from(stage)] += 1);
            let order = serial_order(&start, &fresh, &z, &answers);
            assert!(order.is_some(), "round {round}: {fresh:?} {answers:?}");
        }
        for stage in [DONE, CONFLICT, NO_ROOM, NOT_OURS, GONE, KEPT] {
            assert!(ends[usize::from(stage)] > 0, "stage {stage} never came up");
        }
    }

    /// Whether the jobs in `remaining` can follow, in one of all their orders.
    fn can_follow(search: &Search, zone: &Zone, remaining: u64) -> bool {
        if remaining == 0 {
            return as_set(zone) == search.end;
        }
        let mut places = (0..search.jobs.len()).filter(|&at| search.is_next(at, remaining));
        places.any(|at| {
            let next = search.run(zone, at);
            next.is_some_and(|next| can_follow(search, &next, remaining & !(1 << at)))
        })
    }

    #[test]
    fn orders_are_found_where_there_are_some() {
        let mut random = Random(0x4704);
        let mut found = [0; 2];
        for round in 0..3_000u32 {
            let start = random.zone(if round % 2 == 0 { 0 } else { 62 });
            let mut jobs = vec![random.job(), random.job(), random.job()];
            jobs.push(jobs[usize::from(random.below(3))]);
            let (z, answers) = random.mix(&start, &jobs);
            let before: Vec<u64> = (0..4)
                .map(|at| u64::from(random.below(16) & random.below(16)) & !(1 << at))
                .collect();
            let order = serial_order_keeping(&start, &jobs, &z, &answers, &before);
            let search = Search::new(&jobs, &z, &answers, &before);
            let is_some = can_follow(&search, &start, search.remaining());
            assert_eq!(order.is_some(), is_some, "{jobs:?} {answers:?} {before:?}");
            found[usize::from(is_some)] += 1;
        }
        assert!(found.iter().all(|&count| count > 500), "{found:?}");
    }
}
