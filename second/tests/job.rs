//! Compares the product's jobs, their steps by value and on a lent zone, with
//! the second program, looks for the serial order of demand 3, and steps what
//! was sent to a real BIND.

mod common;

use common::bind;
use common::faults::{self, first, has_another, number};
use common::jobs::{self, called, Pool, Start};
use common::lent::{is_same, places_written};
use common::letters::{self, is_spelled_alike};
use common::product::{self, Way, WAYS};
use common::random::{from_both_seeds, Random, FIXED_SEED};
use common::requests::{Kind, Request};
use common::stack::on_a_stack;
use common::tally::Tally;
use common::twin::Twin;
use common::zones::{self, entry_at, no_full_name, same_zone};
use jespurla::raw::{self, StepAnswer};
use second::job::{self, Job};
use second::zone::{as_set, check, Entry, Zone, FREE};

/// Lists of steps compared by one run, at the least; two runs are made.
const LISTS: usize = 50_000;
/// Cases of each kind, at the least.
const EACH: usize = 1_000;
/// Lists whose steps run on a small stack.
const SMALL_LISTS: usize = 2_000;
/// Jobs in an order that is looked for, at the most.
const ORDER_MAX: usize = 6;
/// Steps drawn for one list, at the most.
const STEPS: usize = 60;

/// Refusals in the order in which they are given.
const ORDER: [u8; 3] = [17, 18, 11];

/// What a case can be. Each is run by value and on a lent zone, so that every
/// count is one of both.
const KINDS: &[&str] = &[
    "18: family of a new add",
    "18: policy of a new add",
    "11: name of a new add",
    "18: family of a new remove",
    "11: name of a new remove",
    "18 ahead of 11, new job",
    "18: stage",
    "18: count",
    "18: family",
    "18: policy",
    "11: name",
    "refused: before A",
    "refused: before B",
    "refused: before first remove",
    "refused: before second remove",
    "refused: ended",
    "stepped: before A",
    "stepped: before B",
    "stepped: before first remove",
    "stepped: before second remove",
    "stepped: done",
    "stepped: conflict",
    "stepped: no room",
    "stepped: gave up",
    "stepped: not ours",
    "stepped: gone",
    "stepped: kept",
    "to before A, 2 sent",
    "to before A, 4 sent",
    "to before B, 1 sent",
    "to before B, 3 sent",
    "to before B, 5 sent",
    "to done, 1 sent",
    "to done, 2 sent",
    "to done, 3 sent",
    "to done, 4 sent",
    "to done, 5 sent",
    "to done, 6 sent",
    "to conflict, 2 sent",
    "to conflict, 4 sent",
    "to conflict, 6 sent",
    "to no room, 1 sent",
    "to no room, 2 sent",
    "to no room, 3 sent",
    "to no room, 4 sent",
    "to no room, 5 sent",
    "to no room, 6 sent",
    "to gave up, 6 sent",
    "to before second remove",
    "to not ours",
    "to gone",
    "to kept",
    "list's job: done, 1 sent",
    "list's job: done, 2 sent",
    "list's job: done, 3 sent",
    "list's job: done, 4 sent",
    "list's job: done, 5 sent",
    "list's job: done, 6 sent",
    "list's job: conflict, 2 sent",
    "list's job: conflict, 4 sent",
    "list's job: conflict, 6 sent",
    "list's job: no room",
    "list's job: gave up, 6 sent",
    "list's job: not ours",
    "list's job: gone",
    "list's job: kept",
    "list's job after its end",
    "list with jobs alike",
    "list cut short",
    "order found, 1 or 2 jobs",
    "order found, 3 jobs",
    "order found, 4 jobs",
    "order found, 5 jobs",
    "order found, 6 jobs",
    "order found, adds left out",
];

/// What the steps on a lent zone gave and did, and which steps lists are of.
const LENT: &[&str] = &[
    "lent: refusal 17",
    "lent: refusal 18",
    "lent: refusal 11",
    "lent: no refusal",
    "lent: no place written",
    "lent: one place written",
    "list's step by value",
    "list's step lent",
    "order found, steps by value alone",
    "order found, steps lent alone",
    "order found, steps of both kinds",
];

/// Steps that sent a request and met their name in other letters.
const LETTERS: &[&str] = &[
    "in other letters: before A",
    "in other letters: before B",
    "in other letters: before first remove",
    "in other letters: before second remove",
    "list's job: done, added again in other letters",
];

/// What a job is told of its end.
const ENDS: &[&str] = &["answer 0", "answer 1"];

/// A job of a list.
#[derive(Clone, Copy)]
struct Member {
    fresh: Job,
    now: Job,
    /// Its own unrefused steps up to its end.
    sent: u8,
    /// The list's step with which it ended.
    ended: usize,
}

/// A zone as both programs hold it; places may differ.
#[derive(Clone)]
struct Both {
    second: Zone,
    product: raw::Zone,
}

impl Both {
    fn new(zone: &Zone) -> Both {
        Both {
            second: zone.clone(),
            product: zone.twin(),
        }
    }

    /// Whether a zone of the product's is of good form and the second
    /// program's, every name in the same letters. If so, its places are taken
    /// over.
    fn take(&mut self, left: &raw::Zone) -> bool {
        let mut places = left.entries.iter().zip(&self.second.entries);
        if !places.all(|(left, right)| same_place(left, right)) {
            let ours = left.twin();
            if check(&ours) != Ok(()) || !same_zone(&ours, &self.second) {
                return false;
            }
            self.second = ours;
        }
        self.product = *left;
        true
    }
}

/// Whether two places are the same; free ones are not converted.
fn same_place(left: &raw::Entry, right: &Entry) -> bool {
    left.kind == right.kind && (left.kind == FREE || zones::same_place(&left.twin(), right))
}

/// A list of steps under way.
struct List {
    start: Zone,
    zone: Both,
    members: Vec<Member>,
    steps: usize,
    /// Those of the steps that the zone was lent to.
    lent: usize,
    /// The ways of which the next step takes one.
    ways: &'static [Way],
}

impl List {
    fn has_ended(&self) -> bool {
        self.members.iter().all(|member| member.now.has_ended())
    }

    fn has_alike(&self) -> bool {
        let members = &self.members;
        (1..members.len()).any(|at| members[..at].iter().any(|m| m.fresh == members[at].fresh))
    }
}

/// How the product's step is called; the zone becomes the one that it left.
type Call = fn(Way, &mut raw::Zone, &raw::Job) -> StepAnswer;

/// The step on a thread with as little stack as it must do with.
fn on_a_small_stack(way: Way, zone: &mut raw::Zone, job: &raw::Job) -> StepAnswer {
    on_a_stack(way.stack(), || way.step(zone, job))
}

/// What the product told of a step, and the zone that it left.
struct Told {
    answer: StepAnswer,
    zone: raw::Zone,
}

impl Told {
    /// Whether it told this; the job comes back octet for octet.
    fn said(&self, refusal: u8, next: &Job) -> bool {
        self.answer.refusal == u32::from(refusal) && self.answer.job == next.twin()
    }

    fn print(&self, title: &str) {
        let (refusal, job) = (self.answer.refusal, self.answer.job);
        println!("product {title} {refusal} {job:02x?}");
        println!("which left {:02x?}", as_set(&self.zone.twin()));
    }
}

/// A run from one seed: what it drew and what it counted.
struct Run {
    random: Random,
    tally: Tally,
    /// Steps that sent a request.
    sent: usize,
    call: Call,
}

impl Run {
    fn new(seed: u64, call: Call) -> Run {
        Run {
            random: Random::new(seed),
            tally: Tally::new(&[
                zones::FAULTS,
                faults::AHEAD,
                KINDS,
                letters::MET,
                LETTERS,
                LENT,
            ]),
            sent: 0,
            call,
        }
    }

    /// Makes a job with both programs. A refused one is blank.
    fn make(&mut self, request: &Request, faults: &[&str]) -> Option<Job> {
        let expected = jobs::fresh(request);
        let got = product::new_job(request);
        let wanted = match &expected {
            Ok(job) => (0, job.twin()),
            Err(refusal) => (u32::from(*refusal), raw::Job::BLANK),
        };
        if (got.refusal, got.job) != wanted {
            println!("second {expected:02x?}, product {got:02x?}");
            println!("{request:02x?}");
            panic!("the programs differ, seed {}", self.random.seed);
        }
        let fault = first(&ORDER, faults);
        assert_eq!(fault.map(number), expected.err(), "{faults:?}");
        if let Some(fault) = fault {
            self.tally.count(fault);
            if number(fault) == 18 && has_another(faults, fault) {
                self.tally.count("18 ahead of 11, new job");
            }
        }
        expected.ok()
    }

    /// A new job call that is refused.
    fn refused_make(&mut self, pool: &Pool) {
        let mut request = pool.request(&mut self.random);
        let mut faults = Vec::new();
        let add = request.kind == Kind::A;
        if add && self.random.one_in(3) {
            request.policy = self.random.pick(&[3, 4, 128, 255]);
            faults.push("18: policy of a new add");
        } else if self.random.one_in(2) {
            request.family = jobs::no_family(&mut self.random);
            faults.push(if add {
                "18: family of a new add"
            } else {
                "18: family of a new remove"
            });
        }
        if faults.is_empty() || self.random.one_in(3) {
            request.name = no_full_name(&mut self.random);
            faults.push(if add {
                "11: name of a new add"
            } else {
                "11: name of a new remove"
            });
        }
        self.make(&request, &faults);
    }

    /// Steps a job with both programs. The product's two ways tell the same
    /// and leave the same octets; of a lent zone, none is written where the
    /// rules leave it as it is, as they do where the step is refused, else
    /// those of one place. The zone that goes on is the one that `way` left.
    fn step(&mut self, way: Way, zone: &mut Both, job: &Job, faults: &[&str]) -> Job {
        let given = zone.clone();
        let mut next = *job;
        let refusal = job::step_in_place(&mut zone.second, &mut next).err();
        let refusal = refusal.unwrap_or(0);
        let [by_value, lent] = WAYS.map(|way| self.ask(way, &given.product, job));
        let written = places_written(&given.product, &lent.zone);
        let changes = !same_zone(&given.second, &zone.second);
        let left = match way {
            Way::ByValue => &by_value.zone,
            Way::Lent => &lent.zone,
        };
        let same = by_value.said(refusal, &next)
            && lent.said(refusal, &next)
            && is_same(&by_value.zone, &lent.zone)
            && written <= usize::from(changes)
            && (refusal != 0 || zone.take(left));
        if !same {
            println!("{job:02x?}");
            println!("second {refusal} {next:02x?}");
            println!("which left {:02x?}", as_set(&zone.second));
            by_value.print("by value");
            lent.print("lent");
            println!("{written} places of the lent zone written");
            panic!("the programs differ, seed {}", self.random.seed);
        }
        self.count(job, &next, refusal, faults);
        self.count_lent(refusal, written);
        if refusal == 0 && !job.has_ended() {
            self.count_letters(&given.second, job);
        }
        next
    }

    /// A step of the product's.
    fn ask(&self, way: Way, given: &raw::Zone, job: &Job) -> Told {
        let mut zone = *given;
        let answer = (self.call)(way, &mut zone, &job.twin());
        Told { answer, zone }
    }

    fn count_lent(&mut self, refusal: u8, written: usize) {
        match refusal {
            0 => self.tally.count("lent: no refusal"),
            _ => self.tally.count(&format!("lent: refusal {refusal}")),
        }
        self.tally.count(match written {
            0 => "lent: no place written",
            _ => "lent: one place written",
        });
    }

    fn count_letters(&mut self, zone: &Zone, job: &Job) {
        self.sent += 1;
        if letters::count(&mut self.tally, zone, &job.name) {
            let before = called(job.stage);
            self.tally.count(&format!("in other letters: {before}"));
        }
    }

    fn count(&mut self, job: &Job, next: &Job, refusal: u8, faults: &[&str]) {
        let fault = first(&ORDER, faults);
        let expected = fault.map_or(0, number);
        assert_eq!(expected, refusal, "{faults:?}");
        match fault {
            Some(fault) => count_refusal(&mut self.tally, job, faults, fault),
            None => count_step(&mut self.tally, job, next),
        }
    }

    /// A step of one of the list's jobs.
    fn own_step(&mut self, list: &mut List, at: usize) {
        let way = self.random.pick(list.ways);
        list.steps += 1;
        list.lent += usize::from(way == Way::Lent);
        let member = &mut list.members[at];
        let now = self.step(way, &mut list.zone, &member.now, &[]);
        self.tally.count(match way {
            Way::ByValue => "list's step by value",
            Way::Lent => "list's step lent",
        });
        if member.now.has_ended() {
            return self.tally.count("list's job after its end");
        }
        if is_added_again(&list.start, &member.now, &now) {
            self.tally
                .count("list's job: done, added again in other letters");
        }
        member.now = now;
        member.sent += 1;
        let count = if now.is_add() { member.sent } else { 0 };
        assert_eq!(now.count, count, "the count is the number of its own steps");
        if now.has_ended() {
            member.ended = list.steps;
            self.tally.count(&format!("list's job: {}", end(&now)));
        }
    }

    /// A job at any stage that is none of the list's, or a copy of one.
    fn loose_job(&mut self, list: &List, pool: &Pool) -> Job {
        if self.random.one_in(3) {
            let at = self.random.below(list.members.len());
            return list.members[at].now;
        }
        pool.job(&mut self.random)
    }

    /// A refused step, with one fault or several.
    fn refused_step(&mut self, list: &List, pool: &Pool) {
        let mut zone = list.zone.second.clone();
        let mut job = self.loose_job(list, pool);
        let mut faults = Vec::new();
        if self.random.one_in(3) {
            faults.push(pool.break_zone(&mut self.random, &mut zone));
        }
        if self.random.one_in(2) {
            faults.push(jobs::break_number(&mut self.random, &mut job));
        }
        if faults.is_empty() || self.random.one_in(4) {
            job.name = no_full_name(&mut self.random);
            faults.push("11: name");
        }
        self.step(Way::Lent, &mut Both::new(&zone), &job, &faults);
    }

    /// The place of a job to step next, mostly one that hasn't ended.
    fn next_member(&mut self, list: &List) -> usize {
        let mut at = self.random.below(list.members.len());
        while list.members[at].now.has_ended() && !list.has_ended() && !self.random.one_in(4) {
            at = self.random.below(list.members.len());
        }
        at
    }

    /// A step that leaves the list as it is: refused, or done on a copy.
    fn side_step(&mut self, list: &List, pool: &Pool) {
        if self.random.one_in(2) {
            return self.refused_step(list, pool);
        }
        let job = self.loose_job(list, pool);
        self.step(Way::Lent, &mut list.zone.clone(), &job, &[]);
    }

    /// Steps in any mixture, those of the start ahead; then some after the
    /// end. Some lists are cut short.
    fn steps(&mut self, list: &mut List, pool: &Pool, ahead: &[usize]) {
        for &at in ahead {
            if self.random.one_in(8) {
                self.side_step(list, pool);
            }
            self.own_step(list, at);
        }
        let most = self.random.pick(&[3, STEPS, STEPS, STEPS, STEPS, STEPS]);
        for _ in 0..most {
            if list.has_ended() {
                break;
            }
            if self.random.one_in(4) {
                self.side_step(list, pool);
            }
            let at = self.next_member(list);
            self.own_step(list, at);
        }
        for _ in 0..self.random.below(3) {
            let at = self.next_member(list);
            self.own_step(list, at);
        }
    }

    /// Makes the start's jobs.
    fn begin(&mut self, start: &Start) -> List {
        assert_eq!(check(&start.zone), Ok(()), "seed {}", self.random.seed);
        let mut members = Vec::new();
        for request in &start.jobs {
            let fresh = self.make(request, &[]).expect("a sound job");
            members.push(Member {
                fresh,
                now: fresh,
                sent: 0,
                ended: 0,
            });
        }
        List {
            start: start.zone.clone(),
            zone: Both::new(&start.zone),
            members,
            steps: 0,
            lent: 0,
            ways: self.random.pick(&[&WAYS, &WAYS, &WAYS[..1], &WAYS[1..]]),
        }
    }

    /// One list of steps from its new jobs to its order.
    fn list(&mut self) {
        self.tally.cases += 1;
        let pool = Pool::new(&mut self.random);
        let start = if self.random.one_in(4) {
            pool.chase(&mut self.random)
        } else {
            pool.start(&mut self.random)
        };
        if self.random.one_in(2) {
            self.refused_make(&pool);
        }
        if self.random.one_in(5) {
            let (zone, job) = pool.crowded(&mut self.random);
            self.step(Way::Lent, &mut Both::new(&zone), &job, &[]);
        }
        let mut list = self.begin(&start);
        if list.has_alike() {
            self.tally.count("list with jobs alike");
        }
        self.steps(&mut list, &pool, &start.steps);
        self.order(&list);
    }

    /// Demand 3: the remaining jobs have an order, one whole job after the
    /// other, with the product's zone at the end and the product's answers.
    /// Jobs that ended first are tried first.
    fn order(&mut self, list: &List) {
        if !list.has_ended() {
            return self.tally.count("list cut short");
        }
        let mut members = list.members.clone();
        members.sort_by_key(|member| member.ended);
        let fresh: Vec<Job> = members.iter().map(|member| member.fresh).collect();
        let answers: Vec<u8> = members.iter().map(|member| member.now.stage).collect();
        let left_out = |member: &&Member| job::is_left_out(&member.fresh, member.now.stage);
        let left_out = members.iter().filter(left_out).count();
        let remaining = members.len() - left_out;
        if remaining > ORDER_MAX {
            return;
        }
        let end = list.zone.product.twin();
        let Some(order) = job::serial_order(&list.start, &fresh, &end, &answers) else {
            println!("{fresh:02x?} ended {answers:?}");
            println!("{:02x?} to {:02x?}", as_set(&list.start), as_set(&end));
            panic!("no serial order, seed {}", self.random.seed);
        };
        assert_eq!(order.len(), remaining);
        self.count_order(remaining, left_out);
        self.tally.count(match list.lent {
            0 => "order found, steps by value alone",
            lent if lent == list.steps => "order found, steps lent alone",
            _ => "order found, steps of both kinds",
        });
    }

    fn count_order(&mut self, remaining: usize, left_out: usize) {
        match remaining {
            0 => {}
            1 | 2 => self.tally.count("order found, 1 or 2 jobs"),
            jobs => self.tally.count(&format!("order found, {jobs} jobs")),
        }
        if left_out > 0 {
            self.tally.count("order found, adds left out");
        }
    }

    fn whole(mut self) {
        while self.tally.cases < LISTS {
            self.list();
        }
        let title = format!("seed {}, lists of job steps", self.random.seed);
        self.tally.report(&title, LISTS, EACH);
        self.tally.assert_third(letters::OTHER_LETTERS, self.sent);
    }
}

/// Whether a step adds a name in other letters than a list's start has it in.
fn is_added_again(start: &Zone, job: &Job, next: &Job) -> bool {
    let added = (job.stage, next.stage) == (job::BEFORE_A, job::DONE);
    let before = entry_at(start, &job.name);
    added && before.is_some_and(|entry| !is_spelled_alike(&entry.name, &job.name))
}

/// A job's stage, with an add's count.
fn title(job: &Job) -> String {
    if job.is_add() {
        format!("{}, {} sent", called(job.stage), job.count)
    } else {
        called(job.stage).to_string()
    }
}

/// How a list's job ended. Lists are too short for every count of no room.
fn end(job: &Job) -> String {
    match job.stage {
        job::NO_ROOM => called(job.stage).to_string(),
        _ => title(job),
    }
}

fn count_refusal(tally: &mut Tally, job: &Job, faults: &[&str], fault: &str) {
    faults::count(tally, faults, fault);
    if job.has_ended() {
        tally.count("refused: ended");
    } else if jobs::STAGES.contains(&job.stage) {
        tally.count(&format!("refused: {}", called(job.stage)));
    }
}

fn count_step(tally: &mut Tally, job: &Job, next: &Job) {
    tally.count(&format!("stepped: {}", called(job.stage)));
    if !job.has_ended() {
        tally.count(&format!("to {}", title(next)));
    }
}

#[test]
fn lists_are_the_same() {
    from_both_seeds(|seed| Run::new(seed, Way::step).whole());
}

#[test]
fn steps_do_with_a_small_stack() {
    let mut run = Run::new(FIXED_SEED, on_a_small_stack);
    while run.tally.cases < SMALL_LISTS {
        run.list();
    }
}

/// Whether a job has ended is told by its stage, whatever else it holds.
#[test]
fn ends_are_the_same() {
    let mut random = Random::new(FIXED_SEED);
    let mut tally = Tally::new(&[ENDS]);
    while tally.cases < 256 * EACH {
        let pool = Pool::new(&mut random);
        for stage in 0..=255 {
            let mut job = pool.job(&mut random);
            job.stage = stage;
            if random.one_in(2) {
                jobs::scramble(&mut random, &mut job);
            }
            let told = raw::job_has_ended(&job.twin());
            assert_eq!(told, u8::from(job.has_ended()), "{job:02x?}");
            tally.cases += 1;
            tally.count(&format!("answer {told}"));
        }
    }
    tally.report("whether jobs have ended", 256 * EACH, EACH);
}

#[test]
fn the_products_jobs_send_what_bind_was_sent() {
    let make = |request: &Request| {
        let made = product::new_job(request);
        match made.refusal {
            0 => Ok(made.job.twin()),
            refusal => Err(refusal as u8),
        }
    };
    for way in WAYS {
        let step = |zone: &mut Zone, job: &mut Job| {
            let mut left = zone.twin();
            let got = way.step(&mut left, &job.twin());
            (*zone, *job) = (left.twin(), got.job.twin());
            match got.refusal {
                0 => Ok(()),
                refusal => Err(refusal as u8),
            }
        };
        assert_eq!(bind::replay_jobs(make, step), bind::ALL, "{way:?}");
    }
}
