//! How long an add of the product's can keep asking: in lists of steps of
//! fresh jobs, mixed in any way, the requests that it sends are held to the
//! deletions of its name meanwhile.
//!
//! N is the number of requests that an add has sent, r that of the deletions
//! of its name strictly between the first of them and the last. Both are read
//! from a log of the steps.

mod common;

use common::jobs::{called, Pool};
use common::letters::is_spelled_alike;
use common::pipe;
use common::product::{Way, WAYS};
use common::random::{from_both_seeds, Random};
use common::requests::{Kind, Request};
use common::step_list::{Leads, List, REFUSED};
use common::step_log::{Asked, Step};
use common::tally::Tally;
use common::twin::Twin;
use common::zones::again;
use jespurla::raw;
use second::job::{self, Job};
use second::zone::{Address, Entry, Name, FREE, HELD};

/// Lists run by one run, at the least; two runs are made.
const LISTS: usize = 40_000;
/// Cases of each kind, at the least.
const EACH: usize = 1_000;
/// Steps of a list, at the most.
const STEPS: usize = 60;
/// Requests of an add, at the most.
const SENT_MAX: usize = 6;

/// What the steps of the lists are.
const STEPPED: &[&str] = &[
    "step by value",
    "step lent",
    "step after the job's end",
    "deletion by value",
    "deletion lent",
    "deletion beside another name",
];

/// What an add is at the end of its list.
const KINDS: &[&str] = &[
    "ended, N = 1",
    "ended, N = 2",
    "ended, N = 3",
    "ended, N = 4",
    "ended, N = 5",
    "ended, N = 6",
    "ended: done",
    "ended: conflict",
    "ended: no room",
    "ended: gave up",
    "not ended, N = 0",
    "not ended, N = 1",
    "not ended, N = 2",
    "not ended, N = 3",
    "not ended, N = 4",
    "not ended, N = 5",
    "r = 0",
    "r = 1",
    "r = 2",
    "r = 3",
    "r above 3",
    "N = 2 + 2r, r = 0",
    "N = 2 + 2r, r = 1",
    "N = 2 + 2r, r = 2",
    "gave up, r = 3",
    "deletion before the first request",
    "deletion after the last request",
    "deletion counted, in other letters",
    "refused steps between the requests",
    "steps after the end",
    "N above 2, family 4",
    "N above 2, family 6",
    "N above 2, policy 0",
    "N above 2, policy 1",
    "N above 2, policy 2",
];

/// What a claim is called, and whether an add breaks it.
type Claim = (&'static str, fn(&Add) -> bool);

/// Wrong claims. The lists that have an add which breaks one are counted, so
/// that the lists are known to tell the right claim from these.
const WRONG: [Claim; 7] = [
    ("breaks: at most 2 + r", |add| {
        add.asked.sent() > 2 + add.asked.deleted()
    }),
    ("breaks: at most 1 + 2r", |add| {
        add.asked.sent() > 1 + 2 * add.asked.deleted()
    }),
    ("breaks: r from the second request on", |add| {
        let later = add.asked.requests.get(1..).unwrap_or_default();
        add.broken_by(add.asked.deletions_within(later).len())
    }),
    ("breaks: r up to the last request but one", |add| {
        let last = add.asked.sent().saturating_sub(1);
        let earlier = &add.asked.requests[..last];
        add.broken_by(add.asked.deletions_within(earlier).len())
    }),
    ("breaks: r less the deletions after", |add| {
        let (within, after) = (add.asked.deleted(), add.asked.deleted_after());
        add.broken_by(within.saturating_sub(after))
    }),
    ("breaks: r without other letters", |add| {
        add.broken_by(add.asked.deleted() - add.in_other_letters)
    }),
    ("breaks: gave up needs r of 4", |add| {
        add.job.stage == job::GAVE_UP && add.asked.deleted() < 4
    }),
];

/// The bound that an add at a stage breaks with N and r, if any.
fn broken_bound(stage: u8, n: usize, r: usize) -> Option<&'static str> {
    let has_ended = !matches!(stage, job::BEFORE_A | job::BEFORE_B);
    if n > 2 + 2 * r {
        Some("N is at most 2 + 2r")
    } else if n > SENT_MAX {
        Some("N is at most 6")
    } else if stage == job::GAVE_UP && r < 3 {
        Some("an add that gave up has r of 3 or more")
    } else if !has_ended && n > 1 + 2 * r {
        Some("N of an add that has not ended is at most 1 + 2r")
    } else {
        None
    }
}

/// An add at the end of its list.
struct Add {
    number: usize,
    job: Job,
    asked: Asked,
    /// Deletions counted in r of jobs that have its name in other letters.
    in_other_letters: usize,
}

impl Add {
    fn new(list: &List, number: usize) -> Add {
        let job = list.jobs[number].twin();
        let asked = Asked::new(&list.log, number, &job.name);
        let counted = asked.deletions_within(&asked.requests);
        let respelled = |&&at: &&usize| !is_spelled_alike(&list.log[at].name, &job.name);
        Add {
            number,
            job,
            in_other_letters: counted.iter().filter(respelled).count(),
            asked,
        }
    }

    /// Whether a bound is broken where r is read as this.
    fn broken_by(&self, r: usize) -> bool {
        broken_bound(self.job.stage, self.asked.sent(), r).is_some()
    }
}

/// The adds of a list, each held to the bounds; its count is N.
fn adds(list: &List) -> Vec<Add> {
    let is_add = |&number: &usize| list.jobs[number].twin().is_add();
    let numbers = (0..list.jobs.len()).filter(is_add);
    let adds: Vec<Add> = numbers.map(|number| Add::new(list, number)).collect();
    for add in &adds {
        let (number, count) = (add.number, usize::from(add.job.count));
        let (n, r) = (add.asked.sent(), add.asked.deleted());
        if count != n {
            list.fail(&format!("job {number} counts {count}, but N is {n}"));
        }
        if let Some(bound) = broken_bound(add.job.stage, n, r) {
            list.fail(&format!("{bound}; job {number} has {n}, r is {r}"));
        }
    }
    adds
}

/// A run from one seed: what it drew and what it counted.
struct Run {
    random: Random,
    tally: Tally,
}

impl Run {
    fn new(seed: u64) -> Run {
        let wrong = WRONG.map(|(claim, _)| claim);
        Run {
            random: Random::new(seed),
            tally: Tally::new(&[STEPPED, REFUSED, KINDS, &wrong]),
        }
    }

    /// One list, from its fresh jobs to a stop at any place.
    fn list(&mut self) {
        self.tally.cases += 1;
        let pool = Pool::new(&mut self.random);
        let start = if self.random.one_in(3) {
            pool.start(&mut self.random)
        } else {
            pool.chase(&mut self.random)
        };
        let title = format!("seed {}, list {}", self.random.seed, self.tally.cases);
        let mut list = List::new(title, &start.zone);
        for request in &start.jobs {
            list.take(request);
        }
        // One step in so many is drawn without a look at the stages.
        let loose = self.random.pick(&[1, 3, 10, 30]);
        for _ in 0..self.random.between(0, STEPS) {
            if self.random.one_in(8) {
                let way = self.random.pick(&WAYS);
                let kind = list.broken_step(&mut self.random, &pool, way);
                self.tally.count(kind);
            }
            if self.random.one_in(16) {
                list.take(&pool.request(&mut self.random));
            }
            let number = if self.random.one_in(loose) {
                self.random.below(list.jobs.len())
            } else {
                self.trouble(&mut list, &pool)
            };
            self.own_step(&mut list, number);
        }
        self.count_list(&list);
    }

    /// The job whose step makes an add ask again: it deletes the name ahead of
    /// request B, or adds it ahead of request A. At times the add itself, or
    /// one that deletes or adds the name once more. A fresh job where no add
    /// asks.
    fn trouble(&mut self, list: &mut List, pool: &Pool) -> usize {
        let asks = |job: &raw::Job| matches!(job.stage, job::BEFORE_A | job::BEFORE_B);
        let Some(add) = list.jobs.iter().position(asks) else {
            return list.take(&pool.request(&mut self.random));
        };
        let job: Job = list.jobs[add].twin();
        let found = list.find(&job.name);
        match (job.stage, found.kind) {
            (job::BEFORE_B, HELD) if !self.random.one_in(5) => self.remover(list, pool, &found),
            (job::BEFORE_A, HELD) if self.random.one_in(6) => self.remover(list, pool, &found),
            (job::BEFORE_A, FREE) if !self.random.one_in(5) => self.adder(list, pool, &job.name),
            (job::BEFORE_B, FREE) if self.random.one_in(4) => self.adder(list, pool, &job.name),
            _ => add,
        }
    }

    /// A job that sends one of the requests that lead to a name's deletion: a
    /// fresh remove of one of its addresses or, where it has none, a remove
    /// before its second request.
    fn remover(&mut self, list: &mut List, pool: &Pool, entry: &Entry) -> usize {
        let own = |job: &Job| job.name == entry.name && job.dhcid == entry.dhcid;
        let second = |job: &raw::Job| job.stage == job::BEFORE_SECOND && own(&job.twin());
        let address = some_address(entry);
        match (address, list.jobs.iter().position(second)) {
            (None, Some(number)) => number,
            _ => {
                let any = pool.request(&mut self.random);
                let (family, address) = address.unwrap_or((any.family, any.address));
                list.take(&Request {
                    kind: Kind::RemoveFirst,
                    name: again(&mut self.random, &entry.name),
                    dhcid: entry.dhcid,
                    family,
                    address,
                    policy: 0,
                })
            }
        }
    }

    /// A fresh add of a name, of any owner's.
    fn adder(&mut self, list: &mut List, pool: &Pool, name: &Name) -> usize {
        let request = Request {
            kind: Kind::A,
            name: again(&mut self.random, name),
            ..pool.request(&mut self.random)
        };
        list.take(&request)
    }

    fn own_step(&mut self, list: &mut List, number: usize) {
        let way = self.random.pick(&WAYS);
        let step = list.step(way, number);
        let (stepped, deleted) = match way {
            Way::ByValue => ("step by value", "deletion by value"),
            Way::Lent => ("step lent", "deletion lent"),
        };
        self.tally.count(stepped);
        if !step.is_request() {
            self.tally.count("step after the job's end");
        }
        if step.is_deletion() {
            self.tally.count(deleted);
            if list.names.len() > 1 {
                self.tally.count("deletion beside another name");
            }
        }
    }

    fn count_list(&mut self, list: &List) {
        let adds = adds(list);
        for add in &adds {
            self.count_end(add);
            self.count_deletions(add);
            self.count_idle(list, add);
        }
        for (claim, breaks) in &WRONG {
            if adds.iter().any(breaks) {
                self.tally.count(claim);
            }
        }
    }

    fn count_end(&mut self, add: &Add) {
        let (n, job) = (add.asked.sent(), &add.job);
        if job.has_ended() {
            self.tally.count(&format!("ended, N = {n}"));
            self.tally.count(&format!("ended: {}", called(job.stage)));
        } else {
            self.tally.count(&format!("not ended, N = {n}"));
        }
        if n > 2 {
            let (family, policy) = (job.family, job.policy);
            self.tally.count(&format!("N above 2, family {family}"));
            self.tally.count(&format!("N above 2, policy {policy}"));
        }
    }

    fn count_deletions(&mut self, add: &Add) {
        let (n, r) = (add.asked.sent(), add.asked.deleted());
        if n == 0 {
            return;
        }
        match r {
            0..=3 => self.tally.count(&format!("r = {r}")),
            _ => self.tally.count("r above 3"),
        }
        if n == 2 + 2 * r {
            self.tally.count(&format!("N = 2 + 2r, r = {r}"));
        }
        if add.job.stage == job::GAVE_UP && r == 3 {
            self.tally.count("gave up, r = 3");
        }
        if add.asked.deleted_before() > 0 {
            self.tally.count("deletion before the first request");
        }
        if add.asked.deleted_after() > 0 {
            self.tally.count("deletion after the last request");
        }
        if add.in_other_letters > 0 {
            self.tally.count("deletion counted, in other letters");
        }
    }

    /// Counts the adds with steps of their own that are no requests.
    fn count_idle(&mut self, list: &List, add: &Add) {
        let (Some(&first), Some(&last)) = (add.asked.requests.first(), add.asked.requests.last())
        else {
            return;
        };
        let own = |step: &&Step| step.job == add.number;
        if list.log[first..last].iter().filter(own).any(|s| s.refused) {
            self.tally.count("refused steps between the requests");
        }
        if list.log[last + 1..].iter().filter(own).any(|s| !s.refused) {
            self.tally.count("steps after the end");
        }
    }

    fn whole(mut self) {
        while self.tally.cases < LISTS {
            self.list();
        }
        let title = format!("seed {}, lists of job steps", self.random.seed);
        self.tally.report(&title, LISTS, EACH);
    }
}

/// The family of an address that an entry has, and the address.
fn some_address(entry: &Entry) -> Option<(u8, Address)> {
    let fours = entry.v4.as_slice().iter().map(|four| {
        let mut address = [0; 16];
        address[..4].copy_from_slice(four);
        (4, address)
    });
    let sixes = entry.v6.as_slice().iter().map(|six| (6, *six));
    fours.chain(sixes).next()
}

#[test]
fn adds_keep_to_the_bounds() {
    from_both_seeds(|seed| Run::new(seed).whole());
}

// Fixed lists. X holds a name with one address, and Y's add asks for the name.

/// The numbers of the jobs: Y's add, and X's fresh removes and adds.
const Y: usize = 0;
const X_REMOVE: [usize; 5] = [1, 2, 3, 4, 5];
const X_ADD: [usize; 4] = [6, 7, 8, 9];

/// A list of the jobs above, none stepped yet.
fn fixed_list() -> List {
    let mut list = List::new("fixed list".to_string(), &pipe::zone());
    assert_eq!(list.take(&pipe::request(Kind::A, pipe::Y, 2)), Y);
    let of_x = |kind| pipe::request(kind, pipe::X, 1);
    for number in X_REMOVE {
        assert_eq!(list.take(&of_x(Kind::RemoveFirst)), number);
    }
    for number in X_ADD {
        assert_eq!(list.take(&of_x(Kind::A)), number);
    }
    list
}

/// X's first remove deletes the name, and X's first add adds it again.
const OPENING: [Leads; 3] = [
    (X_REMOVE[0], job::BEFORE_SECOND),
    (X_REMOVE[0], job::GONE),
    (X_ADD[0], job::DONE),
];

/// A round, from 1 on: Y finds the name, and by its next request it is deleted.
/// Y is led back to this stage, and X adds the name again.
fn round(number: usize, back: u8) -> [Leads; 5] {
    [
        (X_REMOVE[number], job::BEFORE_SECOND),
        (Y, job::BEFORE_B),
        (X_REMOVE[number], job::GONE),
        (Y, back),
        (X_ADD[number], job::DONE),
    ]
}

/// The end behind so many rounds: Y finds the name twice, X's, and only then
/// X deletes it.
fn conflict_after(rounds: usize) -> [Leads; 4] {
    let last = X_REMOVE[rounds + 1];
    [
        (last, job::BEFORE_SECOND),
        (Y, job::BEFORE_B),
        (Y, job::CONFLICT),
        (last, job::GONE),
    ]
}

/// Runs a list, put together of parts, either way. N, r and the end of Y's add,
/// which has a deletion before its first request and one after its last.
fn y_of(parts: &[&[Leads]]) -> (usize, usize, u8) {
    let [by_value, lent] = WAYS.map(|way| {
        let mut list = fixed_list();
        list.follow(way, &parts.concat());
        let y = &adds(&list)[0];
        let asked = &y.asked;
        assert_eq!((asked.deleted_before(), asked.deleted_after()), (1, 1));
        (asked.sent(), asked.deleted(), y.job.stage)
    });
    assert_eq!(by_value, lent);
    lent
}

#[test]
fn two_requests_without_a_deletion() {
    let y = y_of(&[&OPENING, &conflict_after(0)]);
    assert_eq!(y, (2, 0, job::CONFLICT));
}

#[test]
fn four_requests_with_one_deletion() {
    let y = y_of(&[&OPENING, &round(1, job::BEFORE_A), &conflict_after(1)]);
    assert_eq!(y, (4, 1, job::CONFLICT));
}

#[test]
fn six_requests_with_two_deletions() {
    let y = y_of(&[
        &OPENING,
        &round(1, job::BEFORE_A),
        &round(2, job::BEFORE_A),
        &conflict_after(2),
    ]);
    assert_eq!(y, (6, 2, job::CONFLICT));
}

#[test]
fn gave_up_with_three_deletions() {
    let last = X_REMOVE[4];
    let y = y_of(&[
        &OPENING,
        &round(1, job::BEFORE_A),
        &round(2, job::BEFORE_A),
        &round(3, job::GAVE_UP),
        &[(last, job::BEFORE_SECOND), (last, job::GONE)],
    ]);
    assert_eq!(y, (6, 3, job::GAVE_UP));
}
