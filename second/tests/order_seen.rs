//! The order that players saw: whole jobs in some order explain what a list of
//! steps of the product's jobs did, and a job that ended before another sent
//! its first request stands before it.
//!
//! Jobs on one name have to keep that (document 02, n). Every list is also held
//! to more: all jobs keep it, whatever their names. Where the requests of a job
//! stand is read from a log of the steps.

mod common;

use common::jobs::{self, called, Pool, Start};
use common::letters::is_spelled_alike;
use common::pipe;
use common::product::{Way, WAYS};
use common::random::{from_both_seeds, Random};
use common::requests::{Kind, Request};
use common::step_list::{Leads, List, REFUSED};
use common::step_log::{requests_of, Step};
use common::tally::Tally;
use common::twin::Twin;
use common::zones::again;
use second::job::{self, Job};
use second::zone::{as_set, Name, Zone, HELD};

/// Lists run by one run, at the least; two runs are made.
const LISTS: usize = 14_000;
/// Cases of each kind, at the least.
const EACH: usize = 1_000;

/// What a list is of.
const LISTED: &[&str] = &[
    "steps by value alone",
    "steps lent alone",
    "steps of both kinds",
    "steps after a job's end",
    "jobs alike",
    "adds left out",
    "1 or 2 jobs",
    "3 jobs",
    "4 jobs",
    "5 jobs",
    "6 jobs",
];

/// What was seen in a list: of two jobs, one ended before the other began.
const SEEN: &[&str] = &[
    "no pair seen",
    "one name, add before add",
    "one name, add before remove",
    "one name, remove before add",
    "one name, remove before remove",
    "one name in other letters",
    "two names",
    "two names that no order turns round",
    "earlier on one name: done",
    "earlier on one name: conflict",
    "earlier on one name: not ours",
    "earlier on one name: gone",
    "earlier on one name: kept",
    "later on one name: done",
    "later on one name: conflict",
    "later on one name: not ours",
    "later on one name: gone",
    "later on one name: kept",
];

/// Whether the first of two jobs has to stand before the second.
type Before = fn(&Ended, usize, usize) -> bool;

/// A claim that is too weak.
struct Weak {
    called: &'static str,
    /// What it keeps.
    keeps: Before,
    /// The jobs of which it may turn round what was seen.
    turns: Before,
}

/// The lists that an order explains in which one of these turns round what was
/// seen are counted, so that the lists are known to tell the right claims from
/// these. To the last, only the claim about all jobs has more to say.
const WEAK: [Weak; 3] = [
    Weak {
        called: "too weak: any order",
        keeps: |_, _, _| false,
        turns: Ended::on_one_name,
    },
    Weak {
        called: "too weak: other letters, another name",
        keeps: |list, one, other| {
            list.is_seen_on_one_name(one, other) && !list.in_other_letters(one, other)
        },
        turns: Ended::in_other_letters,
    },
    Weak {
        called: "too weak: one name alone",
        keeps: Ended::is_seen_on_one_name,
        turns: |list, one, other| !list.on_one_name(one, other),
    },
];

/// Wrong claims about jobs on one name. The lists that no order explains in
/// which they hold are counted, so that the lists are known to tell the right
/// claim from these.
const WRONG: [(&str, Before); 3] = [
    ("breaks: what was seen turned round", |list, one, other| {
        list.is_seen(other, one)
    }),
    (
        "breaks: jobs placed by their first requests",
        |list, one, other| list.spans[one].first < list.spans[other].first,
    ),
    (
        "breaks: jobs placed by their last requests",
        |list, one, other| list.spans[one].last < list.spans[other].last,
    ),
];

/// Where in the log the first request of a job stands, and where its last, with
/// which it ended.
struct Span {
    first: usize,
    last: usize,
}

impl Span {
    fn new(list: &List, job: usize) -> Span {
        let requests = requests_of(&list.log, job);
        let (Some(&first), Some(&last)) = (requests.first(), requests.last()) else {
            list.fail(&format!("job {job} sent no request"));
        };
        assert_eq!(list.log[last].after, list.jobs[job].stage);
        Span { first, last }
    }
}

/// A list whose jobs have all ended.
struct Ended {
    list: List,
    start: Zone,
    end: Zone,
    /// The jobs as they were given, and the stages with which they ended.
    fresh: Vec<Job>,
    answers: Vec<u8>,
    spans: Vec<Span>,
}

impl Ended {
    fn new(list: List, start: &Zone, jobs: &[Request]) -> Ended {
        let numbers = 0..list.jobs.len();
        assert_eq!(numbers.len(), jobs.len());
        assert!(list.jobs.iter().all(|job| job.twin().has_ended()));
        let fresh = jobs
            .iter()
            .map(|job| jobs::fresh(job).expect("a sound job"));
        Ended {
            start: start.clone(),
            end: list.zone.twin(),
            fresh: fresh.collect(),
            answers: list.jobs.iter().map(|job| job.stage).collect(),
            spans: numbers.map(|job| Span::new(&list, job)).collect(),
            list,
        }
    }

    /// The jobs that have a place in an order.
    fn remaining(&self) -> Vec<usize> {
        let left_out = |&job: &usize| job::is_left_out(&self.fresh[job], self.answers[job]);
        let jobs = 0..self.fresh.len();
        jobs.filter(|job| !left_out(job)).collect()
    }

    /// Whether one job ended before another sent its first request.
    fn is_seen(&self, one: usize, other: usize) -> bool {
        self.spans[one].last < self.spans[other].first
    }

    /// Whether two jobs are on one name, in whichever letters.
    fn on_one_name(&self, one: usize, other: usize) -> bool {
        self.fresh[one].name == self.fresh[other].name
    }

    /// Whether two jobs are on one name that they have in different letters.
    fn in_other_letters(&self, one: usize, other: usize) -> bool {
        let (one_name, other_name) = (&self.fresh[one].name, &self.fresh[other].name);
        self.on_one_name(one, other) && !is_spelled_alike(one_name, other_name)
    }

    /// What has to be kept of jobs on one name.
    fn is_seen_on_one_name(&self, one: usize, other: usize) -> bool {
        self.on_one_name(one, other) && self.is_seen(one, other)
    }

    /// The pairs of remaining jobs that were seen, the earlier job first.
    fn seen(&self) -> Vec<(usize, usize)> {
        let remaining = self.remaining();
        let with = |&one: &usize| {
            let later = remaining.iter().filter(move |&&job| self.is_seen(one, job));
            later.map(move |&job| (one, job))
        };
        remaining.iter().flat_map(with).collect()
    }

    /// An order of the remaining jobs that explains the list, in which one job
    /// stands before another where it has to.
    fn order(&self, has_to: impl Fn(usize, usize) -> bool) -> Option<Vec<usize>> {
        let jobs = 0..self.fresh.len();
        let mut before = vec![0; jobs.len()];
        for (later, mask) in before.iter_mut().enumerate() {
            let earlier = jobs.clone().filter(|&job| has_to(job, later));
            *mask = earlier.fold(0, |mask, job| mask | 1 << job);
        }
        let (start, end) = (&self.start, &self.end);
        job::serial_order_keeping(start, &self.fresh, end, &self.answers, &before)
    }

    /// Fails unless there is an order in which one job stands before another
    /// where it has to. The order itself is looked at again.
    fn assert_kept(&self, has_to: impl Fn(usize, usize) -> bool, what: &str) {
        let Some(order) = self.order(&has_to) else {
            self.list
                .fail(&format!("no order keeps what was seen {what}"));
        };
        let mut sorted = order.clone();
        sorted.sort_unstable();
        assert_eq!(sorted, self.remaining());
        for (at, &later) in order.iter().enumerate() {
            let turned = order[at..].iter().find(|&&job| has_to(job, later));
            if let Some(job) = turned {
                self.list
                    .fail(&format!("job {job} is to stand before {later}"));
            }
        }
    }

    /// Whether an order that keeps this has a pair turned round.
    fn is_turned(&self, (one, other): (usize, usize), keeps: Before) -> bool {
        let has_to = |a, b| (a, b) == (other, one) || keeps(self, a, b);
        self.order(has_to).is_some()
    }

    /// Whether an order that a weak claim allows has a pair turned round that
    /// was seen. Of alike jobs nobody could tell.
    fn shows_weak(&self, weak: &Weak) -> bool {
        let mut pairs = self.seen().into_iter();
        pairs.any(|(one, other)| {
            (weak.turns)(self, one, other)
                && self.fresh[one] != self.fresh[other]
                && self.is_turned((one, other), weak.keeps)
        })
    }

    /// Whether one of the pairs on two names that were seen stands so in every
    /// order.
    fn has_firm_pair(&self) -> bool {
        let mut pairs = self.seen().into_iter();
        pairs.any(|(one, other)| {
            !self.on_one_name(one, other) && !self.is_turned((one, other), |_, _, _| false)
        })
    }
}

/// A run from one seed: what it drew and what it counted.
struct Run {
    random: Random,
    tally: Tally,
}

impl Run {
    fn new(seed: u64) -> Run {
        let (weak, wrong) = (WEAK.map(|weak| weak.called), WRONG.map(|(claim, _)| claim));
        Run {
            random: Random::new(seed),
            tally: Tally::new(&[LISTED, REFUSED, SEEN, &weak, &wrong]),
        }
    }

    /// One list, from its fresh jobs to its orders.
    fn list(&mut self) {
        self.tally.cases += 1;
        let pool = Pool::new(&mut self.random);
        let start = self.start(&pool);
        let title = format!("seed {}, list {}", self.random.seed, self.tally.cases);
        let mut list = List::new(title, &start.zone);
        for request in &start.jobs {
            list.take(request);
        }
        self.steps(&mut list, &pool, &start.steps);
        let list = Ended::new(list, &start.zone, &start.jobs);
        let on_one_name = |one, other| list.is_seen_on_one_name(one, other);
        list.assert_kept(on_one_name, "on one name");
        list.assert_kept(|one, other| list.is_seen(one, other), "on any names");
        self.count_steps(&list.list);
        self.count_jobs(&list);
        self.count_seen(&list);
        self.count_told_apart(&list);
    }

    /// A zone where every held name has an address, and jobs. In some lists all
    /// jobs begin before one goes on.
    fn start(&mut self, pool: &Pool) -> Start {
        let mut start = match self.random.below(10) {
            0 => pool.chase(&mut self.random),
            1 | 2 => pool.crowd(&mut self.random),
            3 | 4 => pool.start(&mut self.random),
            _ => self.narrow(pool),
        };
        if start.steps.is_empty() && self.random.one_in(5) {
            start.steps = (0..start.jobs.len()).collect();
        }
        give_addresses(&mut start.zone);
        start
    }

    /// A start where jobs get in each other's way: a name is held, with one
    /// address, and its owner removes that. The other jobs have the same name,
    /// owner and address, or those of one job of another owner. Mostly the
    /// remove has begun.
    fn narrow(&mut self, pool: &Pool) -> Start {
        let mut start = pool.start(&mut self.random);
        start.jobs[0].kind = Kind::RemoveFirst;
        let holder = start.jobs[0];
        let mut other = self.random.pick(&start.jobs);
        other.dhcid[self.random.below(35)] ^= 1;
        for job in &mut start.jobs[1..] {
            let model = self.random.pick(&[holder, holder, other]);
            *job = Request {
                kind: job.kind,
                name: again(&mut self.random, &model.name),
                policy: job.policy,
                ..model
            };
        }
        start.zone = pool.zone_with(&mut self.random, &holder);
        start.steps = vec![0; self.random.pick(&[0, 1, 1])];
        start
    }

    /// Steps of the list's jobs until all have ended, some of them ahead, and a
    /// few more at the end.
    fn steps(&mut self, list: &mut List, pool: &Pool, ahead: &[usize]) {
        let ways = self.random.pick(&[&WAYS, &WAYS[..1], &WAYS[1..]]);
        for &number in ahead {
            self.step(list, pool, ways, number);
        }
        let turn = self.random.pick(&[1, 2, 4, 20]);
        let mut number = self.random.below(list.jobs.len());
        while let Some(next) = self.next(list, number, turn) {
            number = next;
            self.step(list, pool, ways, number);
        }
        for _ in 0..self.random.below(3) {
            let number = self.random.below(list.jobs.len());
            self.step(list, pool, ways, number);
        }
    }

    /// The job to step next, none if all have ended: the last one, for about
    /// as many steps as a turn has, then another. At times any, ended or not.
    fn next(&mut self, list: &List, last: usize, turn: usize) -> Option<usize> {
        let jobs = 0..list.jobs.len();
        let unended = jobs.filter(|&job| !list.jobs[job].twin().has_ended());
        let unended: Vec<usize> = unended.collect();
        if unended.is_empty() {
            None
        } else if self.random.one_in(10) {
            Some(self.random.below(list.jobs.len()))
        } else if unended.contains(&last) && !self.random.one_in(turn) {
            Some(last)
        } else {
            Some(self.random.pick(&unended))
        }
    }

    /// A step of a job, at times behind one that is refused.
    fn step(&mut self, list: &mut List, pool: &Pool, ways: &[Way], number: usize) {
        if self.random.one_in(8) {
            let way = self.random.pick(ways);
            let kind = list.broken_step(&mut self.random, pool, way);
            self.tally.count(kind);
        }
        list.step(self.random.pick(ways), number);
    }

    fn count_steps(&mut self, list: &List) {
        let taken = || list.log.iter().filter(|step| !step.refused);
        let is_lent = |step: &Step| step.way == Way::Lent;
        let (some, all) = (taken().any(is_lent), taken().all(is_lent));
        self.tally.count(match (some, all) {
            (false, _) => "steps by value alone",
            (_, true) => "steps lent alone",
            _ => "steps of both kinds",
        });
        if taken().any(|step| !step.is_request()) {
            self.tally.count("steps after a job's end");
        }
    }

    fn count_jobs(&mut self, list: &Ended) {
        let fresh = &list.fresh;
        if (1..fresh.len()).any(|at| fresh[..at].contains(&fresh[at])) {
            self.tally.count("jobs alike");
        }
        let remaining = list.remaining().len();
        if remaining < fresh.len() {
            self.tally.count("adds left out");
        }
        match remaining {
            0 => {}
            1 | 2 => self.tally.count("1 or 2 jobs"),
            jobs => self.tally.count(&format!("{jobs} jobs")),
        }
    }

    /// Counts what was seen, each kind once a list.
    fn count_seen(&mut self, list: &Ended) {
        let pairs = list.seen();
        let mut kinds: Vec<String> = Vec::new();
        for &(one, other) in &pairs {
            kinds.extend(kinds_of(list, one, other));
        }
        if pairs.is_empty() {
            kinds.push("no pair seen".to_string());
        }
        if list.has_firm_pair() {
            kinds.push("two names that no order turns round".to_string());
        }
        kinds.sort_unstable();
        kinds.dedup();
        kinds.iter().for_each(|kind| self.tally.count(kind));
    }

    /// Counts the claims that the list tells from the right ones.
    fn count_told_apart(&mut self, list: &Ended) {
        for weak in WEAK.iter().filter(|weak| list.shows_weak(weak)) {
            self.tally.count(weak.called);
        }
        for (claim, before) in WRONG {
            let claimed = |one, other| list.on_one_name(one, other) && before(list, one, other);
            if list.order(claimed).is_none() {
                self.tally.count(claim);
            }
        }
    }

    fn whole(mut self) {
        while self.tally.cases < LISTS {
            self.list();
        }
        let title = format!("seed {}, lists of job steps", self.random.seed);
        self.tally.report(&title, LISTS, EACH);
    }
}

/// Gives an address to every held name that has none, as the claim needs it.
fn give_addresses(zone: &mut Zone) {
    for entry in &mut zone.entries {
        if entry.kind == HELD && entry.v4.count == 0 && entry.v6.count == 0 {
            entry.v4.count = 1;
        }
    }
}

/// The kinds that a pair is of, the earlier job first.
fn kinds_of(list: &Ended, one: usize, other: usize) -> Vec<String> {
    let (earlier, later) = (&list.fresh[one], &list.fresh[other]);
    if !list.on_one_name(one, other) {
        return vec!["two names".to_string()];
    }
    let [first, second] = [earlier, later].map(|job| if job.is_add() { "add" } else { "remove" });
    let [answer, next] = [one, other].map(|job| called(list.answers[job]));
    let mut kinds = vec![
        format!("one name, {first} before {second}"),
        format!("earlier on one name: {answer}"),
        format!("later on one name: {next}"),
    ];
    if list.in_other_letters(one, other) {
        kinds.push("one name in other letters".to_string());
    }
    kinds
}

#[test]
fn orders_keep_what_was_seen() {
    from_both_seeds(|seed| Run::new(seed).whole());
}

// Fixed lists. X holds a name with one address.

/// Runs a list of jobs for the name to its end.
fn fixed(way: Way, jobs: &[Request], steps: &[Leads]) -> Ended {
    let start = pipe::zone();
    let mut list = List::new("fixed list".to_string(), &start);
    for request in jobs {
        list.take(request);
    }
    list.follow(way, steps);
    Ended::new(list, &start, jobs)
}

/// X's remove deletes the name and X's add brings it back, in capital letters and
/// with another address. The other way round the end would be the same.
#[test]
fn leaves_and_comes_back() {
    let (remove, add) = (0, 1);
    let jobs = [
        pipe::request(Kind::RemoveFirst, pipe::X, 1),
        Request {
            name: Name::new(b"\x04PIPE\0").unwrap(),
            ..pipe::request(Kind::A, pipe::X, 9)
        },
    ];
    let steps = [
        (remove, job::BEFORE_SECOND),
        (remove, job::GONE),
        (add, job::DONE),
    ];
    let other_steps = [
        (add, job::BEFORE_B),
        (add, job::DONE),
        (remove, job::BEFORE_SECOND),
        (remove, job::KEPT),
    ];
    for way in WAYS {
        let list = fixed(way, &jobs, &steps);
        assert_eq!(list.list.jobs[add].count, 1);
        assert_eq!(list.seen(), [(remove, add)]);
        assert!(list.in_other_letters(remove, add));
        let seen = |one, other| list.is_seen_on_one_name(one, other);
        let turned = |one, other| seen(other, one);
        // Both orders explain the list, and one of them keeps what was seen.
        assert!(list.order(|_, _| false).is_some());
        assert_eq!(list.order(turned), Some(vec![add, remove]));
        assert_eq!(list.order(seen), Some(vec![remove, add]));
        assert_eq!(list.order(|a, b| seen(a, b) || turned(a, b)), None);

        let other = fixed(way, &jobs, &other_steps);
        assert_eq!(other.list.jobs[add].count, 2);
        assert_eq!(as_set(&other.end), as_set(&list.end));
    }
}

/// P12: both requests of Y's add come between those of X's remove.
#[test]
fn p12_is_not_placed_by_first_requests() {
    let (x, y) = (0, 1);
    let jobs = [
        pipe::request(Kind::RemoveFirst, pipe::X, 1),
        pipe::request(Kind::A, pipe::Y, 2),
    ];
    let steps = [
        (x, job::BEFORE_SECOND),
        (y, job::BEFORE_B),
        (y, job::CONFLICT),
        (x, job::GONE),
    ];
    for way in WAYS {
        let list = fixed(way, &jobs, &steps);
        assert_eq!(list.seen(), []);
        assert_eq!(list.order(|_, _| false), Some(vec![y, x]));
        assert_eq!(list.order(|one, other| (one, other) == (x, y)), None);
        let first = |one: usize, other: usize| list.spans[one].first < list.spans[other].first;
        assert!(first(x, y));
        assert_eq!(list.order(first), None);
    }
}
