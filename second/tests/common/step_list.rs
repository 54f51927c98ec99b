//! Lists of steps of the product's jobs, mixed in any way, with their log.

use jespurla::raw;
use second::job::Job;
use second::zone::{Entry, Name, Zone, FREE};

use super::jobs::{self, Pool};
use super::lent::is_same;
use super::product::{self, Way};
use super::random::Random;
use super::requests::Request;
use super::step_log::Step;
use super::twin::Twin;

/// The kinds of steps that are refused.
pub const REFUSED: &[&str] = &["step refused, zone", "step refused, job"];

/// A step of a fixed list: a job's number, and the stage that the step leads to.
pub type Leads = (usize, u8);

/// A list of steps under way: the zone that the last step left, the jobs as
/// their last steps left them, and the log.
pub struct List {
    title: String,
    pub zone: raw::Zone,
    pub jobs: Vec<raw::Job>,
    /// The jobs' names, each once.
    pub names: Vec<Name>,
    pub log: Vec<Step>,
}

impl List {
    pub fn new(title: String, zone: &Zone) -> List {
        List {
            title,
            zone: zone.twin(),
            jobs: Vec::new(),
            names: Vec::new(),
            log: Vec::new(),
        }
    }

    /// Takes in a fresh job; its number.
    pub fn take(&mut self, request: &Request) -> usize {
        let made = product::new_job(request);
        assert_eq!(made.refusal, 0, "{request:02x?}");
        if !self.names.contains(&request.name) {
            self.names.push(request.name);
        }
        self.jobs.push(made.job);
        self.jobs.len() - 1
    }

    /// What the product finds at a name.
    pub fn find(&self, name: &Name) -> Entry {
        let found = raw::zone_find(&self.zone, &name.twin());
        assert_eq!(found.refusal, 0, "{name:02x?}");
        found.entry.twin()
    }

    /// Which of the names stand in the zone.
    fn standing(&self) -> Vec<bool> {
        let kinds = self.names.iter().map(|name| self.find(name).kind);
        kinds.map(|kind| kind != FREE).collect()
    }

    /// Steps a job. The step is a deletion exactly if its name stood before it
    /// and no longer does; whether other names stand is as before.
    pub fn step(&mut self, way: Way, number: usize) -> Step {
        let given = self.jobs[number];
        let stood = self.standing();
        let told = way.step(&mut self.zone, &given);
        assert_eq!(told.refusal, 0, "{given:02x?}");
        self.jobs[number] = told.job;
        let step = Step {
            way,
            job: number,
            name: given.name.twin(),
            before: given.stage,
            after: told.job.stage,
            refused: false,
        };
        self.log.push(step);
        let stands = self.standing();
        for (at, name) in self.names.iter().enumerate() {
            let fell = stood[at] && !stands[at];
            if *name == step.name && fell != step.is_deletion() {
                self.fail("the last step deletes its name, or its stages say so, not both");
            }
            if *name != step.name && stood[at] != stands[at] {
                self.fail("the last step adds or deletes another name");
            }
        }
        step
    }

    /// The steps of a fixed list.
    pub fn follow(&mut self, way: Way, steps: &[Leads]) {
        for (at, &(number, stage)) in steps.iter().enumerate() {
            assert_eq!(self.step(way, number).after, stage, "step {at}");
        }
    }

    /// A step that is refused, of one of the jobs or of what was made of it,
    /// on any zone. Nothing changes.
    fn refused_step(&mut self, way: Way, number: usize, zone: &Zone, job: &Job) -> u32 {
        let (given, mut lent) = (zone.twin(), zone.twin());
        let told = way.step(&mut lent, &job.twin());
        assert_ne!(told.refusal, 0, "{job:02x?}");
        assert!(told.job == job.twin() && is_same(&lent, &given));
        self.log.push(Step {
            way,
            job: number,
            name: job.name,
            before: job.stage,
            after: told.job.stage,
            refused: true,
        });
        told.refusal
    }

    /// A step of one of the jobs that is refused, with a broken zone or with
    /// the job broken; which of the two kinds it is.
    pub fn broken_step(&mut self, random: &mut Random, pool: &Pool, way: Way) -> &'static str {
        let number = random.below(self.jobs.len());
        let (mut zone, mut job) = (self.zone.twin(), self.jobs[number].twin());
        if random.one_in(2) {
            pool.break_zone(random, &mut zone);
        } else {
            jobs::break_number(random, &mut job);
        }
        match self.refused_step(way, number, &zone, &job) {
            17 => REFUSED[0],
            18 => REFUSED[1],
            refusal => panic!("refusal {refusal} of {job:02x?}"),
        }
    }

    /// Prints the log and fails.
    pub fn fail(&self, what: &str) -> ! {
        for step in &self.log {
            let refused = if step.refused { ", refused" } else { "" };
            let (job, before, after) = (step.job, step.before, step.after);
            let name = step.name.as_slice().escape_ascii();
            println!("job {job} from {before} to {after}{refused}, {name}");
        }
        panic!("{what}; {}", self.title);
    }
}
