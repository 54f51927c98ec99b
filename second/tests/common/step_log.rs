//! The log of a list of job steps, kept from outside, and what it tells of the
//! requests of a job and of the deletions of an add's name.

use second::job;
use second::zone::Name;

use super::product::Way;

/// One step of a list: how it got the zone, which job was handed in, with what
/// name, and its stage before the step and after it.
#[derive(Clone, Copy)]
pub struct Step {
    pub way: Way,
    pub job: usize,
    pub name: Name,
    pub before: u8,
    pub after: u8,
    pub refused: bool,
}

impl Step {
    /// A request: a step that was not refused, of a job that had not ended.
    pub fn is_request(&self) -> bool {
        let ahead = [
            job::BEFORE_A,
            job::BEFORE_B,
            job::BEFORE_FIRST,
            job::BEFORE_SECOND,
        ];
        !self.refused && ahead.contains(&self.before)
    }

    /// A deletion: a second remove request that ended its job gone.
    pub fn is_deletion(&self) -> bool {
        self.is_request() && self.before == job::BEFORE_SECOND && self.after == job::GONE
    }
}

/// Where in a log an add's requests stand, and where the deletions of its
/// name by whichever jobs; the places rise.
pub struct Asked {
    pub requests: Vec<usize>,
    pub deletions: Vec<usize>,
}

impl Asked {
    /// For the add with this number and this name. Names are equal in whatever
    /// letters.
    pub fn new(log: &[Step], add: usize, name: &Name) -> Asked {
        Asked {
            requests: requests_of(log, add),
            deletions: places(log, |step| step.is_deletion() && step.name == *name),
        }
    }

    /// N: the requests that the add has sent.
    pub fn sent(&self) -> usize {
        self.requests.len()
    }

    /// r: the deletions strictly between its first request and its last.
    pub fn deleted(&self) -> usize {
        self.deletions_within(&self.requests).len()
    }

    /// Where the deletions strictly between the first and the last of some
    /// requests stand; none where there are no requests.
    pub fn deletions_within(&self, requests: &[usize]) -> Vec<usize> {
        match (requests.first(), requests.last()) {
            (Some(&first), Some(&last)) => self.deletions_at(|at| first < at && at < last),
            _ => Vec::new(),
        }
    }

    /// The deletions before its first request.
    pub fn deleted_before(&self) -> usize {
        let first = self.requests.first();
        first.map_or(0, |&first| self.deletions_at(|at| at < first).len())
    }

    /// The deletions after its last request.
    pub fn deleted_after(&self) -> usize {
        let last = self.requests.last();
        last.map_or(0, |&last| self.deletions_at(|at| last < at).len())
    }

    fn deletions_at(&self, test: impl Fn(usize) -> bool) -> Vec<usize> {
        let places = self.deletions.iter().copied();
        places.filter(|&at| test(at)).collect()
    }
}

/// Where the requests of a job stand; the places rise.
pub fn requests_of(log: &[Step], job: usize) -> Vec<usize> {
    places(log, |step| step.is_request() && step.job == job)
}

/// The places of the steps that pass a test.
fn places(log: &[Step], test: impl Fn(&Step) -> bool) -> Vec<usize> {
    (0..log.len()).filter(|&at| test(&log[at])).collect()
}
