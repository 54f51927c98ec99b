//! Jobs of RFC 4703, which send their requests one step at a time.

use core::fmt;
use core::net::IpAddr;

use crate::numbers::answered;
use crate::request::parts;
use crate::{raw, Dhcid, Family, Name, Policy, Refusal, Stage, Zone};

/// A job: an add gives a name an address, a remove takes an address away, and the name with the
/// last one. It sends its requests one step at a time, and the steps of several boxes may be mixed
/// on one zone in any way: some order of the whole jobs, adds without room and those that gave up
/// left out, ends with the same names, owners and addresses and the same answer to every add. In
/// that order a job that ended before another sent its first request stands before it. The order
/// may leave a name in other letters.
///
/// A step takes the job and hands back the next one, so that no job is stepped twice from one
/// stage.
///
/// ```
/// use jespurla::{Dhcid, Job, Name, Policy, Stage, Zone};
/// use std::net::Ipv4Addr;
///
/// let name: Name = "pipe7.stage.".parse()?;
/// let address = Ipv4Addr::new(10, 0, 0, 7);
/// let mut zone = Zone::new();
/// let mut job = Job::add(&name, &Dhcid::new([7; 35]), address, Policy::KeepOthers)?;
/// while !job.has_ended() {
///     job = job.step(&mut zone)?;
/// }
/// assert_eq!(job.stage(), Stage::AddDone);
/// assert_eq!(job.requests_sent(), Some(1));
///
/// // Another's add meets a conflict, after two requests.
/// let other = Job::add(&name, &Dhcid::new([8; 35]), address, Policy::KeepOthers)?;
/// let other = other.run(&mut zone)?;
/// assert_eq!((other.stage(), other.requests_sent()), (Stage::AddConflict, Some(2)));
/// # Ok::<(), Box<dyn std::error::Error>>(())
/// ```
#[derive(Clone)]
pub struct Job(raw::Job);

impl Job {
    /// A fresh add that has sent nothing yet.
    ///
    /// # Errors
    ///
    /// None for what these types can hold.
    pub fn add(
        name: &Name,
        owner: &Dhcid,
        address: impl Into<IpAddr>,
        policy: Policy,
    ) -> Result<Job, Refusal> {
        let (family, address) = parts(address);
        let (name, owner) = (name.as_raw(), &owner.to_raw());
        let told = raw::new_add(name, owner, family, &address, policy.into());
        Refusal::check(told.refusal).map(|()| Job(told.job))
    }

    /// A fresh remove that has sent nothing yet.
    ///
    /// # Errors
    ///
    /// None for what these types can hold.
    pub fn remove(name: &Name, owner: &Dhcid, address: impl Into<IpAddr>) -> Result<Job, Refusal> {
        let (family, address) = parts(address);
        let told = raw::new_remove(name.as_raw(), &owner.to_raw(), family, &address);
        Refusal::check(told.refusal).map(|()| Job(told.job))
    }

    /// One step: the one request that its stage asks for, tested and done at once on the zone, and
    /// where the answer leads the job. A job that has ended changes nothing.
    ///
    /// # Errors
    ///
    /// That of [`Zone::check`]. A clone keeps the job for the zone that is restored then.
    pub fn step(self, zone: &mut Zone) -> Result<Job, Refusal> {
        let told = raw::job_step_lent(&mut zone.0, &self.0);
        Refusal::check(told.refusal).map(|()| Job(told.job))
    }

    /// All its steps, one behind the other, until it has ended: an add sends at most
    /// [`REQUESTS_MAX`](crate::limits::REQUESTS_MAX) requests, a remove two.
    ///
    /// # Errors
    ///
    /// That of [`Zone::check`].
    pub fn run(self, zone: &mut Zone) -> Result<Job, Refusal> {
        let mut job = self;
        while !job.has_ended() {
            job = job.step(zone)?;
        }
        Ok(job)
    }

    /// Whether it has ended, so that a step changes nothing.
    pub fn has_ended(&self) -> bool {
        raw::job_has_ended(&self.0) == 1
    }

    /// Its stage.
    pub fn stage(&self) -> Stage {
        answered(self.0.stage)
    }

    /// How many requests an add has sent; a remove does not count them.
    ///
    /// They are at most 6 and, on a zone that only steps of jobs change, at most 2 + 2r, r being how
    /// often the name was deleted between the first of them and the last. So 3 or 4 say there that
    /// the name was deleted in between, 5 or 6 that it was twice, and [`Stage::AddGaveUp`] that it
    /// was three times, or more often each.
    pub fn requests_sent(&self) -> Option<u8> {
        self.stage().is_of_add().then_some(self.0.count)
    }

    /// The name that it is about, spelled as the job was made with it.
    pub fn name(&self) -> Name {
        Name::from_full(self.0.name.as_slice())
    }

    /// Whose job it is.
    pub fn owner(&self) -> Dhcid {
        self.0.dhcid.octets.into()
    }

    /// The address that it adds or removes.
    pub fn address(&self) -> IpAddr {
        let family: Family = answered(self.0.family);
        self.0.address.of_family(family)
    }

    /// The policy of an add; a remove has none.
    pub fn policy(&self) -> Option<Policy> {
        self.stage().is_of_add().then(|| answered(self.0.policy))
    }
}

/// Jobs are equal where everything that they tell is; their names may be spelled differently.
impl PartialEq for Job {
    fn eq(&self, other: &Job) -> bool {
        let sent = |job: &Job| (job.stage(), job.requests_sent(), job.policy());
        let what = |job: &Job| (job.owner(), job.address());
        sent(self) == sent(other) && what(self) == what(other) && self.name() == other.name()
    }
}

impl Eq for Job {}

impl fmt::Debug for Job {
    fn fmt(&self, to: &mut fmt::Formatter) -> fmt::Result {
        to.debug_struct("Job")
            .field("stage", &self.stage())
            .field("requests_sent", &self.requests_sent())
            .field("name", &self.name())
            .field("owner", &self.owner())
            .field("address", &self.address())
            .field("policy", &self.policy())
            .finish()
    }
}
