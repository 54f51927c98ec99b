//! Jobs: every stage, and steps of several boxes on one zone.

use std::net::Ipv4Addr;

use jespurla::{Addresses, Dhcid, Entry, Job, Name, Policy, Refusal, Stage, Zone};

const X: Dhcid = Dhcid::new([b'X'; 35]);
const Y: Dhcid = Dhcid::new([b'Y'; 35]);
const V4: Ipv4Addr = Ipv4Addr::new(10, 0, 0, 7);

fn name(text: &str) -> Name {
    text.parse().expect("a name")
}

fn pipe7() -> Name {
    name("pipe7.stage")
}

fn add(owner: &Dhcid) -> Job {
    Job::add(&pipe7(), owner, V4, Policy::KeepOthers).expect("a sound job")
}

fn remove(owner: &Dhcid) -> Job {
    Job::remove(&pipe7(), owner, V4).expect("a sound job")
}

/// A zone in which X holds the name.
fn held() -> Zone {
    let mut zone = Zone::new();
    let job = add(&X).run(&mut zone).expect("a sound zone");
    assert_eq!(job.stage(), Stage::AddDone);
    zone
}

/// The stages of a job as it is stepped, and where it ends.
fn stages(mut job: Job, zone: &mut Zone) -> Vec<Stage> {
    let mut seen = vec![job.stage()];
    while !job.has_ended() {
        job = job.step(zone).expect("a sound zone");
        seen.push(job.stage());
    }
    let after = job.clone().step(zone).expect("a sound zone");
    assert_eq!(after, job);
    seen
}

#[test]
fn adds_end_done_in_conflict_or_without_room() {
    use Stage::{AddBeforeA, AddBeforeB, AddConflict, AddDone, AddNoRoom};
    assert_eq!(stages(add(&X), &mut Zone::new()), [AddBeforeA, AddDone]);
    let again = stages(add(&X), &mut held());
    assert_eq!(again, [AddBeforeA, AddBeforeB, AddDone]);
    let others = stages(add(&Y), &mut held());
    assert_eq!(others, [AddBeforeA, AddBeforeB, AddConflict]);
    let full = (0..64).map(|number| Entry {
        name: name(&format!("oboe{number}")),
        owner: None,
        addresses: Addresses::EMPTY,
    });
    let mut full = Zone::from_entries(full).expect("64 names");
    assert_eq!(stages(add(&X), &mut full), [AddBeforeA, AddNoRoom]);
}

#[test]
fn removes_end_gone_kept_or_not_ours() {
    use Stage::{RemoveBeforeFirst, RemoveBeforeSecond, RemoveGone, RemoveKept, RemoveNotOurs};
    let gone = stages(remove(&X), &mut held());
    assert_eq!(gone, [RemoveBeforeFirst, RemoveBeforeSecond, RemoveGone]);
    let not_ours = stages(remove(&Y), &mut held());
    assert_eq!(not_ours, [RemoveBeforeFirst, RemoveNotOurs]);
    let mut two = held();
    let other = Ipv4Addr::new(10, 0, 0, 8);
    two.request_b(&pipe7(), &X, other, Policy::KeepOthers)
        .expect("sound");
    let kept = stages(remove(&X), &mut two);
    assert_eq!(kept, [RemoveBeforeFirst, RemoveBeforeSecond, RemoveKept]);
}

/// X removes its only address; Y adds in between.
#[test]
fn the_jobs_of_two_boxes_are_mixed() -> Result<(), Refusal> {
    let mut zone = held();
    let (x, y) = (remove(&X).step(&mut zone)?, add(&Y).step(&mut zone)?);
    let (y, x) = (y.step(&mut zone)?, x.step(&mut zone)?);
    assert!(x.has_ended() && y.has_ended());
    assert_eq!(
        (x.stage(), y.stage()),
        (Stage::RemoveGone, Stage::AddConflict)
    );
    assert_eq!((x.requests_sent(), y.requests_sent()), (None, Some(2)));
    assert!(zone.is_empty());
    Ok(())
}

/// The name is there whenever the job sends A, and gone when it sends B.
#[test]
fn an_add_gives_up_after_six_requests() -> Result<(), Refusal> {
    let (mut empty, mut job) = (Zone::new(), add(&X));
    for sent in 1..=6 {
        job = match job.stage() {
            Stage::AddBeforeA => job.step(&mut held())?,
            _ => job.step(&mut empty)?,
        };
        assert_eq!(job.requests_sent(), Some(sent));
    }
    assert_eq!(job.stage(), Stage::AddGaveUp);
    assert!(empty.is_empty());
    Ok(())
}

/// Whole jobs, each in other letters: the first add says how the name is spelled, the others find
/// it.
#[test]
fn jobs_find_a_name_in_whatever_letters() {
    let [typed, asked, again] = ["Pipe7.Stage", "PIPE7.stage", "pIPE7.sTAGE"].map(name);
    let other = Ipv4Addr::new(10, 0, 0, 8);
    let mut zone = Zone::new();
    let mut run = |job: Result<Job, Refusal>| {
        let job = job.expect("a sound job").run(&mut zone).expect("sound");
        let spelled = zone.entries().map(|entry| entry.name.to_string()).next();
        (job.stage(), job.name().to_string(), spelled)
    };
    let told = |stage, job: &Name, zone: Option<&Name>| {
        (stage, job.to_string(), zone.map(Name::to_string))
    };
    let keep = Policy::KeepOthers;
    let done = |job, zone| told(Stage::AddDone, job, Some(zone));
    assert_eq!(run(Job::add(&typed, &X, V4, keep)), done(&typed, &typed));
    assert_eq!(run(Job::add(&asked, &X, other, keep)), done(&asked, &typed));
    let conflict = told(Stage::AddConflict, &again, Some(&typed));
    assert_eq!(run(Job::add(&again, &Y, V4, keep)), conflict);
    let kept = told(Stage::RemoveKept, &again, Some(&typed));
    assert_eq!(run(Job::remove(&again, &X, V4)), kept);
    let gone = told(Stage::RemoveGone, &asked, None);
    assert_eq!(run(Job::remove(&asked, &X, other)), gone);
    assert_eq!(run(Job::add(&again, &Y, V4, keep)), done(&again, &again));
}

/// A remove of the only address, and an add of it between the two requests. Of the two orders of
/// whole jobs only the remove first explains the end, and it leaves the name in the add's letters.
#[test]
fn an_order_of_whole_jobs_may_leave_other_letters() -> Result<(), Refusal> {
    let add = Job::add(&name("PIPE7.stage"), &X, V4, Policy::KeepOthers)?;
    let spelled = |zone: &Zone| zone.entries().map(|entry| entry.name.to_string()).next();
    let mut mixed = held();
    let half = remove(&X).step(&mut mixed)?;
    assert_eq!(add.clone().run(&mut mixed)?.stage(), Stage::AddDone);
    assert_eq!(half.run(&mut mixed)?.stage(), Stage::RemoveKept);
    let mut remove_first = held();
    remove(&X).run(&mut remove_first)?;
    assert_eq!(add.clone().run(&mut remove_first)?.stage(), Stage::AddDone);
    let mut add_first = held();
    add.run(&mut add_first)?;
    remove(&X).run(&mut add_first)?;
    assert_ne!(mixed, add_first);
    assert_eq!(mixed, remove_first);
    assert_eq!(spelled(&mixed).as_deref(), Some("pipe7.stage."));
    assert_eq!(spelled(&remove_first).as_deref(), Some("PIPE7.stage."));
    Ok(())
}

#[test]
fn a_job_tells_what_it_was_made_of() {
    let (add, remove) = (add(&X), remove(&X));
    assert_eq!(
        (add.name(), add.owner(), add.address()),
        (pipe7(), X, V4.into())
    );
    assert_eq!(add.policy(), Some(Policy::KeepOthers));
    assert_eq!((add.requests_sent(), add.has_ended()), (Some(0), false));
    assert_eq!((remove.policy(), remove.requests_sent()), (None, None));
    assert_ne!(add, remove);
    let other = Job::remove(&name("Pipe7.stage"), &X, V4).expect("a sound job");
    assert_eq!((&other, &other.name()), (&remove, &pipe7()));
    assert_ne!(other.name().as_wire(), pipe7().as_wire());
    let text = format!("{add:?}");
    assert!(text.contains("AddBeforeA") && text.contains("pipe7.stage.") && text.len() < 250);
}
