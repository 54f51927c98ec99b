//! Sends to the second program what was sent to a real BIND; the answers and
//! what is held at the end must be BIND's.

mod common;

use common::{bind, jobs, requests};
use second::job;

#[test]
fn the_second_program_answers_as_bind_did() {
    assert_eq!(bind::replay(requests::send), bind::ALL);
}

#[test]
fn the_second_programs_jobs_send_what_bind_was_sent() {
    let agreed = bind::replay_jobs(jobs::fresh, job::step_in_place);
    assert_eq!(agreed, bind::ALL);
}
