//! Faults that are planted in a case, each named by the refusal it meets, a
//! colon and what it is.

use super::tally::Tally;

/// Refusals of a zone's calls that come ahead of others.
pub const AHEAD: &[&str] = &["17 ahead of another", "18 ahead of 11"];

/// The refusal number of a fault.
pub fn number(fault: &str) -> u8 {
    let digits = fault.split(':').next().expect("split has a first part");
    digits.parse().expect("a number before the colon")
}

/// The fault that is refused first, where refusals come in this order.
pub fn first<'a>(order: &[u8], faults: &[&'a str]) -> Option<&'a str> {
    let rank = |fault: &&str| order.iter().position(|&known| known == number(fault));
    faults.iter().copied().min_by_key(rank)
}

/// Whether another refusal would come after this fault's.
pub fn has_another(faults: &[&str], fault: &str) -> bool {
    faults.iter().any(|other| number(other) != number(fault))
}

/// Counts the fault that a zone's call was refused for, and what it came
/// ahead of.
pub fn count(tally: &mut Tally, faults: &[&str], fault: &str) {
    tally.count(fault);
    match number(fault) {
        17 if has_another(faults, fault) => tally.count(AHEAD[0]),
        18 if has_another(faults, fault) => tally.count(AHEAD[1]),
        _ => {}
    }
}
