//! Lease tables as both programs are lent them.

use jespurla::raw;
use second::lease_query::Lease;

use super::leases;
use super::lent::afresh;
use super::random::Random;
use super::twin::Twin;

/// A table as each program reads it, with a record before and behind that
/// aren't lent.
pub struct Tables {
    pub second: Vec<Lease>,
    product: Vec<raw::Lease>,
    untouched: Vec<raw::Lease>,
}

impl Tables {
    pub fn new(random: &mut Random, second: Vec<Lease>) -> Tables {
        let (front, back) = (leases::record(random), leases::record(random));
        let product = [&[front], &second[..], &[back]].concat().twin();
        Tables {
            untouched: product.clone(),
            second,
            product,
        }
    }

    /// What the product is lent.
    pub fn lent(&self) -> &[raw::Lease] {
        &self.product[1..][..self.second.len()]
    }

    /// Fails where the product wrote to the table or beside it.
    pub fn assert_untouched(&self) {
        assert!(
            *afresh(&self.product) == self.untouched,
            "a table was written"
        );
    }
}
