//! The calls. This module alone has unsafe code.

use core::mem::size_of;
use core::ptr;
use core::slice;

use super::{
    Address, Answered, CheckAnswer, Dhcid, FindAnswer, FlagAnswer, Job, Lease, LeaseAnswer,
    LeaseReading, Moment, Name, NameAnswer, NewJob, QueryAnswer, RequestAnswer, SameAnswer,
    ServerListAnswer, ServerListState, Span, StepAnswer, Stepped, Zone,
};

/// The calls as include/jespurla.h declares them.
mod c {
    use super::*;

    extern "C" {
        pub fn jespurla_version() -> u32;

        pub fn jespurla_flag_decision(flags: u8, honour_s: u8, honour_n: u8) -> FlagAnswer;

        pub fn jespurla_name_option_answer(
            value: *const u8,
            value_length: usize,
            suffix: *const u8,
            suffix_length: usize,
            honour_s: u8,
            honour_n: u8,
            reply: *mut u8,
            reply_length: usize,
        ) -> NameAnswer;

        pub fn jespurla_server_list(
            list: ServerListState,
            clock: Moment,
            router_lifetime: Span,
            area: *const u8,
            area_length: usize,
        ) -> ServerListAnswer;

        pub fn jespurla_lease_query(
            clock: Moment,
            table: *const Lease,
            count: usize,
            server: u32,
            query: *const u8,
            query_length: usize,
            reply: *mut u8,
            reply_length: usize,
        ) -> LeaseAnswer;

        pub fn jespurla_query_by_address(
            xid: u32,
            giaddr: u32,
            address: u32,
            query: *mut u8,
            query_length: usize,
        ) -> QueryAnswer;

        pub fn jespurla_query_by_hardware(
            xid: u32,
            giaddr: u32,
            htype: u8,
            chaddr: *const u8,
            chaddr_length: usize,
            query: *mut u8,
            query_length: usize,
        ) -> QueryAnswer;

        pub fn jespurla_query_by_client_id(
            xid: u32,
            giaddr: u32,
            id: *const u8,
            id_length: usize,
            query: *mut u8,
            query_length: usize,
        ) -> QueryAnswer;

        pub fn jespurla_lease_reply_read(
            xid: u32,
            reply: *const u8,
            reply_length: usize,
        ) -> LeaseReading;

        pub fn jespurla_zone_find(zone: *const Zone, length: usize, name: Name) -> FindAnswer;

        pub fn jespurla_zone_same(
            left: *const Zone,
            left_length: usize,
            right: *const Zone,
            right_length: usize,
        ) -> SameAnswer;

        pub fn jespurla_zone_check(zone: Zone, name: Name, family: u8, policy: u8) -> CheckAnswer;

        pub fn jespurla_request_a(
            zone: Zone,
            name: Name,
            dhcid: Dhcid,
            family: u8,
            address: Address,
        ) -> Answered;

        pub fn jespurla_request_b(
            zone: Zone,
            name: Name,
            dhcid: Dhcid,
            family: u8,
            address: Address,
            policy: u8,
        ) -> Answered;

        pub fn jespurla_request_remove_address(
            zone: Zone,
            name: Name,
            dhcid: Dhcid,
            family: u8,
            address: Address,
        ) -> Answered;

        pub fn jespurla_request_remove_name(
            zone: Zone,
            name: Name,
            dhcid: Dhcid,
            family: u8,
            address: Address,
        ) -> Answered;

        pub fn jespurla_new_add(
            name: Name,
            dhcid: Dhcid,
            family: u8,
            address: Address,
            policy: u8,
        ) -> NewJob;

        pub fn jespurla_new_remove(
            name: Name,
            dhcid: Dhcid,
            family: u8,
            address: Address,
        ) -> NewJob;

        pub fn jespurla_job_has_ended(job: Job) -> u8;

        pub fn jespurla_job_step(zone: Zone, job: Job) -> Stepped;

        pub fn jespurla_zone_check_lent(
            zone: *const Zone,
            length: usize,
            name: Name,
            family: u8,
            policy: u8,
        ) -> CheckAnswer;

        pub fn jespurla_request_a_lent(
            zone: *mut Zone,
            length: usize,
            name: Name,
            dhcid: Dhcid,
            family: u8,
            address: Address,
        ) -> RequestAnswer;

        pub fn jespurla_request_b_lent(
            zone: *mut Zone,
            length: usize,
            name: Name,
            dhcid: Dhcid,
            family: u8,
            address: Address,
            policy: u8,
        ) -> RequestAnswer;

        pub fn jespurla_request_remove_address_lent(
            zone: *mut Zone,
            length: usize,
            name: Name,
            dhcid: Dhcid,
            family: u8,
            address: Address,
        ) -> RequestAnswer;

        pub fn jespurla_request_remove_name_lent(
            zone: *mut Zone,
            length: usize,
            name: Name,
            dhcid: Dhcid,
            family: u8,
            address: Address,
        ) -> RequestAnswer;

        pub fn jespurla_job_step_lent(zone: *mut Zone, length: usize, job: Job) -> StepAnswer;
    }
}

/// The version of the library that is linked: major * 65,536 + minor * 256 + patch.
#[inline]
pub fn version() -> u32 {
    // SAFETY: a number out; no memory is lent.
    unsafe { c::jespurla_version() }
}

/// [`crate::flag_decision`] with numbers: of `honour_s` and `honour_n` 0 is no and any other yes.
#[inline]
pub fn flag_decision(flags: u8, honour_s: u8, honour_n: u8) -> FlagAnswer {
    // SAFETY: numbers in, numbers out; no memory is lent.
    unsafe { c::jespurla_flag_decision(flags, honour_s, honour_n) }
}

/// [`crate::name_option_answer`] with numbers, and with any octets for a suffix: where they are not
/// a full name they are refused 11, before the option's name is looked at.
#[inline]
pub fn name_option_answer(
    value: &[u8],
    suffix: &[u8],
    honour_s: u8,
    honour_n: u8,
    reply: &mut [u8],
) -> NameAnswer {
    // SAFETY: each pointer comes from a slice that outlives the call, with that slice's length; a
    // slice's pointer is never null, and `reply` is borrowed apart from the others.
    unsafe {
        c::jespurla_name_option_answer(
            value.as_ptr(),
            value.len(),
            suffix.as_ptr(),
            suffix.len(),
            honour_s,
            honour_n,
            reply.as_mut_ptr(),
            reply.len(),
        )
    }
}

/// [`ServerList::after`](crate::ServerList::after) on a list that may break its form, which is
/// refused 31 before anything else, and with a clock that may be above [`Moment::LATEST`], which is
/// refused 15.
#[inline]
pub fn server_list(
    list: &ServerListState,
    clock: Moment,
    router_lifetime: Span,
    area: &[u8],
) -> ServerListAnswer {
    // SAFETY: the pointer comes from a slice that outlives the call, with that
    // slice's length; a slice's pointer is never null.
    unsafe { c::jespurla_server_list(*list, clock, router_lifetime, area.as_ptr(), area.len()) }
}

/// [`crate::lease_query`] with records and a clock that may break their form. A clock above
/// [`Moment::LATEST`] is refused 15, before anything else.
#[inline]
pub fn lease_query(
    clock: Moment,
    table: &[Lease],
    server: u32,
    query: &[u8],
    reply: &mut [u8],
) -> LeaseAnswer {
    // SAFETY: each pointer comes from a slice that outlives the call, with
    // that slice's length; a slice's pointer is never null, and `reply` is
    // borrowed apart from the others.
    unsafe {
        c::jespurla_lease_query(
            clock,
            table.as_ptr(),
            table.len(),
            server,
            query.as_ptr(),
            query.len(),
            reply.as_mut_ptr(),
            reply.len(),
        )
    }
}

/// [`crate::query_by_address`] with addresses as numbers.
///
/// Refusals of this and of the two other queries, in the order in which they are tried: 19 a giaddr
/// or a key that no server takes, or a client id of over 255 octets; 32 a buffer of under 501.
#[inline]
pub fn query_by_address(xid: u32, giaddr: u32, address: u32, query: &mut [u8]) -> QueryAnswer {
    // SAFETY: the pointer comes from a slice that outlives the call, with that slice's length; a
    // slice's pointer is never null.
    unsafe { c::jespurla_query_by_address(xid, giaddr, address, query.as_mut_ptr(), query.len()) }
}

/// [`crate::query_by_hardware`] with the giaddr as a number. Refusals as of [`query_by_address`].
#[inline]
pub fn query_by_hardware(
    xid: u32,
    giaddr: u32,
    htype: u8,
    chaddr: &[u8],
    query: &mut [u8],
) -> QueryAnswer {
    // SAFETY: each pointer comes from a slice that outlives the call, with that slice's length; a
    // slice's pointer is never null, and `query` is borrowed apart from the other.
    unsafe {
        c::jespurla_query_by_hardware(
            xid,
            giaddr,
            htype,
            chaddr.as_ptr(),
            chaddr.len(),
            query.as_mut_ptr(),
            query.len(),
        )
    }
}

/// [`crate::query_by_client_id`] with the giaddr as a number. Refusals as of [`query_by_address`].
#[inline]
pub fn query_by_client_id(xid: u32, giaddr: u32, id: &[u8], query: &mut [u8]) -> QueryAnswer {
    // SAFETY: as in query_by_hardware.
    unsafe {
        c::jespurla_query_by_client_id(
            xid,
            giaddr,
            id.as_ptr(),
            id.len(),
            query.as_mut_ptr(),
            query.len(),
        )
    }
}

/// [`crate::read_lease_reply`] with numbers.
///
/// Refusals, in the order in which they are tried: 20 a malformed reply; 21 one with another xid.
#[inline]
pub fn lease_reply_read(xid: u32, reply: &[u8]) -> LeaseReading {
    // SAFETY: the pointer comes from a slice that outlives the call, with that slice's length; a
    // slice's pointer is never null.
    unsafe { c::jespurla_lease_reply_read(xid, reply.as_ptr(), reply.len()) }
}

/// What stands at a name: a copy, octet for octet, of the one entry that has it, in whatever letters,
/// or zeros where the name is absent.
///
/// Refusals, in the order in which they are tried: 17 the zone breaks its form; 11 a name that is
/// not full.
#[inline]
pub fn zone_find(zone: &Zone, name: &Name) -> FindAnswer {
    // SAFETY: the pointer comes from a reference that outlives the call, with the size of the zone,
    // which is octets alone.
    unsafe { c::jespurla_zone_find(zone, size_of::<Zone>(), *name) }
}

/// Whether two zones have the same names, with the same owner at each and the same addresses of
/// each family, at whichever places, in whatever letters and in whatever order.
///
/// Refusal: 17 where one of the zones breaks its form.
#[inline]
pub fn zone_same(left: &Zone, right: &Zone) -> SameAnswer {
    // SAFETY: as in zone_find, of each pointer.
    unsafe { c::jespurla_zone_same(left, size_of::<Zone>(), right, size_of::<Zone>()) }
}

/// The refusal that a request with these would get, on a zone by value. Where there is no policy,
/// pass 0.
///
/// Refusals of this and of the four requests, in the order in which they are tried: 17 the zone
/// breaks its form; 18 a family or policy not listed; 11 a name that is not full.
#[inline]
pub fn zone_check(zone: &Zone, name: &Name, family: u8, policy: u8) -> CheckAnswer {
    // SAFETY: values in, a value out; no memory is lent.
    unsafe { c::jespurla_zone_check(*zone, *name, family, policy) }
}

/// [`Zone::request_a`](crate::Zone::request_a) on a zone by value: the zone that it leaves is in
/// the answer. Refusals as of [`zone_check`].
#[inline]
pub fn request_a(
    zone: &Zone,
    name: &Name,
    dhcid: &Dhcid,
    family: u8,
    address: &Address,
) -> Answered {
    // SAFETY: values in, a value out; no memory is lent.
    unsafe { c::jespurla_request_a(*zone, *name, *dhcid, family, *address) }
}

/// [`Zone::request_b`](crate::Zone::request_b) on a zone by value: the zone that it leaves is in
/// the answer. Refusals as of [`zone_check`].
#[inline]
pub fn request_b(
    zone: &Zone,
    name: &Name,
    dhcid: &Dhcid,
    family: u8,
    address: &Address,
    policy: u8,
) -> Answered {
    // SAFETY: values in, a value out; no memory is lent.
    unsafe { c::jespurla_request_b(*zone, *name, *dhcid, family, *address, policy) }
}

/// [`Zone::request_remove_address`](crate::Zone::request_remove_address) on a zone by value: the
/// zone that it leaves is in the answer. Refusals as of [`zone_check`].
#[inline]
pub fn request_remove_address(
    zone: &Zone,
    name: &Name,
    dhcid: &Dhcid,
    family: u8,
    address: &Address,
) -> Answered {
    // SAFETY: values in, a value out; no memory is lent.
    unsafe { c::jespurla_request_remove_address(*zone, *name, *dhcid, family, *address) }
}

/// [`Zone::request_remove_name`](crate::Zone::request_remove_name) on a zone by value: the zone
/// that it leaves is in the answer. Of the address only the family is looked at. Refusals as of
/// [`zone_check`].
#[inline]
pub fn request_remove_name(
    zone: &Zone,
    name: &Name,
    dhcid: &Dhcid,
    family: u8,
    address: &Address,
) -> Answered {
    // SAFETY: values in, a value out; no memory is lent.
    unsafe { c::jespurla_request_remove_name(*zone, *name, *dhcid, family, *address) }
}

/// [`Job::add`](crate::Job::add) with numbers.
///
/// Refusals, in the order in which they are tried: 18 a family or policy not listed; 11 a name that
/// is not full.
#[inline]
pub fn new_add(name: &Name, dhcid: &Dhcid, family: u8, address: &Address, policy: u8) -> NewJob {
    // SAFETY: values in, a value out; no memory is lent.
    unsafe { c::jespurla_new_add(*name, *dhcid, family, *address, policy) }
}

/// [`Job::remove`](crate::Job::remove) with numbers. Refusals as of [`new_add`], but that it has no
/// policy.
#[inline]
pub fn new_remove(name: &Name, dhcid: &Dhcid, family: u8, address: &Address) -> NewJob {
    // SAFETY: values in, a value out; no memory is lent.
    unsafe { c::jespurla_new_remove(*name, *dhcid, family, *address) }
}

/// 1 where a job's stage is one that a step leaves as it is, and 0 at any other. Only the stage is
/// looked at.
#[inline]
pub fn job_has_ended(job: &Job) -> u8 {
    // SAFETY: a value in, a number out; no memory is lent.
    unsafe { c::jespurla_job_has_ended(*job) }
}

/// [`Job::step`](crate::Job::step) on a zone by value: the zone that it leaves is in the answer.
///
/// Refusals, in the order in which they are tried: 17 the zone breaks its form; 18 a stage, family
/// or policy not listed, or a count that the stage can't have; 11 a name that is not full.
#[inline]
pub fn job_step(zone: &Zone, job: &Job) -> Stepped {
    // SAFETY: values in, a value out; no memory is lent.
    unsafe { c::jespurla_job_step(*zone, *job) }
}

/// [`zone_check`] on a zone that is lent.
#[inline]
pub fn zone_check_lent(zone: &Zone, name: &Name, family: u8, policy: u8) -> CheckAnswer {
    // SAFETY: as in zone_find.
    unsafe { c::jespurla_zone_check_lent(zone, size_of::<Zone>(), *name, family, policy) }
}

/// [`Zone::request_a`](crate::Zone::request_a) with numbers. Refusals as of [`zone_check`].
#[inline]
pub fn request_a_lent(
    zone: &mut Zone,
    name: &Name,
    dhcid: &Dhcid,
    family: u8,
    address: &Address,
) -> RequestAnswer {
    // SAFETY: the pointer comes from a reference that outlives the call and is
    // the only one, with the size of the zone; a zone is octets alone, so
    // whatever is written there is one.
    unsafe { c::jespurla_request_a_lent(zone, size_of::<Zone>(), *name, *dhcid, family, *address) }
}

/// [`Zone::request_b`](crate::Zone::request_b) with numbers. Refusals as of [`zone_check`].
#[inline]
pub fn request_b_lent(
    zone: &mut Zone,
    name: &Name,
    dhcid: &Dhcid,
    family: u8,
    address: &Address,
    policy: u8,
) -> RequestAnswer {
    // SAFETY: as in request_a_lent.
    unsafe {
        c::jespurla_request_b_lent(
            zone,
            size_of::<Zone>(),
            *name,
            *dhcid,
            family,
            *address,
            policy,
        )
    }
}

/// [`Zone::request_remove_address`](crate::Zone::request_remove_address) with numbers. Refusals as
/// of [`zone_check`].
#[inline]
pub fn request_remove_address_lent(
    zone: &mut Zone,
    name: &Name,
    dhcid: &Dhcid,
    family: u8,
    address: &Address,
) -> RequestAnswer {
    // SAFETY: as in request_a_lent.
    unsafe {
        c::jespurla_request_remove_address_lent(
            zone,
            size_of::<Zone>(),
            *name,
            *dhcid,
            family,
            *address,
        )
    }
}

/// [`Zone::request_remove_name`](crate::Zone::request_remove_name) with numbers. Of the address
/// only the family is looked at. Refusals as of [`zone_check`].
#[inline]
pub fn request_remove_name_lent(
    zone: &mut Zone,
    name: &Name,
    dhcid: &Dhcid,
    family: u8,
    address: &Address,
) -> RequestAnswer {
    // SAFETY: as in request_a_lent.
    unsafe {
        c::jespurla_request_remove_name_lent(
            zone,
            size_of::<Zone>(),
            *name,
            *dhcid,
            family,
            *address,
        )
    }
}

/// [`Job::step`](crate::Job::step) with numbers. Refusals as of [`job_step`]. Steps of both kinds
/// may be mixed on one zone.
#[inline]
pub fn job_step_lent(zone: &mut Zone, job: &Job) -> StepAnswer {
    // SAFETY: as in request_a_lent.
    unsafe { c::jespurla_job_step_lent(zone, size_of::<Zone>(), *job) }
}

/// The octets of a zone.
#[inline]
pub fn zone_octets(zone: &Zone) -> &[u8; size_of::<Zone>()] {
    // SAFETY: a zone is octets alone, without gaps, so it may be read as so many octets.
    unsafe { &*ptr::from_ref(zone).cast() }
}

/// The zone in so many octets, whatever its form.
#[inline]
pub(crate) fn zone_in(octets: &[u8; size_of::<Zone>()]) -> &crate::Zone {
    // SAFETY: crate::Zone is laid out as Zone, which is octets alone, so any octets are one.
    unsafe { &*ptr::from_ref(octets).cast() }
}

/// The same, to be changed where it lies.
#[inline]
pub(crate) fn zone_in_mut(octets: &mut [u8; size_of::<Zone>()]) -> &mut crate::Zone {
    // SAFETY: as in zone_in; the reference is the only one, and what is written is octets.
    unsafe { &mut *ptr::from_mut(octets).cast() }
}

/// A lease table as C has it.
#[inline]
pub(crate) fn leases(table: &[crate::Lease]) -> &[Lease] {
    // SAFETY: crate::Lease is laid out as Lease, and the length is that of the slice.
    unsafe { slice::from_raw_parts(table.as_ptr().cast(), table.len()) }
}
