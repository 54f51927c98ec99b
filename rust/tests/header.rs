//! The constants are those of include/jespurla.h.

use std::collections::HashMap;

use jespurla::{limits, raw};

/// The numbers that the header gives names to.
fn defined() -> HashMap<&'static str, u64> {
    let lines = include_str!("../include/jespurla.h").lines();
    let definitions = lines.filter_map(|line| {
        let mut words = line.strip_prefix("#define JESPURLA_")?.split_whitespace();
        let (name, value) = (words.next()?, words.next()?);
        Some((name, value.parse().ok()?))
    });
    definitions.collect()
}

/// The constants of a module by their names.
macro_rules! constants {
    ($module:ident: $($name:ident)*) => {
        [$((stringify!($name), $module::$name as u64),)*]
    };
}

const LIMITS: [(&str, u64); 21] = constants!(limits:
    NAME_MAX LABEL_MAX NAME_REPLY_MIN AREA_MAX ROUTER_LIFETIME_MAX SERVERS_MAX OPTION_SERVERS_MAX
    PACKET_MIN PACKET_MAX LEASE_REPLY_MIN LEASE_QUERY_MIN LEASES_MAX HARDWARE_MAX CLIENT_ID_MAX
    QUERY_CLIENT_ID_MAX RELAY_MAX REPLY_ADDRESSES_MAX DHCID_LENGTH NAMES_MAX NAME_ADDRESSES_MAX
    REQUESTS_MAX);

const NUMBERS: [(&str, u64); 33] = constants!(raw:
    FLAG_S FLAG_O FLAG_N LEASE_FREE LEASE_LEASED LEASEUNASSIGNED LEASEUNKNOWN LEASEACTIVE
    FREE STATIC HELD FAMILY_4 FAMILY_6 KEEP_OTHERS ONE_OF_FAMILY ONLY_THIS
    NOERROR NXDOMAIN YXDOMAIN YXRRSET NXRRSET NO_ROOM
    ADD_BEFORE_A ADD_BEFORE_B ADD_DONE ADD_CONFLICT ADD_NO_ROOM ADD_GAVE_UP
    REMOVE_BEFORE_FIRST REMOVE_BEFORE_SECOND REMOVE_NOT_OURS REMOVE_GONE REMOVE_KEPT);

#[test]
fn constants_are_those_of_the_header() {
    let mut defined = defined();
    for name in ["VERSION_MAJOR", "VERSION_MINOR", "VERSION_PATCH"] {
        defined.remove(name).expect("a number of the version");
    }
    let ours: HashMap<_, _> = LIMITS.into_iter().chain(NUMBERS).collect();
    assert_eq!(ours, defined);
}

#[test]
fn a_zone_has_its_length() {
    assert_eq!(size_of::<raw::Zone>(), limits::ZONE_LENGTH);
    assert_eq!(size_of::<jespurla::Zone>(), limits::ZONE_LENGTH);
}
