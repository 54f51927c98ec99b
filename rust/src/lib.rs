//! The core of an address box: lease queries, answered and asked (RFC 4388), the DHCPv6 name option
//! (RFC 4704), the DNS servers that routers announce (RFC 5006), and the players' names in a DNS
//! zone that several boxes share (RFC 4703). It opens no sockets and keeps no state of its own.
//!
//! The calls are those of `libjespurla.a`, each proved to meet its promise. Every call takes every
//! value of its arguments, returns, and reads and writes only what it was lent.
//!
//! ```
//! use jespurla::{name_option_answer, Dhcid, Job, Name, Policy, Stage, Zone};
//! use std::net::Ipv4Addr;
//!
//! // A client asks for the name pipe7, and that we update its address.
//! let suffix: Name = "stage.".parse()?;
//! let mut reply = [0; 256];
//! let name = name_option_answer(b"\x01\x05pipe7", &suffix, true, false, &mut reply)?.name();
//!
//! // An add writes the name into the zone.
//! let mut zone = Zone::new();
//! let (client, address) = (Dhcid::new([7; 35]), Ipv4Addr::new(10, 0, 0, 7));
//! let job = Job::add(&name, &client, address, Policy::KeepOthers)?.run(&mut zone)?;
//! assert_eq!(job.stage(), Stage::AddDone);
//! println!("{zone:?}");
//! # assert_eq!(
//! #     format!("{zone:?}"),
//! #     "Zone, 1 of 64 names\n  pipe7.stage. held by 07070707.. 10.0.0.7"
//! # );
//! # Ok::<(), Box<dyn std::error::Error>>(())
//! ```
//!
//! # The calls
//!
//! | Here | In C | What it does |
//! |---|---|---|
//! | [`flag_decision`] | `jespurla_flag_decision` | decides about the flags of a name option |
//! | [`name_option_answer`] | `jespurla_name_option_answer` | answers a name option |
//! | [`ServerList::after`], [`advance`](ServerList::advance) | `jespurla_server_list` | applies a router's lifetime and options to the list of DNS servers |
//! | [`ServerList::expire`] | `jespurla_server_list` | drops the DNS servers that have expired |
//! | [`lease_query`] | `jespurla_lease_query` | replies to a lease query |
//! | [`query_by_address`] | `jespurla_query_by_address` | writes a lease query by an address |
//! | [`query_by_hardware`] | `jespurla_query_by_hardware` | writes a lease query by a hardware address |
//! | [`query_by_client_id`] | `jespurla_query_by_client_id` | writes a lease query by a client id |
//! | [`read_lease_reply`] | `jespurla_lease_reply_read` | reads the reply to a lease query |
//! | [`Zone::find`] | `jespurla_zone_find` | tells what stands at a name |
//! | `==` of [`Zone`]s | `jespurla_zone_same` | tells whether two zones mean the same |
//! | [`Zone::check`] | `jespurla_zone_check_lent` | tells whether a zone keeps its form |
//! | [`Zone::request_a`] | `jespurla_request_a_lent` | adds a name |
//! | [`Zone::request_b`] | `jespurla_request_b_lent` | adds an address to a name |
//! | [`Zone::request_remove_address`] | `jespurla_request_remove_address_lent` | deletes an address of a name |
//! | [`Zone::request_remove_name`] | `jespurla_request_remove_name_lent` | deletes a name without addresses |
//! | [`Job::add`], [`Job::remove`] | `jespurla_new_add`, `jespurla_new_remove` | makes a job |
//! | [`Job::step`] | `jespurla_job_step_lent` | sends the next request of a job |
//! | [`Job::has_ended`] | `jespurla_job_has_ended` | tells whether a job has ended |
//! | [`library_version`] | `jespurla_version` | tells the version of the library |
//!
//! The module [`raw`] has the same calls with numbers and structs as C has them, and those that
//! take a zone by value. [`limits`] has the limits as constants.
//!
//! # Refusals
//!
//! A call that can refuse its input returns a `Result` whose error is a [`Refusal`]. Each call says
//! which refusals it has, in the order in which they are tried: the first that applies is given.
//! Beside a refusal every buffer, list and zone is as it was before the call.
//!
//! The types keep much of what C can hand in from being said at all: a [`Name`] is always a full
//! name, a [`Moment`] within its range, an address of one family, a [`Zone`] of good form. Where
//! such a value is made of numbers or octets, that is refused instead.
//!
//! Nothing here panics, unless the library that is linked is of a later version than this crate and
//! answers a number that this crate does not list.
//!
//! # Stack
//!
//! A call that takes no zone by value takes under 6 KiB itself; 16 KiB are enough for it with the
//! copies that its caller makes of names and jobs. A call that takes a zone by value, which [`raw`]
//! alone has, takes up to 104 KiB itself, and 160 KiB with the copies that its caller makes of the
//! zone that goes in and the one that comes out: give it 256 KiB. The threads of musl have 128 KiB
//! unless told otherwise, which is not enough for those. [`Zone`] says how to keep a zone off the
//! stack.
//!
//! # What it needs
//!
//! Linux on x86-64, and Rust 1.81 or later. The crate uses `core` alone (`no_std`), allocates
//! nothing and depends on no other crate. The library reads neither clock nor files, and needs
//! `memcpy`, `memmove` and `memset`.
//!
//! The build script looks for `libjespurla.a` in the folder that the environment variable
//! `JESPURLA_LIB_DIR` names; where it is not set, where `pkg-config` says that the library is
//! installed; and else in the folder `build` of the repository that this crate is part of.

#![no_std]
#![deny(unsafe_code, missing_docs)]

mod addresses;
mod dhcid;
mod entry;
mod family;
mod flags;
mod job;
mod lease;
mod lease_query;
mod lease_reading;
pub mod limits;
mod moment;
mod name;
mod name_option;
mod numbers;
mod presentation;
mod query;
pub mod raw;
mod refusal;
mod request;
mod server_list;
mod stage;
mod version;
mod zone;
mod zone_debug;

pub use addresses::Addresses;
pub use dhcid::Dhcid;
pub use entry::{Entry, Standing};
pub use family::Family;
pub use flags::{flag_decision, FlagDecision};
pub use job::Job;
pub use lease::{Lease, LeaseState};
pub use lease_query::{lease_query, LeaseReply, ReplyKind};
pub use lease_reading::{read_lease_reply, LeaseReading, TimeLeft};
pub use moment::{Expiry, Moment, Span};
pub use name::Name;
pub use name_option::{name_option_answer, NameReply};
pub use numbers::UnlistedNumber;
pub use presentation::ParseNameError;
pub use query::{query_by_address, query_by_client_id, query_by_hardware};
pub use raw::{FLAG_N, FLAG_O, FLAG_S};
pub use refusal::Refusal;
pub use request::{Answer, Policy};
pub use server_list::{Server, ServerList};
pub use stage::Stage;
pub use version::{library_version, Version};
pub use zone::Zone;
