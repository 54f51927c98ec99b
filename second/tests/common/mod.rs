//! What the tests and the benchmark share; each uses a part of it.

#![allow(dead_code)]

pub mod areas;
pub mod bind;
pub mod damage;
pub mod desk_keys;
pub mod faults;
pub mod jobs;
pub mod leases;
pub mod lengths;
pub mod lent;
pub mod letters;
pub mod moments;
pub mod names;
pub mod options;
pub mod pipe;
pub mod product;
pub mod queries;
pub mod random;
pub mod replies;
pub mod reply_faults;
pub mod request_lists;
pub mod requests;
pub mod run;
pub mod stack;
pub mod step_list;
pub mod step_log;
pub mod tables;
pub mod tally;
pub mod twin;
pub mod variants;
pub mod zones;
