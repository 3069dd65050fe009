//! What a keyed call and a slice read. Paper 01: "Reading that is thrown away shows in no value". So every
//! record that a call may not read lies on memory that can't be read, and a call that touches it all the
//! same fails, with call, set and record named. `rules.rs` has the rule of each call. Answers, trails and
//! outputs are held against the model as well. Seeds are fixed, so a failure comes again.
//!
//! A test of its own, since it handles the process's faults; for x86-64 Linux.
#![cfg(all(target_os = "linux", target_arch = "x86_64"))]

mod asks;
mod calls;
mod finds;
mod large;
mod layout;
mod linux;
mod memory;
mod packed;
mod place;
mod rules;
mod seen;
mod set;
mod small;
mod spread;
mod trial;
mod widths;

// shared with the differential tests, which use more of them
#[allow(dead_code)]
#[path = "../differential/keys.rs"]
mod keys;
#[allow(dead_code)]
#[path = "../differential/lent.rs"]
mod lent;
#[allow(dead_code)]
#[path = "../differential/quick.rs"]
mod quick;
#[allow(dead_code)]
#[path = "../differential/random.rs"]
mod random;
#[allow(dead_code)]
#[path = "../differential/run.rs"]
mod run;
