//! A model of the load/store unit, written from the paper alone, and the means
//! to compare it with second, plain statements of the rules.
//!
//! - `types`: the data that all parts share.
//! - `check`: the checks before a call, one function for each clause.
//! - `model`: the machine, quick and in place.
//! - `fault`: the named ways of being wrong; `faulty` has a machine for each.
//! - `plain`: the same state read into lists and maps, or found ill formed.
//! - `rules`: each call's rule once more, slow and plain.
//! - `flat`: demand 2, over whole runs.
//! - `forwarded`: loads fed from held stores, over whole runs.
//! - `preview`: previews of a reply, over whole runs.
//! - `stretch`: the kinds of dropped stretches.
//! - `dropped`: demand 3, over whole runs.
//! - `script`: the script player.
//! - `program`: a player under test, and where two outputs differ.
//! - `stored`: the stored examples.
//! - `random`: random runs; `maker` has the table of their calls and turns.
//! - `examine`: one run under all the checks.
//! - `traffic`: the bytes that are written back.
//! - `counts`: what runs met, and what they must meet.
//! - `fed`: what they met of loads fed from held stores.
//! - `long`: long random scripts.
//! - `met`: what scripts met, and what they must meet.
//! - `struck`: scripts with dropped stretches struck from them.
//! - `study`: the ways study, with all that belongs to it.
//! - `arguments`: the command lines of the programs.
//! - `times`: medians of what was timed.
//!
//! `cargo run --release --bin runs` plays random runs under all the checks,
//! `cargo run --release --bin player` plays a script,
//! `cargo run --release --bin scripts` plays the stored examples,
//! `cargo run --release --bin beside` sets a player beside the model,
//! `cargo run --release --bin player_times` times one beside the Rust player.

pub mod arguments;
pub mod check;
pub mod counts;
pub mod dropped;
pub mod examine;
pub mod fault;
mod faulty;
pub mod fed;
pub mod flat;
pub mod forwarded;
pub mod long;
mod maker;
pub mod met;
pub mod model;
pub mod plain;
pub mod preview;
pub mod program;
pub mod random;
pub mod rules;
pub mod script;
pub mod stored;
pub mod stretch;
pub mod struck;
pub mod study;
pub mod times;
pub mod traffic;
pub mod types;
