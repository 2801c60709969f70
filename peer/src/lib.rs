//! A second player of job files, from documents 01 and 02; it shares no code with the core.
//!
//! `play`, `job`, `query`, `listing`, `page`, `sheet` and `limits` are the player; `replay` and
//! `demand` say what a run must leave; `gen` makes jobs, tables and damage; `player` is how any
//! player, this one or another, is called; `proved`, under the feature `core`, is the proved core
//! as such a player.

#![forbid(unsafe_code)]

pub mod demand;
pub mod gen;
pub mod head;
pub mod job;
pub mod limits;
pub mod listing;
pub mod numbers;
pub mod page;
pub mod play;
pub mod player;
#[cfg(feature = "core")]
pub mod proved;
pub mod query;
pub mod replay;
pub mod sheet;
pub mod word;
