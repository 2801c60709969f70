//! The workbench over the proved grouping core: jobs as text, runs in words and as pictures.
//!
//! Nothing of the algorithm stands here. A job file is accepted, written and played by the core's own
//! calls, and what a grant did is told by the difference of two plays, one that ends before it and
//! one that ends with it. Three things are read off what the core has accepted or left, and tested
//! against the second player: the records of a file, the places below a root of the table, and which
//! unfinished request a resting head waits for. [`job`], [`text`], [`draft`] and [`refused`] are jobs and their texts,
//! [`cut`] and [`story`] what the grants of a run did, [`explain`] and [`picture`] how it is shown,
//! [`commands`], [`call`] and [`files`] the program.

#![forbid(unsafe_code)]

pub mod call;
pub mod commands;
pub mod cut;
pub mod draft;
pub mod explain;
pub mod files;
pub mod groups;
pub mod job;
pub mod picture;
pub mod refused;
pub mod story;
pub mod text;
