//! Tests of the workbench: texts, the program's commands, runs in words, pictures.

use std::path::PathBuf;

use peer::gen::{self, Random};
use peer::job::Job;

mod explained;
mod pictures;
mod program;
mod texts;
mod xml;

/// A file of the repository.
fn repository(path: &str) -> PathBuf {
    PathBuf::from(concat!(env!("CARGO_MANIFEST_DIR"), "/..")).join(path)
}

/// A stored file of the repository, as text.
fn stored(path: &str) -> String {
    std::fs::read_to_string(repository(path)).unwrap_or_else(|why| panic!("{path}: {why}"))
}

/// So many seeded jobs, contended ones as a rule, with rights, pairs and long waits among them.
fn seeded(jobs: u64) -> impl Iterator<Item = Job> {
    (0..jobs).map(|seed| {
        let random = &mut Random::new(seed);
        match seed % 4 {
            0 => gen::held(random),
            1 => gen::poised(random),
            _ => gen::varied(random),
        }
    })
}

/// The file of a job, by the second player's writer.
fn file_of(job: &Job) -> Vec<u8> {
    job.file().expect("a generated job is accepted")
}
