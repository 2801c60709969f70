//! Tests of players: the cases of documents 01 and 02, edges, seeded jobs, damage and wrong turns.

use peer::job::Job;
use peer::player::{Player, PEER};

mod cases;
mod damage;
mod document;
mod edges;
mod edits;
mod enquiry;
mod kept;
mod limits;
#[cfg(feature = "core")]
mod listed;
mod page;
mod plain;
#[cfg(feature = "core")]
mod program;
mod promises;
mod random;
mod sheet;
#[cfg(all(feature = "core", target_arch = "x86_64"))]
mod stack;
mod waits;
mod words;
mod writer;
mod wrong_turns;

/// Who is tested: a player in this list is put under every test.
#[cfg(not(feature = "core"))]
const PLAYERS: [Player; 1] = [PEER];
#[cfg(feature = "core")]
const PLAYERS: [Player; 4] = [PEER, peer::proved::CORE, peer::proved::LENT, peer::proved::TEXT];

/// A job whose file is accepted.
trait Accepted {
    /// Its file, of which the workbench's text makes the same file again.
    fn accepted(&self) -> Vec<u8>;
}

impl Accepted for Job {
    fn accepted(&self) -> Vec<u8> {
        let file = self.file().expect("accepted");
        #[cfg(feature = "core")]
        assert_eq!(peer::proved::by_text(&file), file);
        file
    }
}
