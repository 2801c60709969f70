//! Plays a job's grants on a lent table, and fills the lent report and line-up.

use crate::head::{Access, Head, Memory};
use crate::job::{self, Shape};
use crate::numbers::{answer, refusal};

#[derive(Clone, Copy, Debug, Default, PartialEq, Eq)]
pub struct Tally {
    pub idle: u32,
    pub failed: u32,
    pub links: u32,
    pub working: u32,
}

/// The result of a call; a refused one has its number and zero for everything else.
#[derive(Clone, Copy, Debug, Default, PartialEq, Eq)]
pub struct Played {
    pub number: u32,
    pub nodes: u32,
    pub heads: u32,
    pub requests: u32,
    pub grants: u32,
    pub entries: u32,
    pub tally: Tally,
}

impl Played {
    pub fn refused(number: u32) -> Played {
        Played { number, ..Played::default() }
    }
}

/// Plays a file. Nothing is written unless it is accepted and the buffers are long enough.
pub fn play(file: &[u8], table: &mut [u32], report: &mut [u32], lineup: &mut [u32]) -> Played {
    play_watched(file, table, report, lineup, |_| ())
}

/// As `play`, with every access shown to `watch` as it is made.
pub fn play_watched(
    file: &[u8],
    table: &mut [u32],
    report: &mut [u32],
    lineup: &mut [u32],
    watch: impl FnMut(Access),
) -> Played {
    let played = play_to_its_end(file, table, report, lineup, watch, |run| run.played());
    played.unwrap_or_else(Played::refused)
}

/// Buffers of a call's own, long enough for every job.
pub struct Buffers {
    pub table: [u32; job::MAX_NODES as usize],
    pub report: [u32; 4 * job::MAX_REQUESTS],
    pub lineup: [u32; 2 * job::MAX_REQUESTS],
}

impl Buffers {
    const ZEROS: Buffers = Buffers {
        table: [0; job::MAX_NODES as usize],
        report: [0; 4 * job::MAX_REQUESTS],
        lineup: [0; 2 * job::MAX_REQUESTS],
    };

    /// Plays a file on them.
    pub fn played(file: &[u8]) -> (Played, Buffers) {
        let mut buffers = Buffers::ZEROS;
        let Buffers { table, report, lineup } = &mut buffers;
        (play(file, table, report, lineup), buffers)
    }
}

/// After the grants of a file, or its refusal: of each head, the lowest unfinished request that its
/// next one waits for.
pub fn waits_after(file: &[u8]) -> Result<Vec<Option<usize>>, u32> {
    let Buffers { mut table, mut report, mut lineup } = Buffers::ZEROS;
    let told = |run: &Run<_>| {
        let heads = &run.heads[..run.shape.heads as usize];
        heads.iter().map(|head| head.waits.map(usize::from)).collect()
    };
    play_to_its_end(file, &mut table, &mut report, &mut lineup, |_| (), told)
}

/// Plays a file and tells what `told` sees after its last grant.
fn play_to_its_end<W: FnMut(Access), T>(
    file: &[u8],
    table: &mut [u32],
    report: &mut [u32],
    lineup: &mut [u32],
    watch: W,
    told: impl FnOnce(&Run<W>) -> T,
) -> Result<T, u32> {
    let shape = job::check(file)?;
    let nodes = shape.nodes as usize;
    if table.len() < nodes || report.len() < 4 * shape.requests || lineup.len() < 2 * shape.requests
    {
        return Err(refusal::BUFFER_TOO_SHORT);
    }
    let table = &mut table[..nodes];
    let report = &mut report[..4 * shape.requests];
    let mut run = Run::start(file, shape, table, report, lineup, watch);
    for (head, length) in job::runs(file, &shape) {
        for _ in 0..length {
            run.grant(head);
        }
    }
    Ok(told(&run))
}

/// A job under way.
struct Run<'a, W> {
    file: &'a [u8],
    shape: Shape,
    heads: [Head; job::MAX_HEADS as usize],
    /// The heads with work left, a bit each.
    work: u32,
    /// Those of them that wait.
    waiting: u32,
    idle: u32,
    memory: Memory<'a, W>,
    report: &'a mut [u32],
    lineup: Lineup<'a>,
}

impl<'a, W: FnMut(Access)> Run<'a, W> {
    fn start(
        file: &'a [u8],
        shape: Shape,
        table: &'a mut [u32],
        report: &'a mut [u32],
        lineup: &'a mut [u32],
        watch: W,
    ) -> Self {
        report.fill(0);
        let mut run = Run {
            file,
            shape,
            heads: [Head::NEW; job::MAX_HEADS as usize],
            work: 0,
            waiting: 0,
            idle: 0,
            memory: Memory::start(table, watch),
            report,
            lineup: Lineup { numbers: lineup, entries: 0 },
        };
        for head in 0..shape.heads as u8 {
            run.rest(head, 0);
        }
        run
    }

    /// Lets a head rest before its first request not below `from`, if it has one.
    fn rest(&mut self, head: u8, from: usize) {
        let mut later = from..self.shape.requests;
        let next =
            later.find(|&number| job::request_at(self.file, &self.shape, number).head == head);
        if let Some(number) = next {
            self.heads[usize::from(head)].rest(number);
            self.work |= 1 << head;
            if self.shape.waits > 0 {
                self.wait(head);
            }
        } else {
            self.work &= !(1 << head);
        }
    }

    /// Lets a resting head wait for the lowest unfinished request that its next one waits for. It
    /// is out of line, as `release` is, so that files without pairs are played as fast as before.
    #[cold]
    fn wait(&mut self, head: u8) {
        let state = &mut self.heads[usize::from(head)];
        let unfinished = |number: &usize| self.report[4 * number] == answer::UNFINISHED;
        let lowest = job::waited_for(self.file, &self.shape, state.request).find(unfinished);
        state.waits = lowest.map(|number| number as u16);
        self.waiting &= !(1 << head);
        self.waiting |= u32::from(state.waits.is_some()) << head;
    }

    /// Heads that waited for the request just finished wait for the next one, or for none.
    #[cold]
    fn release(&mut self, finished: usize) {
        for head in 0..self.shape.heads as u8 {
            if self.heads[usize::from(head)].waits == Some(finished as u16) {
                self.wait(head);
            }
        }
    }

    fn grant(&mut self, head: u8) {
        self.memory.now += 1;
        if self.work & !self.waiting & (1 << head) == 0 {
            self.idle += 1;
            return;
        }
        let state = &mut self.heads[usize::from(head)];
        let number = state.request;
        let numbers = &mut self.report[4 * number..][..4];
        if state.is_resting() {
            state.begin(&job::request_at(self.file, &self.shape, number));
            numbers[1] = self.memory.now;
        }
        numbers[3] += 1;
        self.memory.head = head;
        self.memory.request = number;
        let progress = state.step(&mut self.memory);
        if progress.point != 0 {
            self.lineup.enter(progress.point, number as u32);
        }
        if progress.answer != answer::UNFINISHED {
            numbers[0] = progress.answer;
            numbers[2] = self.memory.now;
            self.rest(head, number + 1);
            if self.waiting != 0 {
                self.release(number);
            }
        }
    }

    fn played(&self) -> Played {
        Played {
            number: refusal::NONE,
            nodes: self.shape.nodes,
            heads: self.shape.heads,
            requests: self.shape.requests as u32,
            grants: self.shape.grants,
            entries: self.lineup.entries as u32,
            tally: Tally {
                idle: self.idle,
                failed: self.memory.failed,
                links: self.memory.links,
                working: self.work.count_ones(),
            },
        }
    }
}

/// The lent line-up, two numbers an entry: point and request.
struct Lineup<'a> {
    numbers: &'a mut [u32],
    entries: usize,
}

impl Lineup<'_> {
    /// Puts an entry in at its point; later entries move up.
    fn enter(&mut self, point: u32, request: u32) {
        let mut place = self.entries;
        while place > 0 && self.numbers[2 * place - 2] > point {
            place -= 1;
        }
        self.numbers.copy_within(2 * place..2 * self.entries, 2 * place + 2);
        self.numbers[2 * place] = point;
        self.numbers[2 * place + 1] = request;
        self.entries += 1;
    }
}
