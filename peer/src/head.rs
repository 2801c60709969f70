//! One head: the stages of a request, and the single access that each grant makes.

use crate::job::{Kind, Request};
use crate::numbers::answer;
use crate::word::{before, parent, rank, word};

/// What one grant did to the one word that it touched. Idle grants have none.
#[derive(Clone, Copy, Debug, PartialEq, Eq)]
pub struct Access {
    pub grant: u32,
    pub head: u8,
    pub request: usize,
    pub node: u32,
    /// The word as it stood before the grant.
    pub seen: u32,
    pub deed: Deed,
}

#[derive(Clone, Copy, Debug, PartialEq, Eq)]
pub enum Deed {
    Read,
    Swap { expected: u32, new: u32 },
}

impl Access {
    pub fn wrote(&self) -> bool {
        matches!(self.deed, Deed::Swap { expected, .. } if expected == self.seen)
    }

    pub fn failed(&self) -> bool {
        matches!(self.deed, Deed::Swap { expected, .. } if expected != self.seen)
    }

    /// Whether it is a swap, written or not, from a root to another parent.
    pub fn tries_link(&self) -> bool {
        matches!(self.deed, Deed::Swap { expected, new }
            if parent(expected) == self.node && parent(new) != self.node)
    }

    /// Whether it is a swap, written or not, from a root to a root.
    pub fn tries_raise(&self) -> bool {
        matches!(self.deed, Deed::Swap { expected, new }
            if parent(expected) == self.node && parent(new) == self.node)
    }
}

/// The table, with what its swaps count and who has the grant.
pub struct Memory<'a, W> {
    table: &'a mut [u32],
    pub failed: u32,
    pub links: u32,
    /// The number of the grant under way.
    pub now: u32,
    pub head: u8,
    pub request: usize,
    /// Is shown every access.
    watch: W,
}

impl<'a, W: FnMut(Access)> Memory<'a, W> {
    /// Every node its own parent, rank 0, before the first grant.
    pub fn start(table: &'a mut [u32], watch: W) -> Self {
        for (node, own) in table.iter_mut().enumerate() {
            *own = word(0, node as u32);
        }
        Memory { table, failed: 0, links: 0, now: 0, head: 0, request: 0, watch }
    }

    fn read(&mut self, node: u32) -> u32 {
        let seen = self.table[node as usize];
        self.show(node, seen, Deed::Read);
        seen
    }

    /// Whether it wrote.
    fn swap(&mut self, node: u32, expected: u32, new: u32) -> bool {
        let seen = self.table[node as usize];
        self.show(node, seen, Deed::Swap { expected, new });
        if seen == expected {
            self.table[node as usize] = new;
        } else {
            self.failed += 1;
        }
        seen == expected
    }

    fn show(&mut self, node: u32, seen: u32, deed: Deed) {
        (self.watch)(Access {
            grant: self.now,
            head: self.head,
            request: self.request,
            node,
            seen,
            deed,
        });
    }
}

/// Which of a request's nodes a find is made from.
#[derive(Clone, Copy)]
enum Side {
    X,
    Y,
    /// The x that a union has linked, to tidy up: y takes its place and climbs, x is kept.
    Linked,
}

/// What a head does with its next grant that is not idle.
#[derive(Clone, Copy)]
enum Stage {
    Resting,
    /// The round of a find: `own` is the node's word as read, `up` its parent's.
    ReadNode(Side),
    ReadParent {
        side: Side,
        own: u32,
    },
    Halve {
        side: Side,
        own: u32,
        up: u32,
    },
    ReadParentAgain {
        side: Side,
        parent: u32,
    },
    /// Of a same-set whose two roots differ.
    RereadX,
    /// Of a union whose two roots differ.
    RankOfX,
    RankOfY {
        rank_x: u32,
    },
    Link {
        rank_x: u32,
        rank_y: u32,
    },
    Raise {
        rank: u32,
    },
    /// Of a union that has linked, with y the root above x.
    RankOfLinked,
    RaiseLast {
        rank: u32,
    },
}

/// A head, with its request under way or, while it rests, its next one.
#[derive(Clone, Copy)]
pub struct Head {
    pub request: usize,
    /// While it rests: the lowest unfinished request that its next one waits for.
    pub waits: Option<u16>,
    kind: Kind,
    x: u32,
    y: u32,
    /// The grant that ended the last find from y.
    point: u32,
    stage: Stage,
}

/// What a grant gives to the line-up, a point, and to the report, an answer; zero for nothing.
pub struct Progress {
    pub point: u32,
    pub answer: u32,
}

impl Progress {
    const NOTHING: Progress = Progress::new(0, answer::UNFINISHED);

    const fn new(point: u32, answer: u32) -> Progress {
        Progress { point, answer }
    }
}

impl Head {
    /// Before it has any request.
    pub const NEW: Head = Head {
        request: 0,
        waits: None,
        kind: Kind::Union,
        x: 0,
        y: 0,
        point: 0,
        stage: Stage::Resting,
    };

    /// Rests before the request of this number.
    pub fn rest(&mut self, request: usize) {
        self.request = request;
        self.stage = Stage::Resting;
    }

    pub fn is_resting(&self) -> bool {
        matches!(self.stage, Stage::Resting)
    }

    /// Begins the request it rests before.
    pub fn begin(&mut self, request: &Request) {
        self.kind = request.kind;
        self.x = request.x;
        self.y = request.y;
        self.try_again();
    }

    /// Makes the one access of a grant.
    pub fn step<W: FnMut(Access)>(&mut self, memory: &mut Memory<W>) -> Progress {
        match self.stage {
            Stage::Resting => Progress::NOTHING,
            Stage::ReadNode(side) => self.read_node(side, memory),
            Stage::ReadParent { side, own } => {
                let up = memory.read(parent(own));
                self.go_on(Stage::Halve { side, own, up })
            }
            Stage::Halve { side, own, up } => {
                memory.swap(*self.node(side), own, word(rank(own), parent(up)));
                let parent = parent(own);
                self.go_on(Stage::ReadParentAgain { side, parent })
            }
            Stage::ReadParentAgain { side, parent: node } => {
                *self.node(side) = parent(memory.read(node));
                self.go_on(Stage::ReadNode(side))
            }
            Stage::RereadX => self.reread(memory),
            Stage::RankOfX => {
                let rank_x = rank(memory.read(self.x));
                self.go_on(Stage::RankOfY { rank_x })
            }
            Stage::RankOfY { rank_x } => {
                let rank_y = rank(memory.read(self.y));
                self.order(rank_x, rank_y)
            }
            Stage::Link { rank_x, rank_y } => self.link(rank_x, rank_y, memory),
            Stage::Raise { rank } => {
                self.raise(rank, memory);
                self.tidy()
            }
            Stage::RankOfLinked => {
                let rank = rank(memory.read(self.x));
                self.go_on(Stage::RaiseLast { rank })
            }
            Stage::RaiseLast { rank } => {
                self.raise(rank, memory);
                Progress::new(0, answer::JOINED)
            }
        }
    }

    fn read_node<W: FnMut(Access)>(&mut self, side: Side, memory: &mut Memory<W>) -> Progress {
        let node = *self.node(side);
        let own = memory.read(node);
        if parent(own) == node {
            self.found(side, memory.now)
        } else {
            self.go_on(Stage::ReadParent { side, own })
        }
    }

    /// After the grant that ended a find at a root.
    fn found(&mut self, side: Side, now: u32) -> Progress {
        let met = self.x == self.y;
        match (side, self.kind) {
            (Side::X, _) => self.go_on(Stage::ReadNode(Side::Y)),
            (Side::Linked, _) => self.go_on(Stage::RankOfLinked),
            (Side::Y, Kind::Union) if met => Progress::new(now, answer::TOGETHER),
            (Side::Y, Kind::Union) => self.go_on(Stage::RankOfX),
            (Side::Y, Kind::SameSet) if met => Progress::new(now, answer::YES),
            (Side::Y, Kind::SameSet) => {
                self.point = now;
                self.go_on(Stage::RereadX)
            }
        }
    }

    fn reread<W: FnMut(Access)>(&mut self, memory: &mut Memory<W>) -> Progress {
        if parent(memory.read(self.x)) == self.x {
            Progress::new(self.point, answer::NO)
        } else {
            self.try_again()
        }
    }

    /// Both ranks are read: x is to come before y.
    fn order(&mut self, rank_x: u32, rank_y: u32) -> Progress {
        if before(rank_y, self.y, rank_x, self.x) {
            std::mem::swap(&mut self.x, &mut self.y);
            let (rank_x, rank_y) = (rank_y, rank_x);
            self.go_on(Stage::Link { rank_x, rank_y })
        } else {
            self.go_on(Stage::Link { rank_x, rank_y })
        }
    }

    fn link<W: FnMut(Access)>(
        &mut self,
        rank_x: u32,
        rank_y: u32,
        memory: &mut Memory<W>,
    ) -> Progress {
        if !memory.swap(self.x, word(rank_x, self.x), word(rank_x, self.y)) {
            return self.try_again();
        }
        memory.links += 1;
        if rank_x == rank_y {
            self.go_on(Stage::Raise { rank: rank_y });
        } else {
            self.tidy();
        }
        Progress::new(memory.now, answer::UNFINISHED)
    }

    /// One more rank for y, if it is still a root of this one; tried once, whatever comes of it.
    fn raise<W: FnMut(Access)>(&self, rank: u32, memory: &mut Memory<W>) {
        memory.swap(self.y, word(rank, self.y), word(rank + 1, self.y));
    }

    /// After the link and its rank swap; the y linked to is of no more use.
    fn tidy(&mut self) -> Progress {
        self.y = self.x;
        self.go_on(Stage::ReadNode(Side::Linked))
    }

    fn try_again(&mut self) -> Progress {
        self.go_on(Stage::ReadNode(Side::X))
    }

    fn go_on(&mut self, stage: Stage) -> Progress {
        self.stage = stage;
        Progress::NOTHING
    }

    fn node(&mut self, side: Side) -> &mut u32 {
        match side {
            Side::X => &mut self.x,
            Side::Y | Side::Linked => &mut self.y,
        }
    }
}
