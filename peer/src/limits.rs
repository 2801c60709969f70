//! How long a head can be kept: the most grants of its own that a request takes, from document 02.

use crate::job::{Kind, MAX_NODES};
use crate::numbers::refusal;

/// The most grants of a same-set and of a union; a refused call has zeros.
#[derive(Clone, Copy, Debug, Default, PartialEq, Eq)]
pub struct Limits {
    pub number: u32,
    pub same_set: u32,
    pub union: u32,
}

pub fn limits(nodes: u32) -> Limits {
    if nodes == 0 || nodes > MAX_NODES {
        return Limits { number: refusal::NODES, ..Limits::default() };
    }
    let [same_set, union] = [Kind::SameSet, Kind::Union].map(|kind| of(kind, nodes));
    Limits { number: refusal::NONE, same_set, union }
}

/// The limit of a request of this kind, in a job that has so many nodes.
pub fn of(kind: Kind, nodes: u32) -> u32 {
    match kind {
        Kind::SameSet => 11 * nodes,
        Kind::Union => 22 * nodes + 10 * halvings(nodes),
    }
}

/// The whole part of the base-2 logarithm: how often a number can be halved, rests dropped, before
/// it is 1.
fn halvings(number: u32) -> u32 {
    let mut halves = std::iter::successors(Some(number), |half| Some(half / 2));
    halves.position(|half| half <= 1).map_or(0, |count| count as u32)
}
