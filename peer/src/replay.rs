//! The plain book: sets of nodes, and the answers it gives to requests handed to it in order.

use crate::job::{Kind, Request};
use crate::numbers::answer;

/// Every node with its set's lowest node, by which sets are told apart.
#[derive(Clone, Debug, PartialEq, Eq)]
pub struct Book {
    set: Vec<u32>,
}

impl Book {
    /// Each node alone.
    pub fn new(nodes: u32) -> Book {
        Book { set: (0..nodes).collect() }
    }

    pub fn set_of(&self, node: u32) -> u32 {
        self.set[node as usize]
    }

    /// Of the request only its kind and two nodes are looked at.
    pub fn take(&mut self, request: &Request) -> u32 {
        let (a, b) = (self.set_of(request.x), self.set_of(request.y));
        match request.kind {
            Kind::Union if a == b => answer::TOGETHER,
            Kind::Union => {
                self.merge(a.min(b), a.max(b));
                answer::JOINED
            }
            Kind::SameSet if a == b => answer::YES,
            Kind::SameSet => answer::NO,
        }
    }

    fn merge(&mut self, low: u32, high: u32) {
        for set in self.set.iter_mut().filter(|set| **set == high) {
            *set = low;
        }
    }
}
