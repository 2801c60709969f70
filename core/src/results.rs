//! What the calls give back, laid out as in include/grouping.h.

use core::mem::{offset_of, size_of};

use crate::{Answer, Refusal};

/// The counters of a play: idle grants, failed swaps, links, and the heads with work left.
#[repr(C)]
#[derive(Clone, Copy, Debug, Default, PartialEq, Eq)]
pub struct Tally {
    /// Grants to a head without requests left, or to one whose next request waits.
    pub idle: u32,
    /// Swaps that did not write.
    pub failed: u32,
    /// Unions that have linked.
    pub links: u32,
    /// Heads with an unfinished request, up to 32.
    pub working: u32,
}

/// What a play left: its counts, or a refusal's number (1 to 14, 18 to 20) and zeros.
#[must_use = "a refusal is told only here"]
#[repr(C)]
#[derive(Clone, Copy, Debug, Default, PartialEq, Eq)]
pub struct Played {
    /// 0, or the refusal's.
    pub number: u32,
    /// Places (nodes) of the job: words of the table.
    pub places: u32,
    /// Heads of the job, 1 to 32.
    pub heads: u32,
    /// Requests of the job: rows of four numbers in the report.
    pub requests: u32,
    /// Grants of the job.
    pub grants: u32,
    /// Entries of the line-up (linearization), two numbers each.
    pub entries: u32,
    /// The counters at the end.
    pub tally: Tally,
}

/// The length of a file that was written, or a refusal's number (1, 4 to 10, 14, 18 to 20) and 0.
#[must_use = "a refusal is told only here"]
#[repr(C)]
#[derive(Clone, Copy, Debug, Default, PartialEq, Eq)]
pub struct Written {
    /// 0, or the refusal's.
    pub number: u32,
    /// The file's length.
    pub bytes: u32,
}

/// What an enquiry was told, or a refusal's number (15, 16) and zeros.
#[must_use = "a refusal is told only here"]
#[repr(C)]
#[derive(Clone, Copy, Debug, Default, PartialEq, Eq)]
pub struct Queried {
    /// 0, or the refusal's.
    pub number: u32,
    /// 3 for yes, 4 for no, 0 for an allowance that was spent.
    pub answer: u32,
    /// Grants that it made.
    pub used: u32,
}

/// The length of a text, or a refusal's number (14; of a sheet 1 to 14, 18 to 20) and 0.
#[must_use = "a refusal is told only here"]
#[repr(C)]
#[derive(Clone, Copy, Debug, Default, PartialEq, Eq)]
pub struct Listed {
    /// 0, or the refusal's.
    pub number: u32,
    /// The text's length.
    pub bytes: usize,
}

/// A group of a table: a row of its page.
#[repr(C)]
#[derive(Clone, Copy, Debug, Default, PartialEq, Eq)]
pub struct Row {
    /// The group's lowest place.
    pub lowest: u32,
    /// Places of the group.
    pub size: u32,
    /// The group's root.
    pub root: u32,
    /// The root's rank.
    pub rank: u32,
}

/// The rows and bytes of a page, or a refusal's number (15 to 17) and zeros.
#[must_use = "a refusal is told only here"]
#[repr(C)]
#[derive(Clone, Copy, Debug, Default, PartialEq, Eq)]
pub struct Paged {
    /// 0, or the refusal's.
    pub number: u32,
    /// Rows written: one a group.
    pub rows: u32,
    /// The page's length.
    pub bytes: u32,
}

/// The most grants of its own that a request takes, or a refusal's number (4) and zeros.
#[must_use = "a refusal is told only here"]
#[repr(C)]
#[derive(Clone, Copy, Debug, Default, PartialEq, Eq)]
pub struct Limits {
    /// 0, or the refusal's.
    pub number: u32,
    /// Grants of a same-set.
    pub same_set_grants: u32,
    /// Grants of a union.
    pub union_grants: u32,
}

impl Queried {
    /// Yes or no; none where the allowance was spent or the enquiry was refused.
    #[must_use]
    pub fn answer(self) -> Option<Answer> {
        Answer::of(self.answer).filter(|&answer| answer != Answer::Unfinished)
    }
}

/// The refusal of a result, as an error.
macro_rules! result {
    ($($type:ty)*) => {$(
        impl $type {
            /// The result itself, or its refusal.
            ///
            /// # Errors
            /// The refusal that its number stands for.
            pub fn result(self) -> Result<Self, Refusal> {
                Refusal::of(self.number).map_or(Ok(self), Err)
            }
        }
    )*};
}

result!(Played Written Queried Listed Paged Limits);

/// The layout that the functions are compiled for.
macro_rules! layout {
    ($($type:ident $size:literal: $($field:ident $offset:literal),*;)*) => {
        const _: () = {
            $(assert!(size_of::<$type>() == $size);
            $(assert!(offset_of!($type, $field) == $offset);)*)*
        };
    };
}

layout! {
    Tally 16: idle 0, failed 4, links 8, working 12;
    Played 40: number 0, places 4, heads 8, requests 12, grants 16, entries 20, tally 24;
    Written 8: number 0, bytes 4;
    Queried 12: number 0, answer 4, used 8;
    Listed 16: number 0, bytes 8;
    Row 16: lowest 0, size 4, root 8, rank 12;
    Paged 12: number 0, rows 4, bytes 8;
    Limits 12: number 0, same_set_grants 4, union_grants 8;
}
