//! The numbers that documents 01 and 02 give to answers and to refusals.

/// The first of a request's four report numbers.
pub mod answer {
    pub const UNFINISHED: u32 = 0;
    pub const JOINED: u32 = 1;
    pub const TOGETHER: u32 = 2;
    pub const YES: u32 = 3;
    pub const NO: u32 = 4;
}

/// What a call is turned down with; 0 is for a call that is not.
pub mod refusal {
    pub const NONE: u32 = 0;
    pub const FILE_TOO_LONG: u32 = 1;
    pub const FILE_ENDS_EARLY: u32 = 2;
    pub const WRONG_MARK: u32 = 3;
    pub const NODES: u32 = 4;
    pub const HEADS: u32 = 5;
    pub const REQUEST_HEAD: u32 = 6;
    pub const REQUEST_KIND: u32 = 7;
    pub const REQUEST_NODE: u32 = 8;
    pub const TOO_MANY_REQUESTS: u32 = 9;
    /// Of a grant's head, and of a sheet's.
    pub const GRANT: u32 = 10;
    pub const SPLIT_RUN: u32 = 11;
    pub const AFTER_CLOSE: u32 = 12;
    pub const BALANCE: u32 = 13;
    pub const BUFFER_TOO_SHORT: u32 = 14;
    pub const QUERY_RANGE: u32 = 15;
    pub const QUERY_WORD: u32 = 16;
    pub const PAGE_TOO_SHORT: u32 = 17;
    pub const WAIT: u32 = 18;
    pub const RIGHTS: u32 = 19;
    pub const REQUEST_RIGHTS: u32 = 20;
}
