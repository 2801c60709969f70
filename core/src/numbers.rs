//! The numbers of the calls: limits, kinds, answers and refusals, as in include/grouping.h.

use core::fmt;

/// Bytes of the longest job file.
pub const MOST_FILE: usize = 32_768;
/// Places of the largest job.
pub const MOST_PLACES: u32 = 4_096;
/// Heads of the largest job.
pub const MOST_HEADS: u32 = 32;
/// Requests of the largest job.
pub const MOST_REQUESTS: u32 = 512;
/// Grants of the longest job: 8,189 runs of 255 fill a file.
pub const MOST_GRANTS: u32 = 2_088_195;
/// Grants that an enquiry may make.
pub const MOST_ALLOWANCE: u16 = u16::MAX;

/// Numbers of a table for every job: one a place.
pub const MOST_TABLE: usize = 4_096;
/// Numbers of a report for every job: four a request.
pub const MOST_REPORT: usize = 2_048;
/// Numbers of a line-up for every job: two a request.
pub const MOST_LINEUP: usize = 1_024;
/// Bytes enough for the text of every played job; no text is that long.
pub const MOST_LISTING: usize = 327_808;
/// Bytes enough for every sheet: 38 for a request's line and 17 for its entry's.
pub const MOST_SHEET: usize = 28_160;
/// Rows of a page for every table: one a place, each place alone in its group.
pub const MOST_ROWS: usize = 4_096;
/// Bytes of the longest page: lines of 33 bytes, 4,096 for the rows and 205 headings.
pub const MOST_PAGE: usize = 141_933;

/// The kind of a request that joins the groups of two places.
pub const UNION: u32 = 1;
/// The kind of a request that asks whether two places are in one group.
pub const SAME_SET: u32 = 2;

/// The rights of a head that may ask for unions alone.
pub const MAY_JOIN: u32 = 1;
/// The rights of a head that may ask for same-sets alone.
pub const MAY_ENQUIRE: u32 = 2;
/// The rights of a head that may ask for both.
pub const MAY_BOTH: u32 = 3;

/// The stack that each call needs at most below its caller's frame, in bytes, the C library's memcpy,
/// memmove and memset included. (A program that finds these only when they are first called needs about
/// 4 KB more for the loader then; Rust programs find them when they start.)
pub mod stack {
    /// [`play`](crate::play)
    pub const PLAY: usize = 3_072;
    /// [`play_lent`](crate::play_lent)
    pub const PLAY_LENT: usize = 2_048;
    /// [`write`](crate::write)
    pub const WRITE: usize = 512;
    /// [`query`](crate::query)
    pub const QUERY: usize = 17_408;
    /// [`list`](crate::list)
    pub const LIST: usize = 1_536;
    /// [`sheet`](crate::sheet)
    pub const SHEET: usize = 36_864;
    /// [`page`](crate::page)
    pub const PAGE: usize = 245_760;
    /// [`limits`](crate::limits)
    pub const LIMITS: usize = 128;
}

/// What a request was told: the first of its four numbers in the report.
///
/// ```
/// use grouping_core::Answer;
///
/// assert_eq!(Answer::of(2), Some(Answer::AlreadyTogether));
/// assert_eq!(Answer::of(5), None);
/// assert_eq!(Answer::No.to_string(), "no");
/// ```
#[derive(Clone, Copy, Debug, PartialEq, Eq, Hash)]
#[repr(u32)]
pub enum Answer {
    /// The request has not had its last grant; of an enquiry: the allowance was spent.
    Unfinished = 0,
    /// A union that made one group of two.
    Joined = 1,
    /// A union of two places that were in one group.
    AlreadyTogether = 2,
    /// A same-set: one group.
    Yes = 3,
    /// A same-set: two groups.
    No = 4,
}

impl Answer {
    /// All of them, by their numbers.
    pub const ALL: [Answer; 5] =
        [Answer::Unfinished, Answer::Joined, Answer::AlreadyTogether, Answer::Yes, Answer::No];

    /// The answer that a number stands for.
    #[must_use]
    pub fn of(number: u32) -> Option<Answer> {
        Answer::ALL.into_iter().find(|&answer| answer as u32 == number)
    }
}

impl fmt::Display for Answer {
    fn fmt(&self, f: &mut fmt::Formatter<'_>) -> fmt::Result {
        f.write_str(match self {
            Answer::Unfinished => "unfinished",
            Answer::Joined => "joined",
            Answer::AlreadyTogether => "already together",
            Answer::Yes => "yes",
            Answer::No => "no",
        })
    }
}

/// Why a call was turned down: the number of its result.
///
/// ```
/// use grouping_core::Refusal;
///
/// assert_eq!(Refusal::of(0), None);
/// assert_eq!(Refusal::of(13), Some(Refusal::Balance));
/// assert_eq!(Refusal::Balance as u32, 13);
/// assert_eq!(Refusal::Balance.to_string(), "refused 13: the file's words don't add up to zero");
/// ```
#[derive(Clone, Copy, Debug, PartialEq, Eq, Hash)]
#[repr(u32)]
pub enum Refusal {
    /// The file is over 32,768 bytes.
    FileTooLong = 1,
    /// The file ends before a record is whole or before the close.
    FileEndsEarly = 2,
    /// A mark is not allowed at its position.
    Mark = 3,
    /// The places are 0 or above 4,096.
    Places = 4,
    /// The heads are 0 or above 32.
    Heads = 5,
    /// A request's head is not below the heads.
    RequestHead = 6,
    /// A request's kind is neither 1 nor 2.
    RequestKind = 7,
    /// A request's place is not below the places.
    RequestPlace = 8,
    /// There is a 513th request.
    TooManyRequests = 9,
    /// A grant's head is not below the heads, or a run is 0; or a sheet's head is not below the heads.
    Grant = 10,
    /// A run's head is that of the run before, which is under 255.
    SplitRun = 11,
    /// There are bytes after the close.
    AfterClose = 12,
    /// The file's words don't add up to zero.
    Balance = 13,
    /// A lent buffer is too short.
    Buffer = 14,
    /// The table of an enquiry or a page is empty or over 4,096, or an enquiry's place is not below
    /// its length.
    Enquiry = 15,
    /// A word of the table of an enquiry or a page has a parent not below the length, a rank above
    /// 12, or a parent that comes before its place.
    Word = 16,
    /// The row list is shorter than the groups, or the page buffer than the page.
    Page = 17,
    /// A pair of requests, of which the later one waits: one of them doesn't exist, the earlier
    /// number isn't below the later, or the pairs don't rise strictly.
    Wait = 18,
    /// The rights are not one a head, or none; their heads don't count up from 0, they aren't 1 to 3,
    /// or they give sight of a head that doesn't exist.
    Rights = 19,
    /// A request's kind is not among its head's rights.
    RequestRights = 20,
}

impl Refusal {
    /// All of them, by their numbers.
    pub const ALL: [Refusal; 20] = [
        Refusal::FileTooLong,
        Refusal::FileEndsEarly,
        Refusal::Mark,
        Refusal::Places,
        Refusal::Heads,
        Refusal::RequestHead,
        Refusal::RequestKind,
        Refusal::RequestPlace,
        Refusal::TooManyRequests,
        Refusal::Grant,
        Refusal::SplitRun,
        Refusal::AfterClose,
        Refusal::Balance,
        Refusal::Buffer,
        Refusal::Enquiry,
        Refusal::Word,
        Refusal::Page,
        Refusal::Wait,
        Refusal::Rights,
        Refusal::RequestRights,
    ];

    /// The refusal that a number stands for; 0 is none.
    #[must_use]
    pub fn of(number: u32) -> Option<Refusal> {
        Refusal::ALL.into_iter().find(|&refusal| refusal as u32 == number)
    }

    fn words(self) -> &'static str {
        match self {
            Refusal::FileTooLong => "the file is over 32,768 bytes",
            Refusal::FileEndsEarly => "the file ends before a record is whole or before the close",
            Refusal::Mark => "a mark is not allowed at its position",
            Refusal::Places => "the places are 0 or above 4,096",
            Refusal::Heads => "the heads are 0 or above 32",
            Refusal::RequestHead => "a request's head is not below the heads",
            Refusal::RequestKind => "a request's kind is neither 1 nor 2",
            Refusal::RequestPlace => "a request's place is not below the places",
            Refusal::TooManyRequests => "there is a 513th request",
            Refusal::Grant => "a grant's or a sheet's head is not below the heads, or a run is 0",
            Refusal::SplitRun => "a run's head is that of the run before, which is under 255",
            Refusal::AfterClose => "there are bytes after the close",
            Refusal::Balance => "the file's words don't add up to zero",
            Refusal::Buffer => "a lent buffer is too short",
            Refusal::Enquiry => {
                "the table is empty or over 4,096, or an enquiry's place is not below its length"
            }
            Refusal::Word => {
                "a word has a parent not below the length, a rank above 12, or a parent that comes before its place"
            }
            Refusal::Page => {
                "the row list is shorter than the groups, or the page buffer than the page"
            }
            Refusal::Wait => {
                "of a pair of requests one doesn't exist, the earlier number isn't below the later, or the pairs don't rise strictly"
            }
            Refusal::Rights => {
                "rights are neither one a head nor none, don't count up from head 0, aren't 1 to 3, or show a head that doesn't exist"
            }
            Refusal::RequestRights => "a request's kind is not among its head's rights",
        }
    }
}

impl fmt::Display for Refusal {
    fn fmt(&self, f: &mut fmt::Formatter<'_>) -> fmt::Result {
        write!(f, "refused {}: {}", *self as u32, self.words())
    }
}

impl std::error::Error for Refusal {}
