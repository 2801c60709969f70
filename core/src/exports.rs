//! The functions of include/grouping.h, in its order.

use crate::{Limits, Listed, Paged, Played, Queried, Row, Tally, Written};

extern "C" {
    pub fn grouping_play(
        file: *const u8,
        file_length: usize,
        table: *mut u32,
        table_length: usize,
        report: *mut u32,
        report_length: usize,
        lineup: *mut u32,
        lineup_length: usize,
    ) -> Played;

    pub fn grouping_play_lent(
        file: *const u8,
        file_length: usize,
        table: *mut u32,
        table_length: usize,
        report: *mut u32,
        report_length: usize,
        lineup: *mut u32,
        lineup_length: usize,
        tally: *mut Tally,
    ) -> Played;

    pub fn grouping_write(
        places: u32,
        heads: u32,
        rights: *const u32,
        rights_length: usize,
        requests: *const u32,
        requests_length: usize,
        waits: *const u32,
        waits_length: usize,
        grants: *const u8,
        grants_length: usize,
        out: *mut u8,
        out_length: usize,
    ) -> Written;

    pub fn grouping_query(
        table: *mut u32,
        table_length: usize,
        x: u32,
        y: u32,
        allowance: u16,
    ) -> Queried;

    pub fn grouping_list(
        played: Played,
        table: *const u32,
        table_length: usize,
        report: *const u32,
        report_length: usize,
        lineup: *const u32,
        lineup_length: usize,
        out: *mut u8,
        out_length: usize,
    ) -> Listed;

    pub fn grouping_sheet(
        file: *const u8,
        file_length: usize,
        head: u32,
        out: *mut u8,
        out_length: usize,
    ) -> Listed;

    pub fn grouping_page(
        table: *const u32,
        table_length: usize,
        rows: *mut Row,
        rows_length: usize,
        page: *mut u8,
        page_length: usize,
    ) -> Paged;

    pub fn grouping_limits(places: u32) -> Limits;
}
