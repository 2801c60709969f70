/* The grouping core for C and C++: play a job file, write one, make a counter enquiry, print a played job or the sheet
 * of one of its heads, put a table's groups on a page, tell how long a head can be kept.
 *
 * Words. Heads take turns on one table of places, one grant at a time, and work through requests: a union joins the
 * groups of two places, a same-set asks whether two places are in one group. A request may wait for an earlier one:
 * until that is finished, its head takes its grants as idle. A job may say what each head may ask and whose requests it
 * may see; its sheet has those. A place is a node of the paper's forest, a group a set, the line-up the run's
 * linearization, an enquiry's allowance its budget of grants; a call that is turned down is refused. docs/GLOSSARY.md
 * has all of them, docs/JOBFILE.md the job file byte by byte.
 *
 * Buffers. A buffer is a pointer and its length in elements. Every pointer is valid for that many elements, not null
 * and aligned, and a buffer that is written overlaps no other. Any bytes, numbers and lengths are admitted: what cannot
 * be served is refused by number, with zero for every count and nothing written. Numbers and bytes past what a call
 * writes stay as they were. Of an accepted call every number is promised; docs/PROMISES.md has the clauses.
 *
 * Threads. The functions keep nothing between calls, allocate nothing and have no global state: calls on separate
 * buffers may run at the same time.
 *
 * Stack. Each call needs at most GROUPING_STACK_.. bytes below the caller's frame, the C library's memcpy, memmove and
 * memset included. A program that finds these only when they are first called (gcc's default; -z now or -static find them
 * at the start) needs about 4 KB more in that first call, for the loader.
 *
 * Link target/libgrouping.a, which tools/library makes for x86-64-v2 (SSE4.2, POPCNT). The header is C11 or C++11, and
 * later. */
#ifndef GROUPING_H
#define GROUPING_H

#include <stddef.h>
#include <stdint.h>

#ifdef __cplusplus
extern "C" {
#endif

/* The most that a job can have. */
enum {
    GROUPING_MOST_FILE = 32768,     /* bytes of a job file */
    GROUPING_MOST_PLACES = 4096,
    GROUPING_MOST_HEADS = 32,
    GROUPING_MOST_REQUESTS = 512,
    GROUPING_MOST_GRANTS = 2088195, /* 8,189 runs of 255 fill a file */
    GROUPING_MOST_ALLOWANCE = 65535
};

/* Enough of each buffer for every job: numbers of the table (one a place), of the report (four a request) and of the
 * line-up (two a request); bytes of the text that grouping_list prints of a played job (no text is that long); bytes of
 * a sheet (38 for a request's line and 17 for its entry's); rows and bytes of a page (each place alone: 4,096 rows and
 * 205 headings of 33 bytes). */
enum {
    GROUPING_MOST_TABLE = 4096,
    GROUPING_MOST_REPORT = 2048,
    GROUPING_MOST_LINEUP = 1024,
    GROUPING_MOST_LISTING = 327808,
    GROUPING_MOST_SHEET = 28160,
    GROUPING_MOST_ROWS = 4096,
    GROUPING_MOST_PAGE = 141933
};

/* What a call is refused with: its result's number. */
enum {
    GROUPING_ACCEPTED = 0,
    /* by the sender of a job file, 1 and 4 to 10 also by the caller of grouping_write */
    GROUPING_REFUSED_FILE_TOO_LONG = 1,     /* over 32,768 bytes */
    GROUPING_REFUSED_FILE_ENDS_EARLY = 2,   /* before a record is whole or before the close */
    GROUPING_REFUSED_MARK = 3,              /* a mark not allowed at that position */
    GROUPING_REFUSED_PLACES = 4,            /* 0 or above 4,096; also by the caller of grouping_limits */
    GROUPING_REFUSED_HEADS = 5,             /* 0 or above 32 */
    GROUPING_REFUSED_REQUEST_HEAD = 6,      /* not below the heads */
    GROUPING_REFUSED_REQUEST_KIND = 7,      /* neither 1 nor 2 */
    GROUPING_REFUSED_REQUEST_PLACE = 8,     /* not below the places */
    GROUPING_REFUSED_TOO_MANY_REQUESTS = 9, /* a 513th */
    GROUPING_REFUSED_GRANT = 10,            /* its head is not below the heads, or a run is 0; by the host program: a
                                             * sheet's head is not below the heads */
    GROUPING_REFUSED_SPLIT_RUN = 11,        /* a run's head is that of the run before, which is under 255 */
    GROUPING_REFUSED_AFTER_CLOSE = 12,      /* bytes after the close */
    GROUPING_REFUSED_BALANCE = 13,          /* the file's words don't add up to zero */
    /* by the host program */
    GROUPING_REFUSED_BUFFER = 14,           /* a lent buffer is too short */
    GROUPING_REFUSED_ENQUIRY = 15,          /* the table is empty or over 4,096, or a place is not below its length */
    GROUPING_REFUSED_WORD = 16,             /* a word that no table has: docs/JOBFILE.md */
    GROUPING_REFUSED_PAGE = 17,             /* a row list shorter than the groups, or a page buffer than the page */
    /* by the sender of a job file, and by the caller of grouping_write */
    GROUPING_REFUSED_WAIT = 18,             /* a pair of requests: one doesn't exist, the earlier number isn't below the
                                             * later, or the pairs don't rise strictly */
    GROUPING_REFUSED_RIGHTS = 19,           /* not one a head, or none; their heads don't count up from 0, they aren't 1
                                             * to 3, or they give sight of a head that doesn't exist */
    GROUPING_REFUSED_REQUEST_RIGHTS = 20    /* a request's kind is not among its head's rights */
};

/* A request's kind, what a head may ask, and a request's answer in the report. An enquiry has the same answers: yes, no
 * or spent. */
enum {
    GROUPING_UNION = 1,
    GROUPING_SAME_SET = 2
};
enum {
    GROUPING_MAY_JOIN = 1,    /* unions alone */
    GROUPING_MAY_ENQUIRE = 2, /* same-sets alone */
    GROUPING_MAY_BOTH = 3
};
enum {
    GROUPING_UNFINISHED = 0,
    GROUPING_JOINED = 1,
    GROUPING_ALREADY_TOGETHER = 2,
    GROUPING_YES = 3,
    GROUPING_NO = 4,
    GROUPING_SPENT = 0 /* an enquiry needs more grants than its allowance */
};

/* The stack that each call needs at most, in bytes. */
enum {
    GROUPING_STACK_PLAY = 3072,
    GROUPING_STACK_PLAY_LENT = 2048,
    GROUPING_STACK_WRITE = 512,
    GROUPING_STACK_QUERY = 17408,
    GROUPING_STACK_LIST = 1536,
    GROUPING_STACK_SHEET = 36864,
    GROUPING_STACK_PAGE = 245760,
    GROUPING_STACK_LIMITS = 128
};

/* The counters of a play: idle grants, failed swaps, links, and the heads with work left, up to 32. */
struct grouping_tally {
    uint32_t idle;
    uint32_t failed;
    uint32_t links;
    uint32_t working;
};

/* number is 0, or the refusal's (1 to 14, 18 to 20). heads are 1 to 32; entries are those of the line-up. */
struct grouping_played {
    uint32_t number;
    uint32_t places;
    uint32_t heads;
    uint32_t requests;
    uint32_t grants;
    uint32_t entries;
    struct grouping_tally tally;
};

/* number is 0 and bytes the file's length, or the refusal's number (1, 4 to 10, 14, 18 to 20) and 0. */
struct grouping_written {
    uint32_t number;
    uint32_t bytes;
};

/* number is 0, or the refusal's (15, 16). answer is yes, no or spent; used are the grants that the enquiry made. */
struct grouping_queried {
    uint32_t number;
    uint32_t answer;
    uint32_t used;
};

/* number is 0 and bytes the text's length, or the refusal's number (14; of a sheet 1 to 14, 18 to 20) and 0. */
struct grouping_listed {
    uint32_t number;
    size_t bytes;
};

/* A group: its lowest place, its number of places, its root and the root's rank. */
struct grouping_row {
    uint32_t lowest;
    uint32_t size;
    uint32_t root;
    uint32_t rank;
};

/* number is 0, rows the rows and bytes the page's length that were written; or the refusal's number (15 to 17) and
 * zeros. */
struct grouping_paged {
    uint32_t number;
    uint32_t rows;
    uint32_t bytes;
};

/* number is 0, and the others are the most grants of its own that a same-set and a union take; or the refusal's number
 * (4) and zeros. */
struct grouping_limits {
    uint32_t number;
    uint32_t same_set_grants;
    uint32_t union_grants;
};

/* Plays a job file. table gets a word a place (rank * 65536 + parent), report four numbers a request (answer, first
 * grant, last grant, grants used), lineup two numbers an entry (point, request). */
struct grouping_played grouping_play(const uint8_t *file, size_t file_length,
                                     uint32_t *table, size_t table_length,
                                     uint32_t *report, size_t report_length,
                                     uint32_t *lineup, size_t lineup_length);

/* Plays a job file as grouping_play does, on a tally that its owner lends: an accepted job sets it to zeros and each
 * grant adds to it; a refusal writes nothing to it. */
struct grouping_played grouping_play_lent(const uint8_t *file, size_t file_length,
                                          uint32_t *table, size_t table_length,
                                          uint32_t *report, size_t report_length,
                                          uint32_t *lineup, size_t lineup_length,
                                          struct grouping_tally *tally);

/* Writes a job file. rights has three numbers a head (head, what it may ask, the heads that it may see, a bit each),
 * the heads counting up from 0, or none, which is every right and sight of every head; a rest of fewer than three is no
 * record. requests has four numbers a request (head, kind, place x, place y), and a rest of fewer than four is no
 * request. waits has two numbers a pair, the later request and the earlier one that it waits for, rising by the pair,
 * and a rest of one is no pair; requests count from 0. grants has one head number a grant. */
struct grouping_written grouping_write(uint32_t places, uint32_t heads,
                                       const uint32_t *rights, size_t rights_length,
                                       const uint32_t *requests, size_t requests_length,
                                       const uint32_t *waits, size_t waits_length,
                                       const uint8_t *grants, size_t grants_length,
                                       uint8_t *out, size_t out_length);

/* Makes a counter enquiry: are the places x and y in one group? The table's length is its number of places, and the
 * allowance, 0 to 65,535, the most grants that it may make. The groups stay; words on the way may change. */
struct grouping_queried grouping_query(uint32_t *table, size_t table_length,
                                       uint32_t x, uint32_t y, uint16_t allowance);

/* Prints a played job, refused or not, as lines of text; no zero byte is added. */
struct grouping_listed grouping_list(struct grouping_played played,
                                     const uint32_t *table, size_t table_length,
                                     const uint32_t *report, size_t report_length,
                                     const uint32_t *lineup, size_t lineup_length,
                                     uint8_t *out, size_t out_length);

/* Plays a job file and writes the sheet of one of its heads: of the requests of the heads that it may see, in file
 * order and numbered from 0 among themselves, the lines that grouping_list has of a request, then of their entries in
 * the line-up; no zero byte is added. Two runs that agree on those requests, their report numbers and their points give
 * the same sheet. A head not below the heads is refused with 10, a buffer shorter than the sheet with 14. */
struct grouping_listed grouping_sheet(const uint8_t *file, size_t file_length, uint32_t head,
                                      uint8_t *out, size_t out_length);

/* Puts the groups of a table on a page. The table's length is its number of places; it is checked as an enquiry's is,
 * and only read. rows gets a row a group, rising by lowest place; the sizes add up to the place count. page gets a line
 * a row, exactly 32 characters and a line feed, each field right-aligned in 8; a heading of "group", "size", "root",
 * "rank" in the same columns stands before rows 1, 21, 41 and so on; no zero byte is added. */
struct grouping_paged grouping_page(const uint32_t *table, size_t table_length,
                                    struct grouping_row *rows, size_t rows_length,
                                    uint8_t *page, size_t page_length);

/* Tells how long a head can be kept, with n places: a same-set ends within 11 * n of its own grants, a union within
 * 22 * n + 10 * L, L being the whole part of the base-2 logarithm of n. They count from the request's first grant, idle
 * grants and waiting not included, and hold of every job of that many places, for every order of the others' grants. */
struct grouping_limits grouping_limits(uint32_t places);

/* The layout that the functions are compiled for. */
#ifdef __cplusplus
#define GROUPING_ASSERT(fact) static_assert(fact, #fact)
#else
#define GROUPING_ASSERT(fact) _Static_assert(fact, #fact)
#endif
#define GROUPING_FIELD(type, field, offset) GROUPING_ASSERT(offsetof(struct type, field) == offset)

GROUPING_ASSERT(sizeof(size_t) == 8);
GROUPING_ASSERT(sizeof(struct grouping_tally) == 16);
GROUPING_FIELD(grouping_tally, idle, 0);
GROUPING_FIELD(grouping_tally, failed, 4);
GROUPING_FIELD(grouping_tally, links, 8);
GROUPING_FIELD(grouping_tally, working, 12);
GROUPING_ASSERT(sizeof(struct grouping_played) == 40);
GROUPING_FIELD(grouping_played, number, 0);
GROUPING_FIELD(grouping_played, places, 4);
GROUPING_FIELD(grouping_played, heads, 8);
GROUPING_FIELD(grouping_played, requests, 12);
GROUPING_FIELD(grouping_played, grants, 16);
GROUPING_FIELD(grouping_played, entries, 20);
GROUPING_FIELD(grouping_played, tally, 24);
GROUPING_ASSERT(sizeof(struct grouping_written) == 8);
GROUPING_FIELD(grouping_written, number, 0);
GROUPING_FIELD(grouping_written, bytes, 4);
GROUPING_ASSERT(sizeof(struct grouping_queried) == 12);
GROUPING_FIELD(grouping_queried, number, 0);
GROUPING_FIELD(grouping_queried, answer, 4);
GROUPING_FIELD(grouping_queried, used, 8);
GROUPING_ASSERT(sizeof(struct grouping_listed) == 16);
GROUPING_FIELD(grouping_listed, number, 0);
GROUPING_FIELD(grouping_listed, bytes, 8);
GROUPING_ASSERT(sizeof(struct grouping_row) == 16);
GROUPING_FIELD(grouping_row, lowest, 0);
GROUPING_FIELD(grouping_row, size, 4);
GROUPING_FIELD(grouping_row, root, 8);
GROUPING_FIELD(grouping_row, rank, 12);
GROUPING_ASSERT(sizeof(struct grouping_paged) == 12);
GROUPING_FIELD(grouping_paged, number, 0);
GROUPING_FIELD(grouping_paged, rows, 4);
GROUPING_FIELD(grouping_paged, bytes, 8);
GROUPING_ASSERT(sizeof(struct grouping_limits) == 12);
GROUPING_FIELD(grouping_limits, number, 0);
GROUPING_FIELD(grouping_limits, same_set_grants, 4);
GROUPING_FIELD(grouping_limits, union_grants, 8);

#undef GROUPING_FIELD
#undef GROUPING_ASSERT

#ifdef __cplusplus
}
#endif

#endif
