/* Every call of the core once: writes the job that docs/JOBFILE.md shows byte by byte, plays it, plays it again on a
 * lent tally, prints the listing and the page of its groups, and makes an enquiry on the table that it leaves. Then a
 * job in which a request waits for another one, one whose heads have rights, with a sheet for each, and how long
 * requests on as many places can take. A wrong result ends it with the number of its check. */
#include "grouping.h"

#include <stdio.h>
#include <string.h>

/* head, kind, place x, place y */
static const uint32_t requests[] = {
    0, GROUPING_UNION, 2, 3,
    1, GROUPING_SAME_SET, 0, 1,
};
/* one head number a grant */
static const uint8_t grants[] = {1, 1, 0, 0, 0, 0, 0, 0, 1};
/* the later request, then the earlier one that it waits for; the first job has no pair */
static const uint32_t waits[] = {1, 0};
/* head, what it may ask, the heads that it may see, a bit each; the first two jobs have no rights */
static const uint32_t rights[] = {
    0, GROUPING_MAY_JOIN, 1,
    1, GROUPING_MAY_ENQUIRE, 3,
};
/* head 0 has thirteen of them, and its union ends */
static const uint8_t more_grants[] = {1, 1, 0, 0, 0, 0, 0, 0, 0, 0, 0, 0, 0, 0, 0, 1};

static const uint8_t job[] = {
    0x44, 0x4B, 0x04, 0x00, 0x02, 0x00,
    0x52, 0x51, 0x00, 0x01, 0x02, 0x00, 0x03, 0x00,
    0x52, 0x51, 0x01, 0x02, 0x00, 0x00, 0x01, 0x00,
    0x47, 0x52, 0x01, 0x02,
    0x47, 0x52, 0x00, 0x06,
    0x47, 0x52, 0x01, 0x01,
    0x43, 0x4C, 0xF1, 0xC2,
};

static uint8_t file[GROUPING_MOST_FILE];
static uint32_t table[GROUPING_MOST_TABLE];
static uint32_t report[GROUPING_MOST_REPORT];
static uint32_t lineup[GROUPING_MOST_LINEUP];
static uint8_t text[GROUPING_MOST_LISTING];
static struct grouping_row rows[GROUPING_MOST_ROWS];
static uint8_t page[GROUPING_MOST_PAGE];
static uint8_t sheet[GROUPING_MOST_SHEET];

enum {
    RIGHTS = sizeof rights / sizeof rights[0],
    REQUESTS = sizeof requests / sizeof requests[0],
    WAITS = sizeof waits / sizeof waits[0]
};

/* The job of docs/JOBFILE.md: its bytes, what it leaves, its listing. */
static int first_job(void) {
    struct grouping_written written = grouping_write(
        4, 2, rights, 0, requests, REQUESTS, waits, 0, grants, sizeof grants, file, sizeof file);
    if (written.number != GROUPING_ACCEPTED || written.bytes != sizeof job || memcmp(file, job, sizeof job) != 0) {
        return 1;
    }

    struct grouping_played played = grouping_play(
        file, written.bytes, table, GROUPING_MOST_TABLE, report, GROUPING_MOST_REPORT, lineup, GROUPING_MOST_LINEUP);
    /* Six grants are enough for the union's link, which stands in the line-up at 7, and too few for the union. */
    if (played.number != GROUPING_ACCEPTED || report[0] != GROUPING_UNFINISHED || report[4] != GROUPING_NO ||
        lineup[2] != 7 || lineup[3] != 0 || played.tally.working != 1) {
        return 2;
    }

    struct grouping_tally tally = {9, 9, 9, 9};
    struct grouping_played again = grouping_play_lent(
        file, written.bytes, table, 4, report, 8, lineup, 4, &tally);
    if (memcmp(&again, &played, sizeof played) != 0 || memcmp(&tally, &played.tally, sizeof tally) != 0) {
        return 3;
    }

    struct grouping_listed listed = grouping_list(
        again, table, GROUPING_MOST_TABLE, report, GROUPING_MOST_REPORT, lineup, GROUPING_MOST_LINEUP,
        text, sizeof text);
    return listed.number == GROUPING_ACCEPTED && fwrite(text, 1, listed.bytes, stdout) == listed.bytes ? 0 : 4;
}

/* The groups of the table that it leaves. The table's length is its number of places. */
static int groups(void) {
    /* Three groups: the places 0 and 1 alone, and 2 with 3, its root. */
    struct grouping_paged paged = grouping_page(table, 4, rows, GROUPING_MOST_ROWS, page, sizeof page);
    if (paged.number != GROUPING_ACCEPTED || paged.rows != 3 || rows[2].lowest != 2 || rows[2].size != 2 ||
        rows[2].root != 3 || rows[2].rank != 1 || fwrite(page, 1, paged.bytes, stdout) != paged.bytes) {
        return 5;
    }

    /* Place 2's parent is 3: six grants tell so, and five are too few. */
    struct grouping_queried spent = grouping_query(table, 4, 2, 3, 5);
    struct grouping_queried yes = grouping_query(table, 4, 2, 3, 6);
    if (spent.answer != GROUPING_SPENT || spent.used != 5 || yes.answer != GROUPING_YES || yes.used != 6) {
        return 6;
    }
    struct grouping_queried refused = grouping_query(table, 4, 2, 4, 6);
    return refused.number == GROUPING_REFUSED_ENQUIRY ? 0 : 7;
}

/* The same-set waits until the union is finished: head 1's first two grants are idle, and so is its third. */
static int waiting_job(void) {
    struct grouping_written paired = grouping_write(
        4, 2, rights, 0, requests, REQUESTS, waits, WAITS, grants, sizeof grants, file, sizeof file);
    struct grouping_played waited = grouping_play(
        file, paired.bytes, table, GROUPING_MOST_TABLE, report, GROUPING_MOST_REPORT, lineup, GROUPING_MOST_LINEUP);
    return waited.number == GROUPING_ACCEPTED && report[4] == GROUPING_UNFINISHED && report[5] == 0 &&
                   waited.tally.idle == 3 && waited.tally.working == 2
               ? 0
               : 8;
}

/* Head 0 sees its own union alone, head 1 both requests; there is no head 2. */
static int sheets(void) {
    struct grouping_written entitled = grouping_write(
        4, 2, rights, RIGHTS, requests, REQUESTS, waits, 0, more_grants, sizeof more_grants, file, sizeof file);
    for (uint32_t head = 0; head < 2; head++) {
        struct grouping_listed listed = grouping_sheet(file, entitled.bytes, head, sheet, sizeof sheet);
        printf("sheet of head %u\n", (unsigned)head);
        if (listed.number != GROUPING_ACCEPTED || fwrite(sheet, 1, listed.bytes, stdout) != listed.bytes) {
            return 9;
        }
    }
    struct grouping_listed nobody = grouping_sheet(file, entitled.bytes, 2, sheet, sizeof sheet);
    struct grouping_listed short_of_one = grouping_sheet(file, entitled.bytes, 0, sheet, 28);
    return nobody.number == GROUPING_REFUSED_GRANT && short_of_one.number == GROUPING_REFUSED_BUFFER ? 0 : 10;
}

/* How many of its own grants a request takes at most where there are four places, as in these jobs. */
static int limits(void) {
    struct grouping_limits told = grouping_limits(4);
    printf("limits 4 %u %u\n", (unsigned)told.same_set_grants, (unsigned)told.union_grants);
    struct grouping_limits refused = grouping_limits(GROUPING_MOST_PLACES + 1);
    return told.number == GROUPING_ACCEPTED && refused.number == GROUPING_REFUSED_PLACES ? 0 : 11;
}

int main(void) {
    int (*const parts[])(void) = {first_job, groups, waiting_job, sheets, limits};
    for (size_t part = 0; part < sizeof parts / sizeof parts[0]; part++) {
        int wrong = parts[part]();
        if (wrong != 0) {
            return wrong;
        }
    }
    return 0;
}
