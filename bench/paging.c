/* A listing as the programs of the bench read it: what is lent to gpc_fill_page, and the bookmark after a page. */
#include "paging.h"

#include <string.h>

double seconds_by(clockid_t clock)
{
    struct timespec t;
    clock_gettime(clock, &t);
    return (double)t.tv_sec + 1e-9 * (double)t.tv_nsec;
}

void check_query(struct listing *l)
{
    gpc_check_query(l->query.at, l->query.count, l->types, GPC_TYPE_WORDS, l->report, sizeof l->report);
    stop_if_refused(l->report);
}

void fill_page(struct listing *l)
{
    gpc_fill_page(l->image.at, l->image.count, l->query.at, l->query.count, l->bookmark.at, l->bookmark.count, l->sitting,
                  sizeof l->sitting, l->page.at, l->page.count, l->work, GPC_WORK_WORDS, l->report, sizeof l->report);
}

void keep_bookmark(struct listing *l)
{
    const uint16_t *record = l->page.at;
    size_t words = 0;
    for (uint64_t i = reported(l->report, GPC_REPORT_RECORDS); i > 0; i--) {
        record += words;
        words = record_words(l->types, l->query.at[0], record);
    }
    resize(&l->bookmark, words);
    memcpy(l->bookmark.at, record, words * sizeof *record);
}
