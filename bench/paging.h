/* A listing as the programs of the bench read it: what is lent to gpc_fill_page, and the bookmark after a page. */
#ifndef PAGING_H
#define PAGING_H

#include <time.h>

#include "record.h"

struct listing {
    struct bytes image;
    struct words query;
    uint16_t types[GPC_TYPE_WORDS];
    struct words page;
    struct words bookmark;
    uint8_t sitting[GPC_SITTING_BYTES];
    uint8_t report[GPC_REPORT_BYTES];
    uint16_t work[GPC_WORK_WORDS];
};

/* What a clock shows, in seconds. */
double seconds_by(clockid_t clock);

/* The types of the query; a refusal ends the program. */
void check_query(struct listing *l);

/* One page after the bookmark. */
void fill_page(struct listing *l);

/* The last record of the page becomes the bookmark; found by the types. */
void keep_bookmark(struct listing *l);

#endif
