/* Libraries that are wrong on purpose: the proved functions, each with one fault on top, which the fuzz target must find. WRONG is the
 * fault's number, from 1; fuzz/caught tries them all. */
#ifndef WRONG_H
#define WRONG_H

#include "fuzz.h"

enum {
    ONE_WORD_TOO_MANY_CLEARED = 1,
    WORK_CLEARED_ON_22,
    COUNT_INVENTED,
    NEED_INVENTED,
    EVERY_PAGE_DONE,
    NO_PAGE_DONE,
    BOOKMARK_IGNORED,
    FULL_PAGE_REFUSED,
    SHORTEST_AS_ANY,
    OTHER_ON_EVERY_SECOND_CALL,
    NO_TO_ALL,
    YES_TO_ALL,
    IMAGE_WRITTEN,
    SHORT_REPORT_TAKEN,
    ONE_TYPE_TOO_MANY,
    CLASH_PASSED,
    PARTS_SWAPPED,
    SECOND_OF_LAST_DROPPED,
    ABSENT_AS_FALSE,
    AND_AS_OR,
    TOTAL_RAISED_ON_REFUSAL,
    TOTAL_HIGH_BYTE_FIRST,
    CARRY_TO_FOURTH_BYTE_LOST,
    OVERRUN_WRAPPED,
    OVERRUN_BEFORE_23,
    OVERRUN_ONE_LINE_EARLY,
    PAGE_WRITTEN_ON_34,
    WORK_LEFT_ON_34,
    PAGE_CUT_TO_TOTAL,
    SHORT_SITTING_TAKEN
};

/* What a page call is lent. */
struct lent {
    const uint8_t *image;
    size_t image_bytes;
    const uint16_t *query;
    size_t query_words;
    const uint16_t *bookmark;
    size_t bookmark_words;
    uint8_t *sitting;
    size_t sitting_bytes;
    uint16_t *page;
    size_t page_words;
    uint16_t *work;
    size_t work_words;
    uint8_t *report;
    size_t report_bytes;
};

/* The proved page call, and the same with the sitting's faults. */
uint64_t fill_right(const struct lent *l);
uint64_t fill_counted(const struct lent *l);

void set_total(uint8_t *sitting, uint64_t total);

#endif
