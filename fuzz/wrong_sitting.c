/* The faults of fuzz/wrong.h in the sitting. */
#include <string.h>

#include "wrong.h"

void set_total(uint8_t *sitting, uint64_t total)
{
    struct sitting s = sitting_at(total);
    memcpy(sitting, s.byte, GPC_SITTING_BYTES);
}

static void turn_bytes(uint8_t *sitting)
{
    for (int k = 0; k < GPC_SITTING_BYTES / 2; k++) {
        uint8_t low = sitting[k];
        sitting[k] = sitting[GPC_SITTING_BYTES - 1 - k];
        sitting[GPC_SITTING_BYTES - 1 - k] = low;
    }
}

static void refuse_by_34(uint8_t *report)
{
    memset(report, 0, GPC_REPORT_BYTES);
    report[0] = GPC_SITTING_OVERRUN;
}

/* The page call as if the sitting were a fresh one; the count. */
static unsigned fill_fresh(const struct lent *l, uint8_t *report)
{
    uint8_t sitting[GPC_SITTING_BYTES] = {0};
    struct lent fresh = *l;
    fresh.sitting = sitting;
    fresh.sitting_bytes = sizeof sitting;
    fresh.report = report;
    fresh.report_bytes = GPC_REPORT_BYTES;
    fill_right(&fresh);
    return report[16] + 256u * report[17];
}

/* As many records as the total takes. */
static void cut_page(const struct lent *l)
{
    struct lent cut = *l;
    while (l->report[0] == GPC_SITTING_OVERRUN && cut.page_words-- > 0)
        fill_right(&cut);
    if (l->report[0] == GPC_PAGE_TOO_SHORT)
        refuse_by_34(l->report);
}

/* The faults on a call that 34 refused. */
static void spoil_overrun(const struct lent *l, uint64_t total)
{
    uint8_t report[GPC_REPORT_BYTES];
    if (WRONG == OVERRUN_WRAPPED)
        set_total(l->sitting, total + fill_fresh(l, l->report));
    if (WRONG == PAGE_WRITTEN_ON_34)
        fill_fresh(l, report);
    if (WRONG == WORK_LEFT_ON_34)
        l->work[GPC_WORK_WORDS - 1] = 1;
    if (WRONG == PAGE_CUT_TO_TOTAL)
        cut_page(l);
}

/* The faults on any other call that was answered. */
static void spoil_total(const struct lent *l, uint64_t total)
{
    if (WRONG == TOTAL_RAISED_ON_REFUSAL && l->report[0] != 0)
        set_total(l->sitting, total + 1);
    if (WRONG == CARRY_TO_FOURTH_BYTE_LOST)
        l->sitting[3] = (uint8_t)(total >> 24);
    if (WRONG == OVERRUN_BEFORE_23 && l->report[0] == GPC_PAGE_TOO_SHORT && total == UINT32_MAX)
        refuse_by_34(l->report);
}

/* A sitting under 4 bytes, for a fresh one. */
static uint64_t fill_short(const struct lent *l)
{
    if (WRONG != SHORT_SITTING_TAKEN || l->report_bytes < GPC_REPORT_BYTES)
        return fill_right(l);
    fill_fresh(l, l->report);
    return 1;
}

uint64_t fill_counted(const struct lent *l)
{
    if (l->sitting_bytes < GPC_SITTING_BYTES)
        return fill_short(l);
    uint64_t total = total_of(l->sitting);
    int early = WRONG == OVERRUN_ONE_LINE_EARLY && total < UINT32_MAX;
    if (early)
        set_total(l->sitting, total + 1);
    if (WRONG == TOTAL_HIGH_BYTE_FIRST)
        turn_bytes(l->sitting);
    uint64_t result = fill_right(l);
    if (WRONG == TOTAL_HIGH_BYTE_FIRST)
        turn_bytes(l->sitting);
    if (early)
        set_total(l->sitting, total_of(l->sitting) - 1);
    if (result == 1 && l->report[0] == GPC_SITTING_OVERRUN)
        spoil_overrun(l, total);
    else if (result == 1)
        spoil_total(l, total);
    return result;
}
