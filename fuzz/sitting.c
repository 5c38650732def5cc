/* Sittings to lend, and pages with any total against those with a fresh sitting: a fresh one tells the page's count, and so what the same
 * call must do with every other total. */
#include <string.h>

#include "fuzz.h"

enum { MOST_TURNS = 4 };

struct sitting sitting_at(uint64_t total)
{
    struct sitting s = {.bytes = GPC_SITTING_BYTES};
    for (int k = 0; k < GPC_SITTING_BYTES; k++)
        s.byte[k] = (uint8_t)(total >> 8 * k);
    return s;
}

uint64_t total_of(const uint8_t *sitting)
{
    uint64_t total = 0;
    for (int k = GPC_SITTING_BYTES - 1; k >= 0; k--)
        total = total << 8 | sitting[k];
    return total;
}

/* Near 0, just below a carry into the second, third or fourth byte, near the end of the range, or anywhere. */
static uint64_t make_total(struct bytes *b)
{
    unsigned way = below(b, 4), few = below(b, 8);
    if (way == 0)
        return few;
    if (way == 1)
        return (1ull << 8 * (1 + below(b, 3))) - 1 - few;
    if (way == 2)
        return UINT32_MAX - few;
    return (uint64_t)pick(b) << 24 | pick(b) << 16 | pick(b) << 8 | few;
}

struct sitting make_sitting(struct bytes *b)
{
    struct sitting s = sitting_at(make_total(b));
    if (below(b, 4) != 0)
        return s;
    s.bytes = below(b, MOST_SITTING + 1);
    memset(s.byte + GPC_SITTING_BYTES, (int)pick(b), MOST_SITTING - GPC_SITTING_BYTES);
    return s;
}

/* The greatest total that takes so many lines, one more, the end of the range, or any. */
static uint64_t total_near(struct bytes *b, uint64_t lines)
{
    unsigned way = below(b, 4);
    if (way == 3)
        return make_total(b);
    return way == 2 || lines == 0 ? UINT32_MAX : UINT32_MAX - lines + way;
}

/* The call once more, with another total: 34 if this does not take the count, or else the very same page. */
static void expect_same(const struct outcome *fresh, const uint16_t *page, const struct outcome *o, const uint16_t *other, uint64_t total)
{
    const struct outcome overrun = {.result = 1, .number = {GPC_SITTING_OVERRUN}};
    int past = total + fresh->number[2] > UINT32_MAX;
    EXPECT(memcmp(o, past ? &overrun : fresh, sizeof *o) == 0, "not the report that the total asks for");
    EXPECT(past || memcmp(page, other, 2 * fresh->number[3]) == 0, "another page with another total");
    feature(60, 4 * fresh->number[0] + 2 * (uint64_t)past + (total + fresh->number[2] == UINT32_MAX));
}

void check_totals(const struct subject *s, const struct listing *l, struct bytes *b)
{
    static uint16_t page[MOST_PAGE], other[MOST_PAGE];
    for (int turn = 0; turn < MOST_TURNS; turn++) {
        size_t k = pick(b) % (l->records + 1), room = below(b, 3) * (size_t)below(b, 48);
        const uint16_t *bookmark = k == 0 ? NULL : words_of(l, k - 1);
        size_t marked = k == 0 ? 0 : length_of(l, k - 1);
        struct sitting fresh = sitting_at(0);
        struct outcome o = fill_page(s, bookmark, marked, &fresh, page, room, GPC_WORK_WORDS, GPC_REPORT_BYTES);
        uint64_t total = total_near(b, o.number[2]);
        struct sitting lent = sitting_at(total);
        struct outcome told = fill_page(s, bookmark, marked, &lent, other, room, GPC_WORK_WORDS, GPC_REPORT_BYTES);
        expect_same(&o, page, &told, other, total);
        counts.totals++;
    }
}
