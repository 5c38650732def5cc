/* The faults of fuzz/wrong.h in image, query, record and page; linked with --wrap for the functions of the header. */
#include <string.h>

#include "wrong.h"

uint64_t __real_gpc_read_image(const uint8_t *, size_t, uint8_t *, size_t);
uint64_t __real_gpc_check_query(const uint16_t *, size_t, uint16_t *, size_t, uint8_t *, size_t);
uint64_t __real_gpc_judge_record(const uint8_t *, size_t, const uint16_t *, size_t, const uint16_t *, size_t, uint16_t *, size_t, uint8_t *,
                                 size_t);
uint64_t __real_gpc_fill_page(const uint8_t *, size_t, const uint16_t *, size_t, const uint16_t *, size_t, uint8_t *, size_t, uint16_t *,
                              size_t, uint16_t *, size_t, uint8_t *, size_t);

uint64_t fill_right(const struct lent *l)
{
    return __real_gpc_fill_page(l->image, l->image_bytes, l->query, l->query_words, l->bookmark, l->bookmark_words, l->sitting,
                                l->sitting_bytes, l->page, l->page_words, l->work, l->work_words, l->report, l->report_bytes);
}

/* A query that the wrong library takes for an accepted one that it is lent: shortest as any, the first two parts the other way round, or
 * and as or. */
static const uint16_t *other_query(const uint16_t *query, size_t words)
{
    static uint16_t other[MOST_QUERY], types[GPC_TYPE_WORDS];
    static uint8_t report[GPC_REPORT_BYTES];
    static struct subject s;
    struct part part[GPC_MOST_PARTS];
    __real_gpc_check_query(query, words, types, GPC_TYPE_WORDS, report, sizeof report);
    if (report[0] != 0)
        return query;
    s.query_words = words;
    memcpy(s.query, query, 2 * words);
    size_t parts = parts_of(&s, part), at = 1 + 3 * parts;
    memcpy(other, query, 2 * words);
    for (size_t i = 0; i < parts; i++) {
        size_t from = WRONG == PARTS_SWAPPED && parts > 1 && i < 2 ? 1 - i : i;
        uint16_t restrictor = part[from].restrictor;
        int eased = WRONG == SHORTEST_AS_ANY && restrictor >= GPC_SHORTEST_TRAIL && restrictor <= GPC_SHORTEST_SIMPLE;
        uint16_t head[] = {(uint16_t)(restrictor - (eased ? 2 : 0)), part[from].name, (uint16_t)part[from].count};
        memcpy(other + 1 + 3 * i, head, sizeof head);
        memcpy(other + at, part[from].words, 2 * part[from].count);
        for (size_t row = at; WRONG == AND_AS_OR && row < at + part[from].count; row += 5)
            if (other[row] == GPC_KIND_AND)
                other[row] = GPC_KIND_OR;
        at += part[from].count;
    }
    return other;
}

static unsigned number_at(const uint8_t *image, size_t at) { return image[at] + 256u * image[at + 1]; }

static void put_at(uint8_t *image, size_t at, size_t n)
{
    image[at] = (uint8_t)n;
    image[at + 1] = (uint8_t)(n >> 8);
}

/* The element and the key of a property row, ordered as such rows are. */
static unsigned pair_at(const uint8_t *image, size_t at) { return number_at(image, at) << 16 | number_at(image, at + 2); }

/* An image that the wrong library takes for an accepted one: each element has each of the least keys, and where it lacked one a value
 * that nothing else has. So an equality with an absent side is false. */
static const uint8_t *filled_image(const uint8_t *image, size_t *bytes)
{
    static uint8_t filled[1 << 16];
    uint8_t report[GPC_REPORT_BYTES];
    __real_gpc_read_image(image, *bytes, report, sizeof report);
    if (report[0] != 0)
        return image;
    const unsigned keys = 4, elements = number_at(image, 2) / 2 + number_at(image, 6) / 6;
    size_t from = number_at(image, 12), at = from, to = from;
    memcpy(filled, image, from);
    for (unsigned i = 0; i < elements * keys; i++) {
        unsigned pair = (i / keys) << 16 | i % keys;
        for (; at < *bytes && pair_at(image, at) < pair; at += 6, to += 6)
            memcpy(filled + to, image + at, 6);
        if (at < *bytes && pair_at(image, at) == pair)
            continue;
        put_at(filled, to, pair >> 16);
        put_at(filled, to + 2, pair & 65535);
        put_at(filled, to + 4, 1000 + i);
        to += 6;
    }
    memcpy(filled + to, image + at, *bytes - at);
    *bytes = to + *bytes - at;
    put_at(filled, 14, *bytes - from);
    return filled;
}

uint64_t __wrap_gpc_read_image(const uint8_t *image, size_t image_bytes, uint8_t *report, size_t report_bytes)
{
    uint64_t result = __real_gpc_read_image(image, image_bytes, report, report_bytes);
    if (WRONG == IMAGE_WRITTEN && image_bytes > 0)
        ((uint8_t *)image)[image_bytes - 1] ^= 1;
    return WRONG == SHORT_REPORT_TAKEN ? 1 : result;
}

uint64_t __wrap_gpc_check_query(const uint16_t *query, size_t query_words, uint16_t *types, size_t types_words, uint8_t *report,
                                size_t report_bytes)
{
    uint64_t result = __real_gpc_check_query(query, query_words, types, types_words, report, report_bytes);
    if (WRONG == ONE_TYPE_TOO_MANY && result == 1 && types_words > GPC_TYPE_WORDS)
        types[GPC_TYPE_WORDS] = 0;
    if (WRONG == CLASH_PASSED && result == 1 && report[0] == GPC_QUERY_UNTYPED)
        report[0] = 0;
    return result;
}

uint64_t __wrap_gpc_judge_record(const uint8_t *image, size_t image_bytes, const uint16_t *query, size_t query_words,
                                 const uint16_t *record, size_t record_words, uint16_t *work, size_t work_words, uint8_t *report,
                                 size_t report_bytes)
{
    if (WRONG == PARTS_SWAPPED || WRONG == AND_AS_OR)
        query = other_query(query, query_words);
    if (WRONG == ABSENT_AS_FALSE)
        image = filled_image(image, &image_bytes);
    uint64_t result = __real_gpc_judge_record(image, image_bytes, query, query_words, record, record_words, work, work_words, report,
                                              report_bytes);
    if (result == 1 && report[0] == 0 && (WRONG == NO_TO_ALL || WRONG == YES_TO_ALL))
        report[16] = WRONG == YES_TO_ALL;
    return result;
}

/* A whole listing, from which are gone the records whose paths but the last are those of the record before. */
static uint16_t left[1 << 16];
static size_t left_words;

static size_t leading_words(const uint16_t *rec, size_t parts)
{
    size_t at = 0;
    for (; parts > 1; parts--)
        at += path_words(rec + at, SIZE_MAX);
    return at;
}

/* Whether there is such a listing: one of several parts that comes to its end on a page. */
static int drop_second(const struct lent *l, uint16_t *types)
{
    static uint16_t all[1 << 16], work[GPC_WORK_WORDS];
    uint8_t report[GPC_REPORT_BYTES], sitting[GPC_SITTING_BYTES] = {0};
    struct lent whole = {l->image, l->image_bytes, l->query, l->query_words, NULL, 0, sitting, sizeof sitting, all, 1 << 16, work,
                         GPC_WORK_WORDS, report, sizeof report};
    __real_gpc_check_query(l->query, l->query_words, types, GPC_TYPE_WORDS, report, sizeof report);
    fill_right(&whole);
    if (report[0] != 0 || report[32] == 0 || l->query[0] < 2)
        return 0;
    const uint16_t *before = NULL;
    left_words = 0;
    for (size_t at = 0, words = report[24] + 256u * report[25]; at < words;) {
        size_t size = record_words(types, l->query[0], all + at, words - at), leading = leading_words(all + at, l->query[0]);
        if (before == NULL || memcmp(before, all + at, 2 * leading) != 0) {
            memcpy(left + left_words, all + at, 2 * size);
            left_words += size;
        }
        before = all + at;
        at += size;
    }
    return 1;
}

static void put_number(uint8_t *report, int i, size_t n)
{
    for (int k = 0; k < 8; k++)
        report[8 * i + k] = (uint8_t)(k < 4 ? n >> 8 * k : 0);
}

/* The plain machine's page of what is left; report and work are as after a call that no cause but 23 and 34 refused. */
static void fill_from_left(const struct lent *l, const uint16_t *types)
{
    static uint16_t page[1 << 16];
    size_t at = 0, size = 0, used = 0, placed = 0;
    memset(l->report, 0, GPC_REPORT_BYTES);
    for (; at < left_words; at += size) {
        size = record_words(types, l->query[0], left + at, left_words - at);
        if (order(left + at, size, l->bookmark, l->bookmark_words) <= 0)
            continue;
        if (used + size > l->page_words)
            break;
        memcpy(page + used, left + at, 2 * size);
        used += size;
        placed++;
    }
    if (at < left_words && placed == 0) {
        put_number(l->report, GPC_REPORT_REFUSAL, GPC_PAGE_TOO_SHORT);
        put_number(l->report, GPC_REPORT_NEEDED, size);
        return;
    }
    if (total_of(l->sitting) + placed > UINT32_MAX) {
        put_number(l->report, GPC_REPORT_REFUSAL, GPC_SITTING_OVERRUN);
        return;
    }
    memcpy(l->page, page, 2 * used);
    set_total(l->sitting, total_of(l->sitting) + placed);
    put_number(l->report, GPC_REPORT_RECORDS, placed);
    put_number(l->report, GPC_REPORT_WORDS, used);
    put_number(l->report, GPC_REPORT_DONE, at == left_words);
}

/* The fault on what a call reported or left. */
static void spoil(uint16_t *work, size_t work_words, uint8_t *report)
{
    static unsigned calls;
    int accepted = report[0] == 0;
    if (WRONG == ONE_WORD_TOO_MANY_CLEARED && accepted && work_words > GPC_WORK_WORDS)
        work[GPC_WORK_WORDS] = 0;
    if (WRONG == WORK_CLEARED_ON_22 && report[0] == GPC_WORK_TOO_SHORT)
        memset(work, 0, 2 * work_words);
    if (WRONG == COUNT_INVENTED && accepted)
        report[16]++;
    if (WRONG == NEED_INVENTED && report[0] == GPC_PAGE_TOO_SHORT)
        report[40]++;
    if ((WRONG == EVERY_PAGE_DONE || WRONG == NO_PAGE_DONE) && accepted)
        report[32] = WRONG == EVERY_PAGE_DONE;
    if (WRONG == OTHER_ON_EVERY_SECOND_CALL && accepted && calls++ % 2 == 1)
        report[32] = 1;
}

/* What the wrong library takes for what it is lent. */
static struct lent taken(struct lent l)
{
    if (WRONG == BOOKMARK_IGNORED)
        l.bookmark_words = 0;
    if (WRONG == FULL_PAGE_REFUSED && l.page_words > 0)
        l.page_words--;
    if (WRONG == SHORTEST_AS_ANY || WRONG == PARTS_SWAPPED || WRONG == AND_AS_OR)
        l.query = other_query(l.query, l.query_words);
    if (WRONG == ABSENT_AS_FALSE)
        l.image = filled_image(l.image, &l.image_bytes);
    return l;
}

uint64_t __wrap_gpc_fill_page(const uint8_t *image, size_t image_bytes, const uint16_t *query, size_t query_words,
                              const uint16_t *bookmark, size_t bookmark_words, uint8_t *sitting, size_t sitting_bytes, uint16_t *page,
                              size_t page_words, uint16_t *work, size_t work_words, uint8_t *report, size_t report_bytes)
{
    uint16_t types[GPC_TYPE_WORDS];
    struct lent l = taken((struct lent){image, image_bytes, query, query_words, bookmark, bookmark_words, sitting, sitting_bytes, page,
                                        page_words, work, work_words, report, report_bytes});
    int dropped = WRONG == SECOND_OF_LAST_DROPPED && drop_second(&l, types);
    if (dropped)
        l.page_words = 0;
    uint64_t result = fill_counted(&l);
    l.page_words = page_words;
    if (result == 1 && dropped && (report[0] == 0 || report[0] == GPC_PAGE_TOO_SHORT))
        fill_from_left(&l, types);
    if (result == 1)
        spoil(work, work_words, report);
    return result;
}
