/* What is checked of a listing: one big page is taken for its beginning, and every other call must say what follows from it. */
#include <string.h>

#include "fuzz.h"

enum { MOST_PAGES = 20, MOST_JUDGED = 12 };

size_t path_words(const uint16_t *w, size_t left) { return left > 0 && 2u * w[0] + 2 <= left ? 2u * w[0] + 2 : 0; }

size_t value_words(const uint16_t *type, const uint16_t *w, size_t left)
{
    if (left == 0)
        return 0;
    if (type[0] == GPC_TYPE_PATH)
        return path_words(w, left);
    if (type[0] == GPC_TYPE_MAYBE)
        return w[0] == GPC_NOTHING ? 1 : value_words(type + 1, w, left);
    if (type[0] != GPC_TYPE_GROUP)
        return 1;
    size_t at = 1;
    for (unsigned factor = 0; factor < w[0]; factor++) {
        size_t path = path_words(w + at, left - at);
        size_t value = path == 0 ? 0 : value_words(type + 1, w + at + path, left - at - path);
        if (value == 0)
            return 0;
        at += path + value;
    }
    return at;
}

size_t record_words(const uint16_t *types, size_t parts, const uint16_t *w, size_t left)
{
    size_t at = 0;
    for (size_t i = 0; i < parts; i++) {
        size_t path = path_words(w + at, left - at);
        EXPECT(path != 0, "a record without a path for each part");
        at += path;
    }
    for (int x = 0; x < GPC_LAST_NAME; x++) {
        if (types[6 * x] == 0)
            continue;
        size_t value = value_words(types + 6 * x, w + at, left - at);
        EXPECT(value != 0, "a record that its types do not take apart");
        at += value;
    }
    return at;
}

int order(const uint16_t *a, size_t m, const uint16_t *b, size_t n)
{
    for (size_t i = 0; i < m && i < n; i++)
        if (a[i] != b[i])
            return a[i] < b[i] ? -1 : 1;
    return (m > n) - (m < n);
}

const uint16_t *words_of(const struct listing *l, size_t i) { return l->words + l->ends[i]; }

size_t length_of(const struct listing *l, size_t i) { return l->ends[i + 1] - l->ends[i]; }

/* The words of the page part into as many records as it says, strictly rising. */
void list(const struct subject *s, const uint16_t *types, struct listing *l)
{
    struct sitting fresh = sitting_at(0);
    struct outcome o = fill_page(s, NULL, 0, &fresh, l->words, MOST_PAGE, GPC_WORK_WORDS, GPC_REPORT_BYTES);
    EXPECT(o.number[0] == 0 || o.number[0] == GPC_PAGE_TOO_SHORT, "an accepted listing refused");
    l->records = 0;
    l->ends[0] = 0;
    l->complete = o.number[4] == 1;
    while (l->ends[l->records] < o.number[3]) {
        size_t at = l->ends[l->records], size = record_words(types, s->query[0], l->words + at, o.number[3] - at);
        l->ends[++l->records] = at + size;
        size_t i = l->records - 1;
        EXPECT(i == 0 || order(words_of(l, i - 1), length_of(l, i - 1), words_of(l, i), size) < 0, "records that do not rise");
    }
    EXPECT(l->records == o.number[2], "a count that is not the page's");
    EXPECT(o.number[0] != 0 || l->records > 0 || l->complete, "no record where the next fits");
    counts.listings++;
    counts.complete += (uint64_t)l->complete;
    counts.records += l->records;
}

/* How many records are not after the words. */
static size_t passed_by(const struct listing *l, const uint16_t *w, size_t n)
{
    size_t k = 0;
    while (k < l->records && order(words_of(l, k), length_of(l, k), w, n) <= 0)
        k++;
    return k;
}

/* What a page must be that begins with record k: the plain machine's page. Returns the record that comes next. */
static size_t expect_page(const struct listing *l, size_t k, const struct outcome *o, const uint16_t *page, size_t page_words)
{
    size_t next = k;
    if (k == l->records && !l->complete)
        return k;
    if (k < l->records && length_of(l, k) > page_words) {
        EXPECT(o->number[0] == GPC_PAGE_TOO_SHORT && o->number[5] == length_of(l, k), "not 23 with the next record's need");
        return k;
    }
    while (next < l->records && l->ends[next + 1] - l->ends[k] <= page_words)
        next++;
    EXPECT(o->number[0] == 0, "a page refused that a record fits on");
    if (next == l->records && !l->complete) {
        EXPECT(o->number[2] >= next - k, "fewer records than fit");
    } else {
        EXPECT(o->number[2] == next - k && o->number[3] == l->ends[next] - l->ends[k], "a count or a length that is not the page's");
        EXPECT(o->number[4] == (next == l->records), "a wrong mark: done or more");
    }
    EXPECT(memcmp(page, l->words + l->ends[k], 2 * (l->ends[next] - l->ends[k])) == 0, "a page with other records");
    return next;
}

/* The listing by small pages of one sitting; where one is too short, the next has just the room that was asked for. */
static void check_pages(const struct subject *s, const struct listing *l, struct bytes *b)
{
    static uint16_t page[MOST_PAGE];
    struct sitting sitting = sitting_at(0);
    size_t k = 0, asked = 0;
    for (int turn = 0; turn < MOST_PAGES; turn++) {
        size_t room = asked != 0 ? asked : below(b, 4) * (size_t)below(b, 24);
        const uint16_t *bookmark = k == 0 ? NULL : words_of(l, k - 1);
        size_t marked = k == 0 ? 0 : length_of(l, k - 1);
        struct outcome o = fill_page(s, bookmark, marked, &sitting, page, room, GPC_WORK_WORDS + below(b, 3), GPC_REPORT_BYTES);
        k = expect_page(l, k, &o, page, room);
        asked = o.number[5] <= MOST_PAGE ? o.number[5] : 0;
        EXPECT(o.number[4] == 0 || !l->complete || total_of(sitting.byte) == l->records, "a total that is not the listing's records");
        if (o.number[4] == 1 || (k == l->records && !l->complete))
            return;
    }
}

/* Words near a record: one changed, dropped or added. */
static size_t near_record(const struct listing *l, struct bytes *b, uint16_t *w)
{
    size_t n = 0, i = l->records == 0 ? 0 : (pick(b) + 256u * pick(b)) % l->records;
    if (l->records > 0) {
        n = length_of(l, i);
        memcpy(w, words_of(l, i), 2 * n);
    }
    unsigned way = below(b, 4);
    size_t at = n == 0 ? 0 : pick(b) % n;
    if (way == 3 || n == 0)
        w[n++] = (uint16_t)below(b, 4);
    else if (way == 2)
        n--;
    else
        w[at] = (uint16_t)(way == 0 ? w[at] + 1u : pick(b) == 255 ? GPC_NOTHING : below(b, 4));
    return n;
}

/* Any words as a bookmark, and as a record to be judged, as far as the listing tells what is right. */
static void check_near(const struct subject *s, const struct listing *l, struct bytes *b)
{
    static uint16_t near[MOST_PAGE + 1], page[MOST_PAGE];
    for (int turn = 0; turn < 4; turn++) {
        size_t n = near_record(l, b, near), k = passed_by(l, near, n), room = below(b, 64);
        struct sitting fresh = sitting_at(0);
        struct outcome o = fill_page(s, near, n, &fresh, page, room, GPC_WORK_WORDS, GPC_REPORT_BYTES);
        expect_page(l, k, &o, page, room);
        if (k == l->records && !l->complete)
            continue;
        int listed = k > 0 && order(words_of(l, k - 1), length_of(l, k - 1), near, n) == 0;
        o = judge_record(s, near, n, GPC_WORK_WORDS + below(b, 3), GPC_REPORT_BYTES);
        EXPECT(o.number[0] == 0 && o.number[2] == (uint64_t)listed, "a record near one judged wrong");
        feature(8, (uint64_t)listed);
    }
}

static void check_judged(const struct subject *s, const struct listing *l)
{
    size_t step = 1 + l->records / MOST_JUDGED;
    for (size_t i = 0; i < l->records; i += step) {
        struct outcome o = judge_record(s, words_of(l, i), length_of(l, i), GPC_WORK_WORDS, GPC_REPORT_BYTES);
        EXPECT(o.number[0] == 0 && o.number[2] == 1, "a listed record judged no");
    }
}

void check_listing(const struct subject *s, const struct listing *l, struct bytes *b)
{
    check_judged(s, l);
    check_pages(s, l, b);
    check_near(s, l, b);
}
