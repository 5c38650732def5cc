/* The four operations under guard: every promise of the header that one call can break by itself is checked here. */
#include <string.h>

#include "fuzz.h"

enum { IMAGE, QUERY, WORDS, SITTING, PAGE, WORK, REPORT, PIECES };
enum { GUARD = 64, ROOM = 2 * MOST_WORK + 2 * GUARD + 2 };

/* Memory to lend. What a call may only read and the sitting have contents of their own; the rest holds noise. */
struct piece {
    const void *from;
    size_t width, bytes;
    uint8_t *data;
};

/* Answered: whether report and sitting are long enough for a report to be written. */
struct call {
    struct piece piece[PIECES];
    int answered;
    uint64_t (*invoke)(const struct call *);
};

static _Alignas(16) uint8_t blocks[PIECES][ROOM];
static uint8_t noise[2][ROOM];

static void make_noise(void)
{
    if (noise[0][0] != 0)
        return;
    for (unsigned round = 0; round < 2; round++)
        for (size_t i = 0; i < ROOM; i++)
            noise[round][i] = (uint8_t)(1 + (i * 29 + i / 251 + 101 * round) % 255);
}

/* Bytes are lent at an odd address in the second round, and nothing as a null pointer. */
static void lend(struct call *c, unsigned round)
{
    for (int i = 0; i < PIECES; i++) {
        struct piece *p = &c->piece[i];
        p->data = blocks[i] + GUARD + (p->width == 1 ? round : 0);
        memcpy(p->data - GUARD, noise[round], p->bytes + 2 * GUARD);
        if (p->from != NULL)
            memcpy(p->data, p->from, p->bytes);
    }
}

static int untouched(const struct piece *p, size_t from, unsigned round)
{
    return from >= p->bytes || memcmp(p->data + from, noise[round] + GUARD + from, p->bytes - from) == 0;
}

static int is_zero(const void *data, size_t bytes)
{
    static const uint8_t zeros[ROOM];
    return memcmp(data, zeros, bytes) == 0;
}

static void check_guards(const struct call *c, unsigned round)
{
    for (int i = 0; i < PIECES; i++) {
        const struct piece *p = &c->piece[i];
        EXPECT(memcmp(p->data - GUARD, noise[round], GUARD) == 0, "written before a lent piece");
        EXPECT(memcmp(p->data + p->bytes, noise[round] + GUARD + p->bytes, GUARD) == 0, "written past a lent piece");
        if (p->from != NULL && i != SITTING)
            EXPECT(memcmp(p->data, p->from, p->bytes) == 0, "written what may only be read");
    }
}

static struct outcome outcome_of(const struct call *c, uint64_t result)
{
    struct outcome o = {.result = result};
    for (int i = 0; i < 8 && result == 1; i++)
        for (int k = 7; k >= 0; k--)
            o.number[i] = o.number[i] << 8 | c->piece[REPORT].data[8 * i + k];
    return o;
}

static void check_report(const struct call *c, const struct outcome *o, unsigned round)
{
    const struct piece *r = &c->piece[REPORT];
    EXPECT(o->result == (uint64_t)c->answered, "a result that is not told by the lengths of report and sitting");
    EXPECT(untouched(r, o->result == 1 ? GPC_REPORT_BYTES : 0, round), "report bytes that are no number");
    EXPECT(o->number[6] == 0 && o->number[7] == 0, "a number where 0 belongs");
    for (int i = 2; i < 8 && o->number[0] != 0; i++)
        EXPECT(o->number[i] == 0 || (i == 5 && o->number[0] == GPC_PAGE_TOO_SHORT), "a refusal that reports more");
}

static void check_work(const struct piece *w, const struct outcome *o, unsigned round)
{
    uint64_t n = o->number[0];
    int kept = o->result == 0 || (n != 0 && n != GPC_PAGE_TOO_SHORT && n != GPC_SITTING_OVERRUN);
    if (!kept)
        EXPECT(is_zero(w->data, 2 * GPC_WORK_WORDS), "work words that are not cleared");
    EXPECT(untouched(w, kept ? 0 : 2 * GPC_WORK_WORDS, round), "work words that are not left alone");
}

/* Both rounds; after each one its promises, and then that they agree. The page is as far as it was written. */
static struct outcome run(struct call *c, void (*check)(const struct call *, const struct outcome *, unsigned), uint16_t *page,
                          size_t (*written)(const struct outcome *))
{
    struct outcome o[2];
    make_noise();
    for (unsigned round = 0; round < 2; round++) {
        lend(c, round);
        for (int i = 0; round == 1 && i < PIECES; i++)
            if (c->piece[i].bytes == 0)
                c->piece[i].data = NULL;
        uint64_t result = c->invoke(c);
        for (int i = 0; i < PIECES; i++)
            if (c->piece[i].data == NULL)
                c->piece[i].data = blocks[i] + GUARD + (c->piece[i].width == 1 ? round : 0);
        o[round] = outcome_of(c, result);
        check_guards(c, round);
        check_report(c, &o[round], round);
        check(c, &o[round], round);
        if (round == 0 && page != NULL)
            memcpy(page, c->piece[PAGE].data, written(&o[0]));
    }
    EXPECT(memcmp(&o[0], &o[1], sizeof o[0]) == 0, "two reports for one call");
    EXPECT(page == NULL || memcmp(page, c->piece[PAGE].data, written(&o[0])) == 0, "two pages for one call");
    counts.calls += 2;
    counts.refused[o[0].number[0]] += 2;
    return o[0];
}

static uint64_t invoke_read(const struct call *c)
{
    const struct piece *p = c->piece;
    return gpc_read_image(p[IMAGE].data, p[IMAGE].bytes, p[REPORT].data, p[REPORT].bytes);
}

static void check_read(const struct call *c, const struct outcome *o, unsigned round)
{
    (void)c;
    (void)round;
    EXPECT(o->number[0] <= GPC_IMAGE_BAD_PROPERTY, "no number of the reader");
    EXPECT(o->number[1] == 0 || o->number[0] >= GPC_IMAGE_BAD_NODE, "a row where none is named");
    EXPECT(is_zero(&o->number[2], 48), "a reader that reports more");
}

static uint64_t invoke_check(const struct call *c)
{
    const struct piece *p = c->piece;
    return gpc_check_query((const uint16_t *)p[QUERY].data, p[QUERY].bytes / 2, (uint16_t *)p[PAGE].data, p[PAGE].bytes / 2,
                           p[REPORT].data, p[REPORT].bytes);
}

static int is_of_query(uint64_t n)
{
    return (n >= GPC_PATTERN_LENGTH && n <= GPC_PATTERN_UNTYPED) || (n >= GPC_QUERY_LAYOUT && n <= GPC_QUERY_UNTYPED);
}

/* Judge and page have the reader's numbers, the checker's but 17, and 21, 22. */
static int is_of_listing(uint64_t n)
{
    return n <= GPC_IMAGE_BAD_PROPERTY || is_of_query(n) || n == GPC_RESTRICTOR || n == GPC_WORK_TOO_SHORT;
}

static int types_written(const struct outcome *o) { return o->result == 1 && o->number[0] != GPC_TYPES_TOO_SHORT; }

static size_t types_bytes(const struct outcome *o) { return types_written(o) ? 2 * GPC_TYPE_WORDS : 0; }

static void check_types(const struct call *c, const struct outcome *o, unsigned round)
{
    const struct piece *t = &c->piece[PAGE];
    uint64_t n = o->number[0];
    EXPECT(n == 0 || n == GPC_TYPES_TOO_SHORT || is_of_query(n), "no number of the checker");
    EXPECT(o->result == 0 || (n == GPC_TYPES_TOO_SHORT) == (t->bytes < 2 * GPC_TYPE_WORDS), "17 not by the area's length");
    EXPECT(o->number[1] == 0 || (n >= GPC_PATTERN_MALFORMED && n <= GPC_PATTERN_UNTYPED && 10 * o->number[1] < c->piece[QUERY].bytes),
           "a row that is none");
    EXPECT(untouched(t, types_bytes(o), round), "type words that are not left alone");
    if (types_written(o) && n != 0)
        EXPECT(is_zero(t->data, 2 * GPC_TYPE_WORDS), "types of a refused query");
    EXPECT(is_zero(&o->number[2], 48), "a checker that reports more");
}

static uint64_t invoke_judge(const struct call *c)
{
    const struct piece *p = c->piece;
    return gpc_judge_record(p[IMAGE].data, p[IMAGE].bytes, (const uint16_t *)p[QUERY].data, p[QUERY].bytes / 2,
                            (const uint16_t *)p[WORDS].data, p[WORDS].bytes / 2, (uint16_t *)p[WORK].data, p[WORK].bytes / 2,
                            p[REPORT].data, p[REPORT].bytes);
}

static void check_judge(const struct call *c, const struct outcome *o, unsigned round)
{
    EXPECT(is_of_listing(o->number[0]), "no number of the judge");
    EXPECT(o->number[2] <= 1 && o->number[3] == 0 && o->number[4] == 0 && o->number[5] == 0, "neither yes nor no");
    check_work(&c->piece[WORK], o, round);
}

static uint64_t invoke_fill(const struct call *c)
{
    const struct piece *p = c->piece;
    return gpc_fill_page(p[IMAGE].data, p[IMAGE].bytes, (const uint16_t *)p[QUERY].data, p[QUERY].bytes / 2,
                         (const uint16_t *)p[WORDS].data, p[WORDS].bytes / 2, p[SITTING].data, p[SITTING].bytes,
                         (uint16_t *)p[PAGE].data, p[PAGE].bytes / 2, (uint16_t *)p[WORK].data, p[WORK].bytes / 2, p[REPORT].data,
                         p[REPORT].bytes);
}

static size_t page_bytes(const struct outcome *o) { return 2 * (size_t)o->number[3]; }

/* The total is raised by the records on the page, and by nothing else; so it never passes its range. No record has fewer than two words,
 * so 34 needs a total that half the page's words would carry past it. */
static void check_sitting(const struct piece *sitting, const struct outcome *o, size_t page_words)
{
    const uint8_t *lent = sitting->from;
    if (o->result == 0 || o->number[0] != 0) {
        EXPECT(memcmp(sitting->data, lent, sitting->bytes) == 0, "a sitting written by a call that places nothing");
        EXPECT(o->number[0] != GPC_SITTING_OVERRUN || total_of(lent) + page_words / 2 > UINT32_MAX, "34 far from the end");
        return;
    }
    EXPECT(total_of(sitting->data) == total_of(lent) + o->number[2], "a total that is not raised by the page's count");
    EXPECT(memcmp(sitting->data + GPC_SITTING_BYTES, lent + GPC_SITTING_BYTES, sitting->bytes - GPC_SITTING_BYTES) == 0,
           "sitting bytes that are no total");
}

static void check_fill(const struct call *c, const struct outcome *o, unsigned round)
{
    const struct piece *page = &c->piece[PAGE];
    uint64_t n = o->number[0];
    EXPECT(is_of_listing(n) || n == GPC_PAGE_TOO_SHORT || n == GPC_SITTING_OVERRUN, "no number of the page");
    EXPECT(o->number[3] <= page->bytes / 2 && o->number[4] <= 1, "words or mark that cannot be");
    EXPECT((o->number[2] == 0) == (o->number[3] == 0), "records without words, or words without records");
    EXPECT((n == GPC_PAGE_TOO_SHORT) == (o->number[5] != 0) && (o->number[5] == 0 || o->number[5] > page->bytes / 2),
           "a need that the page has room for");
    EXPECT(untouched(page, page_bytes(o), round), "page words that are not left alone");
    check_sitting(&c->piece[SITTING], o, page->bytes / 2);
    check_work(&c->piece[WORK], o, round);
}

/* The pieces that every call on a subject is lent; the page, the types and the work buffer hold noise. */
static struct call call_on(const struct subject *s, const uint16_t *words, size_t count, size_t page, size_t work, size_t report)
{
    static const uint16_t nothing[1];
    struct call c = {.piece = {[IMAGE] = {.from = s->image, .width = 1, .bytes = s->image_bytes},
                               [QUERY] = {.from = s->query, .width = 2, .bytes = 2 * s->query_words},
                               [WORDS] = {.from = words == NULL ? nothing : words, .width = 2, .bytes = 2 * count},
                               [PAGE] = {.width = 2, .bytes = 2 * page},
                               [WORK] = {.width = 2, .bytes = 2 * work},
                               [REPORT] = {.width = 1, .bytes = report}},
                     .answered = report >= GPC_REPORT_BYTES};
    return c;
}

struct outcome read_image(const struct subject *s, size_t report_bytes)
{
    struct call c = call_on(s, NULL, 0, 0, 0, report_bytes);
    c.invoke = invoke_read;
    return run(&c, check_read, NULL, NULL);
}

struct outcome check_query(const struct subject *s, uint16_t *types, size_t types_words, size_t report_bytes)
{
    struct call c = call_on(s, NULL, 0, types_words, 0, report_bytes);
    c.invoke = invoke_check;
    return run(&c, check_types, types, types_bytes);
}

struct outcome judge_record(const struct subject *s, const uint16_t *rec, size_t rec_words, size_t work_words, size_t report_bytes)
{
    struct call c = call_on(s, rec, rec_words, 0, work_words, report_bytes);
    c.invoke = invoke_judge;
    counts.judged++;
    return run(&c, check_judge, NULL, NULL);
}

struct outcome fill_page(const struct subject *s, const uint16_t *bookmark, size_t bookmark_words, struct sitting *sitting,
                         uint16_t *page, size_t page_words, size_t work_words, size_t report_bytes)
{
    const struct sitting lent = *sitting;
    struct call c = call_on(s, bookmark, bookmark_words, page_words, work_words, report_bytes);
    c.piece[SITTING] = (struct piece){.from = lent.byte, .width = 1, .bytes = lent.bytes};
    c.answered &= lent.bytes >= GPC_SITTING_BYTES;
    c.invoke = invoke_fill;
    counts.pages++;
    struct outcome o = run(&c, check_fill, page, page_bytes);
    memcpy(sitting->byte, c.piece[SITTING].data, lent.bytes);
    return o;
}
