/* The fuzz target: the entry point of libFuzzer, which the plain driver calls too. */
#include <inttypes.h>
#include <setjmp.h>
#include <signal.h>
#include <stdio.h>
#include <stdlib.h>
#include <sys/time.h>
#include <time.h>

#include "fuzz.h"

struct counts counts;
static time_t begun;
static sigjmp_buf out;

/* libFuzzer takes what stands in this section for coverage: the library itself is not instrumented. */
__attribute__((section("__libfuzzer_extra_counters"))) uint8_t fuzz_features[4096];

void feature(unsigned sort, uint64_t value) { fuzz_features[(sort * 197 + value) % sizeof fuzz_features] = 1; }

/* How long a call takes is not promised, and paths can be many: an input is given up after so many milliseconds of processor time. A
 * call can be left in its midst, since it keeps nothing and touches only what it was lent. */
enum { LIMIT = 250 };

static void give_up(int sign)
{
    (void)sign;
    siglongjmp(out, 1);
}

static void set_limit(long milliseconds)
{
    struct itimerval limit = {.it_value = {.tv_usec = 1000 * milliseconds}};
    setitimer(ITIMER_VIRTUAL, &limit, NULL);
}

void fail(const char *what)
{
    set_limit(0);
    fprintf(stderr, "fuzz: %s\n", what);
    abort();
}

void print_counts(void)
{
    const struct counts *c = &counts;
    printf("%" PRIu64 " inputs (%" PRIu64 " given up), %" PRIu64 " calls in %.0f seconds\n", c->inputs, c->given_up, c->calls,
           difftime(time(NULL), begun));
    printf("accepted: %" PRIu64 " images, %" PRIu64 " queries; %" PRIu64 " pages filled, %" PRIu64 " records judged\n", c->images,
           c->queries, c->pages, c->judged);
    printf("%" PRIu64 " listings, %" PRIu64 " of them to their end, with %" PRIu64 " records\n", c->listings, c->complete, c->records);
    printf("%" PRIu64 " pages compared with those of another total\n", c->totals);
    printf("%" PRIu64 " joins compared with their parts, with %" PRIu64 " records\n", c->joined, c->joined_records);
    printf("%" PRIu64 " conditions compared with their negations: true for %" PRIu64 " records, false for %" PRIu64 ", unknown for %" PRIu64
           "; %" PRIu64 " queries written otherwise\n", c->conditions, c->truths[2], c->truths[0], c->truths[1], c->written);
    fputs("calls refused, by number:", stdout);
    for (int i = 1; i <= GPC_SITTING_OVERRUN; i++)
        if (counts.refused[i] > 0)
            printf(" %d: %" PRIu64, i, counts.refused[i]);
    puts("");
    fflush(stdout);
}

int LLVMFuzzerInitialize(int *argc, char ***argv)
{
    struct sigaction action = {.sa_handler = give_up};
    (void)argc;
    (void)argv;
    begun = time(NULL);
    atexit(print_counts);
    sigaction(SIGVTALRM, &action, NULL);
    return 0;
}

/* Lengths around those that matter, and others. */
static size_t length_near(struct bytes *b, size_t wanted)
{
    unsigned choice = pick(b);
    return choice < 128 ? wanted : choice < 160 ? wanted + choice % 4 : choice < 192 ? wanted - 1 : choice < 224 ? 0 : pick(b) % wanted;
}

/* The first cause by which a call on the subject is refused, as the other operations tell it. */
static struct outcome cause_of(const struct subject *s, const struct outcome *image, const struct outcome *query, size_t work_words)
{
    struct outcome none = {.result = 1, .number = {work_words < GPC_WORK_WORDS ? GPC_WORK_TOO_SHORT : 0}};
    struct part part[GPC_MOST_PARTS];
    if (image->number[0] != 0)
        return *image;
    if (query->number[0] != 0)
        return *query;
    for (size_t i = parts_of(s, part); i > 0; i--)
        if (part[i - 1].restrictor < GPC_TRAIL || part[i - 1].restrictor > GPC_SHORTEST_SIMPLE)
            none.number[0] = GPC_RESTRICTOR;
    return none;
}

/* 23 and 34 come after every cause. */
static void expect_cause(const struct outcome *o, const struct outcome *cause)
{
    if (o->result == 0)
        return;
    uint64_t n = o->number[0], number = n == GPC_PAGE_TOO_SHORT || n == GPC_SITTING_OVERRUN ? 0 : n;
    EXPECT(number == cause->number[0] && o->number[1] == cause->number[1], "another cause than the first");
    feature(3, o->number[0]);
}

/* One call of judge and page on any words and any lengths. */
static void check_odd(const struct subject *s, const struct outcome *image, const struct outcome *query, struct bytes *b)
{
    static uint16_t words[64], page[MOST_PAGE];
    size_t n = below(b, 64), work = length_near(b, GPC_WORK_WORDS), report = length_near(b, GPC_REPORT_BYTES);
    for (size_t i = 0; i < n; i++)
        words[i] = (uint16_t)below(b, 8);
    struct sitting sitting = make_sitting(b);
    struct outcome cause = cause_of(s, image, query, work);
    struct outcome o = judge_record(s, words, n, work, report);
    expect_cause(&o, &cause);
    o = fill_page(s, words, n, &sitting, page, pick(b), work, report);
    expect_cause(&o, &cause);
}

/* Listings that give something, by what is in their query. */
static void note_shape(const struct subject *s, const struct listing *l)
{
    struct part part[GPC_MOST_PARTS];
    size_t parts = parts_of(s, part);
    unsigned bits = 0;
    for (size_t n = l->records; n > 0; n >>= 1)
        bits++;
    for (size_t i = 0; i < parts; i++)
        feature(9, 32 * parts + 4 * bits + part[i].restrictor);
    for (size_t at = 0; parts == 1 && l->records > 0 && at < part[0].count; at += 5)
        if (part[0].words[at] >= 5 && part[0].words[at] <= 8)
            feature(10 + part[0].words[at], part[0].words[5 * part[0].words[at + 1]]);
}

static void run_listing(const struct subject *s, const uint16_t *types, struct bytes *b)
{
    static struct listing l;
    list(s, types, &l);
    note_shape(s, &l);
    check_listing(s, &l, b);
    check_totals(s, &l, b);
    check_join(s, &l);
    check_conditions(s, types, &l, b);
}

static void run_input(struct bytes b)
{
    static struct subject s;
    static uint16_t types[GPC_TYPE_WORDS], odd[2 * GPC_TYPE_WORDS];
    make_subject(&s, &b);
    struct outcome image = read_image(&s, GPC_REPORT_BYTES), query = check_query(&s, types, GPC_TYPE_WORDS, GPC_REPORT_BYTES);
    counts.images += image.number[0] == 0;
    counts.queries += query.number[0] == 0;
    feature(1, 16 * image.number[0] + image.number[1] % 16);
    feature(2, 8 * query.number[0] + query.number[1] % 8);
    check_parts(&s, &query, types);
    read_image(&s, length_near(&b, GPC_REPORT_BYTES));
    check_query(&s, odd, length_near(&b, GPC_TYPE_WORDS), length_near(&b, GPC_REPORT_BYTES));
    if (s.image_bytes > 1024)
        return;
    check_odd(&s, &image, &query, &b);
    if (cause_of(&s, &image, &query, GPC_WORK_WORDS).number[0] == 0)
        run_listing(&s, types, &b);
}

int LLVMFuzzerTestOneInput(const uint8_t *data, size_t size)
{
    counts.inputs++;
    set_limit(LIMIT);
    if (sigsetjmp(out, 1) == 0)
        run_input((struct bytes){data, size});
    else
        counts.given_up++;
    set_limit(0);
    return 0;
}
