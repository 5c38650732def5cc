/* The fuzz target's parts: what an input is turned into, the calls under guard, and what is checked of a listing. */
#ifndef FUZZ_H
#define FUZZ_H

#include <stddef.h>
#include <stdint.h>

#include "gpc.h"

enum {
    MOST_IMAGE = 8192,
    MOST_PATTERN = 400,
    MOST_QUERY = 1 + GPC_MOST_PARTS * (3 + MOST_PATTERN),
    MOST_PAGE = 8192,
    MOST_WORK = GPC_WORK_WORDS + 64,
    MOST_SITTING = 2 * GPC_SITTING_BYTES,
    MOST_RECORDS = MOST_PAGE / 2
};

/* An input, read byte by byte. Past its end every byte is 0. */
struct bytes {
    const uint8_t *at;
    size_t left;
};

unsigned pick(struct bytes *b);
unsigned below(struct bytes *b, unsigned n);

/* What a listing keeps fixed. */
struct subject {
    uint8_t image[MOST_IMAGE];
    size_t image_bytes;
    uint16_t query[MOST_QUERY];
    size_t query_words;
    unsigned nodes, edges;
};

void make_subject(struct subject *s, struct bytes *b);
void make_query(struct subject *s, struct bytes *b);

/* Puts a condition on one or both of the variables behind the rows of a query's one part; its row. It has seven rows at most. */
unsigned add_condition(struct subject *s, struct bytes *b, const unsigned variable[2]);

/* A part of a query's words. */
struct part {
    uint16_t restrictor, name;
    const uint16_t *words;
    size_t count;
};

/* Takes a query apart; the number of its parts, 0 where the words are not laid out. */
size_t parts_of(const struct subject *s, struct part part[GPC_MOST_PARTS]);

/* The same image with one part as a query of its own, without a name, under some restrictor. */
void part_alone(const struct subject *s, const struct part *p, uint16_t restrictor, struct subject *alone);

/* A sitting as it is lent: so many bytes, the first four its total. */
struct sitting {
    uint8_t byte[MOST_SITTING];
    size_t bytes;
};

/* A sitting of four bytes, and one of any length whose total is at an edge or anywhere. */
struct sitting sitting_at(uint64_t total);
struct sitting make_sitting(struct bytes *b);
uint64_t total_of(const uint8_t *sitting);

/* What a call hands back. */
struct outcome {
    uint64_t result;
    uint64_t number[8];
};

/* The four operations, each called twice on memory with other contents and another alignment: both calls must keep every promise of
 * the header and agree. What was written into types, page or sitting is copied out. */
struct outcome read_image(const struct subject *s, size_t report_bytes);
struct outcome check_query(const struct subject *s, uint16_t *types, size_t types_words, size_t report_bytes);
struct outcome judge_record(const struct subject *s, const uint16_t *rec, size_t rec_words, size_t work_words, size_t report_bytes);
struct outcome fill_page(const struct subject *s, const uint16_t *bookmark, size_t bookmark_words, struct sitting *sitting,
                         uint16_t *page, size_t page_words, size_t work_words, size_t report_bytes);

/* Checks what the checker said of a query against what it says of the parts, each as a query of its own. */
void check_parts(const struct subject *s, const struct outcome *o, const uint16_t *types);

/* The first records of a listing; all of them if it is complete. Record i is the words from ends[i] to ends[i + 1]. */
struct listing {
    uint16_t words[MOST_PAGE];
    size_t ends[MOST_RECORDS + 1];
    size_t records;
    int complete;
};

/* Words in the order of records: below 0, 0 or above 0 as the first come before the second, are they, or come after. */
int order(const uint16_t *a, size_t m, const uint16_t *b, size_t n);

/* The words of a path and of a value of a type, 0 if there are too few; and of a record, which must have as many as it takes. */
size_t path_words(const uint16_t *w, size_t left);
size_t value_words(const uint16_t *type, const uint16_t *w, size_t left);
size_t record_words(const uint16_t *types, size_t parts, const uint16_t *w, size_t left);

/* Lists by one big page, which must part into rising records. */
void list(const struct subject *s, const uint16_t *types, struct listing *l);
const uint16_t *words_of(const struct listing *l, size_t i);
size_t length_of(const struct listing *l, size_t i);

/* Checks the listing of an accepted subject against itself: pages, judge and bookmarks. */
void check_listing(const struct subject *s, const struct listing *l, struct bytes *b);

/* Checks pages of an accepted subject with any total against those with a fresh sitting. */
void check_totals(const struct subject *s, const struct listing *l, struct bytes *b);

/* Checks the listing of a subject against those of its parts alone: by trails, and joined. */
void check_join(const struct subject *s, const struct listing *l);

/* Checks a part of a subject under conditions against the part without them, and the listing against those of the query with its
 * conditions written otherwise. */
void check_conditions(const struct subject *s, const uint16_t *types, const struct listing *l, struct bytes *b);

struct counts {
    uint64_t inputs, calls, images, queries, listings, complete, records, pages, judged, joined, joined_records, given_up;
    uint64_t conditions, written, totals;
    uint64_t truths[3]; /* records for which a condition was false, unknown, true */
    uint64_t refused[GPC_SITTING_OVERRUN + 1];
};

extern struct counts counts;
extern uint8_t fuzz_features[4096];

/* Notes that an input did something worth keeping it for. */
void feature(unsigned sort, uint64_t value);

/* Ends the run: a promise is broken. */
_Noreturn void fail(const char *what);

#define EXPECT(fact, what) \
    do { \
        if (!(fact)) \
            fail(what); \
    } while (0)

void print_counts(void);
int LLVMFuzzerInitialize(int *argc, char ***argv);
int LLVMFuzzerTestOneInput(const uint8_t *data, size_t size);

#endif
