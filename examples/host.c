/* A host: lists all answers to a query over a record, page by page. Not proved; it is meant to be copied from.
 *
 *     host IMAGE QUERY [SITTING]
 *
 * IMAGE holds the bytes of a graph image, QUERY the words of a query, low byte first (see encode.c). Prints the types, each record
 * on a line and their number, as the program that prints a listing does; lines that begin with # tell of the calls.
 *
 * SITTING is a file of 4 bytes in which a sitting goes on from run to run; where there is none, a fresh one begins. Runs that share it
 * must come one after another.
 */
#include <inttypes.h>
#include <stdio.h>
#include <stdlib.h>
#include <string.h>

#include "record.h"
#include "sitting.h"

/* Too small for most records on purpose, so that growing is seen. A host that wants it simple and fast lends 19,224 words or more:
 * any record fits in them. */
enum { FIRST_PAGE_WORDS = 4 };

/* A listing keeps image and query; the bookmark and the sitting are all that goes from call to call. */
struct listing {
    struct bytes image;
    struct words query;
    uint16_t types[GPC_TYPE_WORDS];
    struct words page;
    struct words bookmark;
    uint8_t sitting[GPC_SITTING_BYTES];
    uint64_t before; /* the sitting's total when the run began */
    uint64_t noted;  /* the totals of the sittings that came to their end since */
    uint8_t report[GPC_REPORT_BYTES];
    uint16_t work[GPC_WORK_WORDS];
};

/* Both are checked again by every later call; asking first tells what is wrong before anything is listed. */
static void check(struct listing *l)
{
    gpc_read_image(l->image.at, l->image.count, l->report, sizeof l->report);
    stop_if_refused(l->report);
    gpc_check_query(l->query.at, l->query.count, l->types, GPC_TYPE_WORDS, l->report, sizeof l->report);
    stop_if_refused(l->report);
}

static void print_types(const uint16_t *types)
{
    printf("types");
    for (int v = 1; v <= GPC_LAST_NAME; v++) {
        const uint16_t *type = type_of(types, v);
        if (type[0] == 0)
            continue;
        printf(" %d:%d", v, type[0]);
        for (int i = 1; i < TYPE_DEPTH && type[i] != 0; i++)
            printf(".%d", type[i]);
    }
    printf("\n");
}

static void print_record(const uint16_t *record, size_t words)
{
    for (size_t i = 0; i < words; i++)
        printf(i == 0 ? "%d" : " %d", record[i]);
    printf("\n");
}

/* A copy, since the page is written by the next call and may not overlap what that call reads. */
static void keep_bookmark(struct listing *l, const uint16_t *record, size_t words)
{
    resize(&l->bookmark, words);
    memcpy(l->bookmark.at, record, words * sizeof *record);
}

/* Takes the records off the page; the types and the number of parts, the query's first word, say where each one ends. */
static void take_page(struct listing *l)
{
    uint64_t records = reported(l->report, GPC_REPORT_RECORDS);
    const uint16_t *record = l->page.at;
    size_t words = 0;
    printf("# page of %zu words: %" PRIu64 " placed\n", l->page.count, records);
    for (uint64_t i = 0; i < records; i++) {
        record += words;
        words = record_words(l->types, l->query.at[0], record);
        print_record(record, words);
    }
    if (records > 0)
        keep_bookmark(l, record, words);
}

/* The page has no room for the next record. Nothing was placed, so the page may be lost, and the same bookmark serves again. It grows
 * past the need, since every call finds its way to the bookmark first: many records on a page are cheaper than many pages. */
static void grow_page(struct listing *l)
{
    uint64_t needed = reported(l->report, GPC_REPORT_NEEDED);
    printf("# page of %zu words: the next record needs %" PRIu64 "\n", l->page.count, needed);
    resize(&l->page, 8 * (size_t)needed);
}

/* The sitting's total does not take the page's count. Nothing was placed, so the same bookmark serves again. */
static void begin_sitting(struct listing *l)
{
    uint32_t total = total_of(l->sitting);
    printf("# sitting: %" PRIu32 " lines, and no room for those of this page; a fresh one begins\n", total);
    l->noted += total;
    memset(l->sitting, 0, sizeof l->sitting);
}

/* One call. Whether another one is due. */
static int list_page(struct listing *l)
{
    gpc_fill_page(l->image.at, l->image.count, l->query.at, l->query.count, l->bookmark.at, l->bookmark.count, l->sitting,
                  sizeof l->sitting, l->page.at, l->page.count, l->work, GPC_WORK_WORDS, l->report, sizeof l->report);
    uint64_t refusal = reported(l->report, GPC_REPORT_REFUSAL);
    if (refusal == GPC_PAGE_TOO_SHORT) {
        grow_page(l);
        return 1;
    }
    if (refusal == GPC_SITTING_OVERRUN) {
        begin_sitting(l);
        return 1;
    }
    stop_if_refused(l->report);
    take_page(l);
    return reported(l->report, GPC_REPORT_DONE) == 0;
}

/* All pages, and how many lines were printed on them. */
static void list(struct listing *l)
{
    l->before = total_of(l->sitting);
    while (list_page(l))
        ;
    printf("done %" PRIu64 "\n", l->noted + total_of(l->sitting) - l->before);
}

int main(int argc, char **argv)
{
    static struct listing l;
    const char *kept = argc == 4 ? argv[3] : NULL;
    if (argc != 3 && argc != 4) {
        fputs("usage: host IMAGE QUERY [SITTING]\n", stderr);
        return 2;
    }
    l.image = read_bytes(argv[1]);
    l.query = read_words(argv[2]);
    if (kept != NULL)
        read_sitting(kept, l.sitting);
    resize(&l.page, FIRST_PAGE_WORDS);
    check(&l);
    print_types(l.types);
    list(&l);
    if (kept != NULL) {
        write_sitting(kept, l.sitting);
        printf("# sitting: %" PRIu32 " lines\n", total_of(l.sitting));
    }
    free(l.image.at);
    free(l.query.at);
    free(l.page.at);
    free(l.bookmark.at);
    return 0;
}
