/* Lists each processor with its map, and beside it the chains of maps that led to this map: two parts, joined by the map. */
#include "host.h"
#include "record.h"

enum { CARRIER = 1, MAP = 2, CHAIN = GPC_FIRST_NAME };

static const uint16_t joined[] = {
    2,                     /* two parts: */
    GPC_TRAIL,  0,     25, /* the first has no path name, and 25 words of pattern; */
    GPC_SIMPLE, CHAIN, 20, /* the path of the second has the name CHAIN, its pattern 20 words */
    /* a processor, and a map that is loaded on it */
    GPC_KIND_NODE,          CARRIER, PROCESSOR, 0, 0,
    GPC_KIND_UNDIRECTED,    0,       LOADED,    0, 0,
    GPC_KIND_NODE,          MAP,     0,         0, 0,
    GPC_KIND_CONCATENATION, 0,       1,         0, 0,
    GPC_KIND_CONCATENATION, 3,       2,         0, 0,
    /* a chain of one step or more that ends at this map; rows count from 0 in each part */
    GPC_KIND_FORWARD,       0,       LEADS_TO,  0, 0,
    GPC_KIND_REPETITION,    0,       0,         1, GPC_UNBOUNDED,
    GPC_KIND_NODE,          MAP,     0,         0, 0,
    GPC_KIND_CONCATENATION, 1,       2,         0, 0,
};

enum { JOINED_WORDS = sizeof joined / sizeof joined[0] };

static uint16_t types[GPC_TYPE_WORDS], work[GPC_WORK_WORDS], page[GPC_MOST_RECORD_WORDS], bookmark[GPC_MOST_RECORD_WORDS];

/* The value of x, a variable or a path name, in the record that begins at 'at'. */
static const uint16_t *value(size_t at, int x) { return page + value_begin(types, joined[0], page, at, x); }

/* Prints the records on a page, and copies the last one to the bookmark. Returns the bookmark's words. */
static size_t take_page(uint64_t records)
{
    size_t at = 0, begin = 0;
    for (uint64_t i = 0; i < records; i++) {
        begin = at;
        at = record_end(types, joined[0], page, begin);
        printf("processor %d, map %d, chain ", outer(*value(begin, CARRIER)), outer(*value(begin, MAP)));
        print_path(value(begin, CHAIN));
    }
    memcpy(bookmark, page + begin, 2 * (at - begin));
    return at - begin;
}

int main(void)
{
    uint8_t report[GPC_REPORT_BYTES];
    size_t marked = 0;
    gpc_check_query(joined, JOINED_WORDS, types, GPC_TYPE_WORDS, report, sizeof report);
    do {
        uint8_t sitting[GPC_SITTING_BYTES] = {0};
        gpc_fill_page(image, sizeof image, joined, JOINED_WORDS, bookmark, marked, sitting, sizeof sitting, page, GPC_MOST_RECORD_WORDS,
                      work, GPC_WORK_WORDS, report, sizeof report);
        if (number(report, GPC_REPORT_REFUSAL) != 0)
            return 1; /* not 23: any record fits on this page */
        marked = take_page(number(report, GPC_REPORT_RECORDS));
    } while (number(report, GPC_REPORT_DONE) == 0);
    return 0;
}
