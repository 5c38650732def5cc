/* Counts the lines of a sitting: over two listings, past a refused call, and where the total comes to the end of its range. */
#include <inttypes.h>

#include "host.h"
#include "record.h"

/* Every processor. */
static const uint16_t processors[] = {1, GPC_TRAIL, 0, 5, GPC_KIND_NODE, 1, PROCESSOR, 0, 0};

enum { PROCESSORS_WORDS = sizeof processors / sizeof processors[0], ROOM = 36 };

static uint16_t types[GPC_TYPE_WORDS], work[GPC_WORK_WORDS], page[ROOM], bookmark[ROOM];
static uint8_t report[GPC_REPORT_BYTES];
static uint8_t sitting[GPC_SITTING_BYTES]; /* all 0: fresh */
static uint64_t noted;                     /* lines of the sittings before this one */

static uint64_t total(void)
{
    uint64_t n = 0;
    for (int k = GPC_SITTING_BYTES - 1; k >= 0; k--)
        n = n << 8 | sitting[k];
    return n;
}

/* One call; what it says, and the total that it leaves. */
static uint64_t fill(const uint16_t *words, size_t count, size_t marked, size_t room)
{
    gpc_fill_page(image, sizeof image, words, count, bookmark, marked, sitting, sizeof sitting, page, room, work, GPC_WORK_WORDS, report,
                  sizeof report);
    uint64_t refusal = number(report, GPC_REPORT_REFUSAL);
    if (refusal == 0)
        printf("%d records, ", (int)number(report, GPC_REPORT_RECORDS));
    else
        printf("refused %d, ", (int)refusal);
    printf("total %" PRIu64 "\n", total());
    return refusal;
}

/* Copies the last record on the page to the bookmark. Returns the bookmark's words. */
static size_t mark(int parts)
{
    size_t at = 0, begin = 0;
    for (uint64_t left = number(report, GPC_REPORT_RECORDS); left > 0; left--) {
        begin = at;
        at = record_end(types, parts, page, begin);
    }
    memcpy(bookmark, page + begin, 2 * (at - begin));
    return at - begin;
}

/* Nothing was placed on the page, so the next call goes on with the bookmark that this one had. */
static void begin_sitting(void)
{
    noted += total();
    memset(sitting, 0, sizeof sitting);
    puts("(a fresh sitting)");
}

/* Every record fits on the page, so that 34 is the only refusal. */
static void list(const char *title, const uint16_t *words, size_t count)
{
    size_t marked = 0;
    gpc_check_query(words, count, types, GPC_TYPE_WORDS, report, sizeof report);
    puts(title);
    do {
        if (fill(words, count, marked, ROOM) == GPC_SITTING_OVERRUN)
            begin_sitting();
        else
            marked = mark(words[0]);
    } while (number(report, GPC_REPORT_DONE) == 0);
}

int main(void)
{
    list("chains:", query, QUERY_WORDS);
    list("processors:", processors, PROCESSORS_WORDS);
    puts("too short a page:");
    fill(query, QUERY_WORDS, 0, 10);
    printf("lines of the sitting: %" PRIu64 "\n", total());
    memset(sitting, 255, sizeof sitting);
    sitting[0] = 252; /* a sitting that has come to 4,294,967,292 lines */
    list("chains:", query, QUERY_WORDS);
    printf("lines of both sittings: %" PRIu64 "\n", noted + total());
    return 0;
}
