/* Prints the whole listing, page by page, with the outer numbers of the maps. The page is kept short to show number 23. */
#include "host.h"
#include "record.h"

static uint16_t types[GPC_TYPE_WORDS], work[GPC_WORK_WORDS], page[GPC_MOST_RECORD_WORDS], bookmark[GPC_MOST_RECORD_WORDS];

/* Prints the paths of the records on a page, and copies the last record to the bookmark. Returns the bookmark's words. */
static size_t take_page(uint64_t records)
{
    size_t at = 0, begin = 0;
    for (uint64_t i = 0; i < records; i++) {
        begin = at;
        at = record_end(types, query[0], page, begin);
        print_path(page + begin);
    }
    memcpy(bookmark, page + begin, 2 * (at - begin));
    return at - begin;
}

int main(void)
{
    uint8_t report[GPC_REPORT_BYTES];
    size_t room = 24, marked = 0;
    gpc_check_query(query, QUERY_WORDS, types, GPC_TYPE_WORDS, report, sizeof report);
    do {
        uint8_t sitting[GPC_SITTING_BYTES] = {0}; /* no total is kept */
        gpc_fill_page(image, sizeof image, query, QUERY_WORDS, bookmark, marked, sitting, sizeof sitting, page, room, work, GPC_WORK_WORDS,
                      report, sizeof report);
        if (number(report, GPC_REPORT_REFUSAL) == GPC_PAGE_TOO_SHORT) {
            room = number(report, GPC_REPORT_NEEDED); /* never above GPC_MOST_RECORD_WORDS */
            printf("(the next record needs %d words)\n", (int)room);
            continue;
        }
        if (number(report, GPC_REPORT_REFUSAL) != 0)
            return 1; /* refused, number and row as the reader or the checker gives them, or 21, 22 */
        printf("(%d records, %d words)\n", (int)number(report, GPC_REPORT_RECORDS), (int)number(report, GPC_REPORT_WORDS));
        if (number(report, GPC_REPORT_RECORDS) > 0)
            marked = take_page(number(report, GPC_REPORT_RECORDS));
    } while (number(report, GPC_REPORT_DONE) == 0);
    puts("done");
    return 0;
}
