/* Judges words that a host kept: are they a record of this listing? */
#include "host.h"

static uint16_t work[GPC_WORK_WORDS];

static void judge(const uint16_t *rec, size_t words, uint16_t restrictor)
{
    uint8_t report[GPC_REPORT_BYTES];
    uint16_t asked[QUERY_WORDS];
    memcpy(asked, query, sizeof query);
    asked[1] = restrictor; /* of the one part */
    gpc_judge_record(image, sizeof image, asked, QUERY_WORDS, rec, words, work, GPC_WORK_WORDS, report, sizeof report);
    if (number(report, GPC_REPORT_REFUSAL) != 0)
        printf("refused %d row %d\n", (int)number(report, GPC_REPORT_REFUSAL), (int)number(report, GPC_REPORT_ROW));
    else
        puts(number(report, GPC_REPORT_VERDICT) == 1 ? "yes" : "no");
}

int main(void)
{
    /* 12 -> 21 -> 32 is nodes 1, 2, 3 by edges 2 and 3; variable 1 is the group of its two steps, variable 2 is node 3. */
    uint16_t chain[] = {2, 1, 2, 2, 3, 3, 2, 1, 1, 2, 2, 2, 1, 2, 3, 3, 3, 3};
    size_t words = sizeof chain / sizeof chain[0];
    judge(chain, words, GPC_TRAIL);
    judge(chain, words - 1, GPC_TRAIL); /* a word is missing */
    judge(chain, words, 5);             /* there is no such restrictor */
    chain[words - 1] = 2;               /* another map as the present one */
    judge(chain, words, GPC_TRAIL);
    return 0;
}
