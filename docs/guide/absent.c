/* Lists the nodes under a condition and under its negation, and then those that lack the property or have it with another value. */
#include "host.h"
#include "record.h"

/* Every node; those with key PRESENT of value 1; those under the negation of this. */
static const uint16_t every[] = {1, GPC_TRAIL, 0, 5, GPC_KIND_NODE, 1, 0, 0, 0};
static const uint16_t equal[] = {
    1, GPC_TRAIL, 0, 15, GPC_KIND_NODE, 1, 0, 0, 0, GPC_KIND_CONSTANT, 1, PRESENT, 1, 0, GPC_KIND_CONDITIONED, 0, 1, 0, 0,
};
static const uint16_t negated[] = {
    1, GPC_TRAIL, 0, 20, GPC_KIND_NODE, 1, 0, 0, 0, GPC_KIND_CONSTANT, 1, PRESENT, 1, 0, GPC_KIND_NOT, 1, 0, 0, 0,
    GPC_KIND_CONDITIONED, 0, 2, 0, 0,
};

/* A listing of nodes. A record is no edges, the node, and the node again: the value of variable 1. */
struct nodes {
    uint16_t record[NODES][3];
    size_t count;
};

static struct nodes list(const uint16_t *words, size_t count)
{
    static uint16_t work[GPC_WORK_WORDS];
    uint8_t report[GPC_REPORT_BYTES], sitting[GPC_SITTING_BYTES] = {0};
    struct nodes l;
    gpc_fill_page(image, sizeof image, words, count, NULL, 0, sitting, sizeof sitting, l.record[0], 3 * NODES, work, GPC_WORK_WORDS,
                  report, sizeof report);
    l.count = number(report, GPC_REPORT_RECORDS); /* all of them: the page has room for every node */
    return l;
}

/* Prints the records of a listing that another one leaves over; both rise, and the first holds the second. */
static void print_without(const char *title, const struct nodes *l, const struct nodes *out)
{
    printf("%s:", title);
    for (size_t i = 0, k = 0; i < l->count; i++) {
        if (k < out->count && memcmp(l->record[i], out->record[k], sizeof l->record[i]) == 0)
            k++;
        else
            printf(" %d", outer(l->record[i][1]));
    }
    puts("");
}

int main(void)
{
    static const struct nodes none;
    struct nodes all = list(every, sizeof every / 2), kept = list(equal, sizeof equal / 2), others = list(negated, sizeof negated / 2);
    print_without("every node", &all, &none);
    print_without("present = 1", &kept, &none);
    print_without("not present = 1", &others, &none);
    print_without("lacks it or differs", &all, &kept);
    return 0;
}
