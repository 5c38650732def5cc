/* What the programs of the guide share: a small record, a question, and how reported numbers are read. */
#include <stdint.h>
#include <stdio.h>
#include <string.h>

#include "gpc.h"

/* A 16-bit number, low byte first. */
#define W(n) (uint8_t)((n) & 255), (uint8_t)((n) >> 8)

enum { NODES = 6, LEADS_TO = 1, LOADED = 2, PROCESSOR = 3, PRESENT = 1 };

/* Four maps and two processors. Each map leads to the maps that were made out of it, and the last is the present one; a processor has a
 * map loaded. */
static const uint8_t image[] = {
    /* where each section is, and its bytes */
    W(16), W(12), W(28), W(36), W(64), W(32), W(96), W(12),
    /* nodes: outer numbers, of the maps and then of the processors */
    W(11), W(12), W(21), W(32), W(40), W(41),
    /* edges: from, to, directed */
    W(0), W(1), W(1), W(0), W(2), W(1), W(1), W(2), W(1), W(2), W(3), W(1),
    /* and undirected */
    W(3), W(4), W(0), W(2), W(5), W(0),
    /* labels: element, label; element 4 is node 4, element 6 is edge 0 */
    W(4), W(PROCESSOR), W(5), W(PROCESSOR), W(6), W(LEADS_TO), W(7), W(LEADS_TO), W(8), W(LEADS_TO), W(9), W(LEADS_TO), W(10), W(LOADED),
    W(11), W(LOADED),
    /* properties: element, key, value; element 3 is node 3. Nodes 0, 1, 4 and 5 lack the key */
    W(2), W(PRESENT), W(0), W(3), W(PRESENT), W(1),
};

/* Every chain of maps that leads to the present one: a query of one part. */
static const uint16_t query[] = {
    1,                /* one part, and of it: */
    GPC_TRAIL, 0, 30, /* the restrictor, no path name, 30 words of pattern */
    GPC_KIND_FORWARD,       1, LEADS_TO, 0, 0,             /* row 0: a step, variable 1 */
    GPC_KIND_REPETITION,    0, 0,        1, GPC_UNBOUNDED, /* row 1: one step or more */
    GPC_KIND_NODE,          2, 0,        0, 0,             /* row 2: a map, variable 2 */
    GPC_KIND_CONSTANT,      2, PRESENT,  1, 0,             /* row 3: variable 2 has key PRESENT with value 1 */
    GPC_KIND_CONDITIONED,   2, 3,        0, 0,             /* row 4: row 2 under the condition of row 3 */
    GPC_KIND_CONCATENATION, 1, 4,        0, 0,             /* row 5: the steps, and then that map */
};

enum { QUERY_WORDS = sizeof query / sizeof query[0] };

/* Number i of a report: GPC_REPORT_REFUSAL and so on. */
static inline uint64_t number(const uint8_t *report, int i)
{
    uint64_t n = 0;
    for (int k = 7; k >= 0; k--)
        n = n << 8 | report[8 * i + k];
    return n;
}
