/* How much stack a call takes where it goes deepest: four parts, paths of 200 edges, groups two deep, all eight variables and four
 * names. A call runs on a thread whose stack was filled with a known byte; what is no longer that byte was used. Prints the bytes of
 * each call and fails above the header's bound. */
#include <pthread.h>
#include <stdio.h>
#include <stdlib.h>
#include <string.h>

#include "gpc.h"

enum { NODES = 200, PARTS = 4, ROWS = 5, STACK = 16 << 20, PAINT = 0xA5 };

static uint8_t image[65536];
static size_t image_bytes;
static uint16_t query[1 + 3 * PARTS + 5 * ROWS * PARTS];
static uint16_t work[GPC_WORK_WORDS], rec[GPC_WORK_WORDS], page[GPC_WORK_WORDS];
static size_t rec_words;
static uint8_t report[GPC_REPORT_BYTES], sitting[GPC_SITTING_BYTES];

static void put(uint16_t v)
{
    image[image_bytes++] = (uint8_t)(v & 255);
    image[image_bytes++] = (uint8_t)(v >> 8);
}

/* A directed cycle: its longest trail has as many edges as the image may have. */
static void make_cycle(void)
{
    uint16_t at = 16, sizes[4] = {2 * NODES, 6 * NODES, 0, 0};
    for (int i = 0; i < 4; i++) {
        put(at);
        put(sizes[i]);
        at = (uint16_t)(at + sizes[i]);
    }
    for (uint16_t i = 0; i < NODES; i++)
        put(i);
    for (uint16_t i = 0; i < NODES; i++) {
        put(i);
        put((uint16_t)((i + 1) % NODES));
        put(1);
    }
}

/* Each part: a node and an edge, each with a variable of its own, repeated, and that repeated again; and a name for its path. Of the
 * shortest the inner repetition has one factor: with more, all that is shorter would take minutes to rule out. */
static void make_query(uint16_t restrictor)
{
    uint16_t *pattern = query + 1 + 3 * PARTS;
    uint16_t inner = restrictor == GPC_SHORTEST_TRAIL ? 1 : 65535;
    query[0] = PARTS;
    for (uint16_t part = 0; part < PARTS; part++, pattern += 5 * ROWS) {
        uint16_t head[] = {restrictor, (uint16_t)(9 + part), 5 * ROWS};
        uint16_t rows[] = {1, (uint16_t)(2 * part + 1), 0, 0, 0, 2, (uint16_t)(2 * part + 2), 0, 0, 0,
                           6, 0, 1, 0, 0, 8, 2, 0, 1, inner, 8, 3, 0, 1, 65535};
        memcpy(query + 1 + 3 * part, head, sizeof head);
        memcpy(pattern, rows, sizeof rows);
    }
}

/* The whole cycle from node 0. */
static void put_path(void)
{
    rec[rec_words++] = NODES;
    for (uint16_t i = 0; i < NODES; i++) {
        rec[rec_words++] = i;
        rec[rec_words++] = i;
    }
    rec[rec_words++] = 0;
}

static void put_step(uint16_t edge)
{
    uint16_t step[] = {1, edge, edge, (uint16_t)((edge + 1) % NODES)};
    memcpy(rec + rec_words, step, sizeof step);
    rec_words += 4;
}

/* The record of the whole cycle in each part, with a factor for each edge and in each factor a group of one: the deepest recursion,
 * and the longest record. */
static void make_record(void)
{
    for (int part = 0; part < PARTS; part++)
        put_path();
    for (int variable = 0; variable < 2 * PARTS; variable++) {
        rec[rec_words++] = NODES;
        for (uint16_t i = 0; i < NODES; i++) {
            put_step(i);
            rec[rec_words++] = 1;
            put_step(i);
            rec[rec_words++] = i;
        }
    }
    for (int part = 0; part < PARTS; part++)
        put_path();
}

/* A page of no words is a call to judge. How many lines the sitting has left, and the number by which the call must be refused. */
struct call {
    const char *name;
    uint16_t restrictor;
    size_t page_words;
    uint32_t lines_left;
    uint64_t refusal;
};

static uint64_t reported(int i)
{
    uint64_t v = 0;
    for (int k = 7; k >= 0; k--)
        v = v << 8 | report[8 * i + k];
    return v;
}

static void set_sitting(uint32_t total)
{
    for (int k = 0; k < GPC_SITTING_BYTES; k++)
        sitting[k] = (uint8_t)(total >> 8 * k);
}

/* A page's call begins just before the record and has room for it alone, or not even for it, so that it ends there. */
static void *run(void *arg)
{
    const struct call *c = arg;
    size_t query_words = sizeof query / sizeof *query;
    if (c->page_words == 0)
        gpc_judge_record(image, image_bytes, query, query_words, rec, rec_words, work, GPC_WORK_WORDS, report, sizeof report);
    else
        gpc_fill_page(image, image_bytes, query, query_words, rec, rec_words - 2, sitting, sizeof sitting, page, c->page_words, work,
                      GPC_WORK_WORDS, report, sizeof report);
    return NULL;
}

static size_t used_by(struct call *c)
{
    uint8_t *stack = aligned_alloc(4096, STACK);
    pthread_attr_t attr;
    pthread_t thread;
    size_t i = 0;
    memset(stack, PAINT, STACK);
    set_sitting(UINT32_MAX - c->lines_left);
    pthread_attr_init(&attr);
    if (pthread_attr_setstack(&attr, stack, STACK) || pthread_create(&thread, &attr, run, c) || pthread_join(thread, NULL))
        exit(2);
    while (i < STACK && stack[i] == PAINT)
        i++;
    free(stack);
    return STACK - i;
}

/* Judged a record or placed on the page, needing its words, or refused for the total. */
static int as_expected(const struct call *c)
{
    uint64_t found = c->refusal == GPC_ACCEPTED, needed = c->refusal == GPC_PAGE_TOO_SHORT ? rec_words : 0;
    return reported(0) == c->refusal && reported(2) == found && reported(5) == needed;
}

int main(void)
{
    /* A small page, and one that lacks a single word for the record. Then a sitting near its end, where a page is searched for twice; with
     * room for the record only of the shortest, since to look for a trail after it would take a minute. */
    const uint32_t fresh = UINT32_MAX;
    struct call calls[] = {
        {"judge a record, trail", GPC_TRAIL, 0, fresh, GPC_ACCEPTED},
        {"judge a record, shortest trail", GPC_SHORTEST_TRAIL, 0, fresh, GPC_ACCEPTED},
        {"fill a page of 1024, trail", GPC_TRAIL, 1024, fresh, GPC_PAGE_TOO_SHORT},
        {"fill a page of 1024, shortest trail", GPC_SHORTEST_TRAIL, 1024, fresh, GPC_PAGE_TOO_SHORT},
        {"fill a large page, trail", GPC_TRAIL, GPC_MOST_RECORD_WORDS - 1, fresh, GPC_PAGE_TOO_SHORT},
        {"fill a large page, shortest trail", GPC_SHORTEST_TRAIL, GPC_MOST_RECORD_WORDS - 1, fresh, GPC_PAGE_TOO_SHORT},
        {"fill a large page at a sitting's end, trail", GPC_TRAIL, GPC_MOST_RECORD_WORDS - 1, 0, GPC_PAGE_TOO_SHORT},
        {"fill a page with a sitting's last line, shortest trail", GPC_SHORTEST_TRAIL, GPC_MOST_RECORD_WORDS, 1, GPC_ACCEPTED},
        {"refuse the line after it, shortest trail", GPC_SHORTEST_TRAIL, GPC_MOST_RECORD_WORDS, 0, GPC_SITTING_OVERRUN},
    };
    size_t most = 0;
    make_cycle();
    make_record();
    for (size_t i = 0; i < sizeof calls / sizeof calls[0]; i++) {
        make_query(calls[i].restrictor);
        size_t used = used_by(&calls[i]);
        if (used > most)
            most = used;
        printf("%s: %zu bytes of stack\n", calls[i].name, used);
        if (!as_expected(&calls[i])) {
            printf("stack: the call went astray: 0 passed, 1 failed\n");
            return 1;
        }
    }
    puts(most < GPC_STACK_BYTES ? "1 passed, 0 failed" : "0 passed, 1 failed");
    return most < GPC_STACK_BYTES ? 0 : 1;
}
