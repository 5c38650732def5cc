/* Which property look-ups a condition takes (02, Q-4): of and, or the right-hand part is looked at first, and the left-hand part only
 * where that does not decide. Linked with the library that counts them (build.py). How often a call evaluates a condition is no matter
 * here: it hangs on the condition's truth value alone, so counts are compared between tables whose conditions have one truth value.
 *
 * Prints both sides of each comparison, and 'N passed, M failed'. */
#include <stdio.h>
#include <string.h>

#include "gpc.h"

extern uint64_t property_lookups;

/* The three truth values of a comparison: each node and edge has 1 under key 1, and nothing under key 2. */
enum truth { TRUE, FALSE, UNKNOWN };
static const uint16_t keys[] = {1, 1, 2}, constants[] = {1, 2, 1};

enum { NODE = 1, FORWARD = 2, CONCATENATION = 6, CONDITIONED = 7, REPETITION = 8, CONSTANT = 16, AND = 18, OR = 19 };
enum { MOST_ROWS = 64, LEFT_TERMS = 3 };

struct table {
    uint16_t words[4 + 5 * MOST_ROWS], rows;
};

/* Adds a row and tells its number. */
static uint16_t row(struct table *t, uint16_t kind, uint16_t p, uint16_t q, uint16_t r, uint16_t s)
{
    uint16_t words[] = {kind, p, q, r, s};
    memcpy(t->words + 4 + 5 * t->rows, words, sizeof words);
    return t->rows++;
}

/* A comparison of variable 1's property. */
static uint16_t term(struct table *t, enum truth value)
{
    return row(t, CONSTANT, 1, keys[value], constants[value], 0);
}

/* So many comparisons of one truth value, joined so that none decides: each is looked at. */
static uint16_t terms(struct table *t, enum truth value, int count)
{
    uint16_t at = term(t, value), kind = value == TRUE ? AND : OR;
    while (--count > 0)
        at = row(t, kind, at, term(t, value), 0, 0);
    return at;
}

/* A pattern under the condition, of which variable 1 is a node at its beginning, an edge, or a node in a repeated body. */
enum shape { FIRST_NODE, EDGE, IN_A_BODY, SHAPES };
static const char *const shapes[] = {"first node", "edge", "in a repeated body"};

static void pattern_under(struct table *t, enum shape shape, uint16_t condition)
{
    if (shape == EDGE) {
        row(t, CONDITIONED, row(t, FORWARD, 1, 0, 0, 0), condition, 0, 0);
        return;
    }
    uint16_t node = row(t, NODE, 1, 0, 0, 0), step = row(t, FORWARD, 0, 0, 0, 0);
    uint16_t whole = row(t, CONDITIONED, row(t, CONCATENATION, node, step, 0, 0), condition, 0, 0);
    if (shape == IN_A_BODY)
        row(t, REPETITION, whole, 0, 1, 65535);
}

/* Nodes 0, 1, 2 and the edges 0 -> 1, 1 -> 2, each with its property. */
static const uint16_t image_words[] = {16, 6, 22, 12, 34, 0, 34, 30, 10, 20, 30, 0, 1, 1, 1, 2, 1,
                                       0, 1, 1, 1, 1, 1, 2, 1, 1, 3, 1, 1, 4, 1, 1};
enum { IMAGE_WORDS = sizeof image_words / sizeof *image_words };

static uint16_t page[GPC_WORK_WORDS], work[GPC_WORK_WORDS];
static uint8_t report[GPC_REPORT_BYTES];

/* Their first record, if the condition is true: a value is an element, or a group of one factor. */
static const uint16_t first_records[SHAPES][10] = {{1, 0, 0, 1, 0}, {1, 0, 0, 1, 0}, {1, 0, 0, 1, 1, 1, 0, 0, 1, 0}};
static const size_t first_words[SHAPES] = {5, 5, 10};

/* The look-ups of a page, as trails, and of the judge of its first record. */
static uint64_t lookups(struct table *t, enum shape shape)
{
    uint8_t image[2 * IMAGE_WORDS], sitting[GPC_SITTING_BYTES] = {0};
    for (int i = 0; i < IMAGE_WORDS; i++) {
        image[2 * i] = (uint8_t)(image_words[i] & 255);
        image[2 * i + 1] = (uint8_t)(image_words[i] >> 8);
    }
    uint16_t count = (uint16_t)(4 + 5 * t->rows), head[] = {1, GPC_TRAIL, 0, (uint16_t)(5 * t->rows)};
    memcpy(t->words, head, sizeof head);
    property_lookups = 0;
    gpc_fill_page(image, sizeof image, t->words, count, NULL, 0, sitting, sizeof sitting, page, GPC_WORK_WORDS, work, GPC_WORK_WORDS, report,
                  sizeof report);
    if (report[8 * GPC_REPORT_REFUSAL] != 0)
        return 0;
    gpc_judge_record(image, sizeof image, t->words, count, first_records[shape], first_words[shape], work, GPC_WORK_WORDS, report, sizeof report);
    return property_lookups;
}

/* Of the terms alone. */
static uint64_t lookups_of(enum shape shape, enum truth value, int count)
{
    struct table t = {.rows = 0};
    pattern_under(&t, shape, terms(&t, value, count));
    return lookups(&t, shape);
}

/* Of a left-hand part of three terms and a right-hand part of one. */
static uint64_t lookups_of_both(enum shape shape, uint16_t connective, enum truth left, enum truth right)
{
    struct table t = {.rows = 0};
    uint16_t p = terms(&t, left, LEFT_TERMS), q = term(&t, right);
    pattern_under(&t, shape, row(&t, connective, p, q, 0, 0));
    return lookups(&t, shape);
}

/* What is looked at: the right-hand part alone, or both, which then take the look-ups of as many terms of the whole's truth value. */
static const struct {
    const char *what;
    uint16_t connective;
    enum truth left, right, whole;
    int looked_at;
} cases[] = {
    {"and, its right part false", AND, TRUE, FALSE, FALSE, 1},
    {"and, its right part true", AND, TRUE, TRUE, TRUE, LEFT_TERMS + 1},
    {"and, its right part true and its left part false", AND, FALSE, TRUE, FALSE, LEFT_TERMS + 1},
    {"and, its right part unknown", AND, UNKNOWN, UNKNOWN, UNKNOWN, LEFT_TERMS + 1},
    {"or, its right part true", OR, FALSE, TRUE, TRUE, 1},
    {"or, its right part false", OR, FALSE, FALSE, FALSE, LEFT_TERMS + 1},
    {"or, its right part false and its left part true", OR, TRUE, FALSE, TRUE, LEFT_TERMS + 1},
    {"or, its right part unknown", OR, UNKNOWN, UNKNOWN, UNKNOWN, LEFT_TERMS + 1},
};

int main(void)
{
    int passed = 0, failed = 0;
    for (enum shape shape = FIRST_NODE; shape < SHAPES; shape++)
        for (size_t i = 0; i < sizeof cases / sizeof *cases; i++) {
            uint64_t made = lookups_of_both(shape, cases[i].connective, cases[i].left, cases[i].right);
            uint64_t wanted = lookups_of(shape, cases[i].whole, cases[i].looked_at);
            int good = made == wanted && made > 0;
            printf("%s%s, %s: %d look-ups, wanted %d\n", good ? "" : "failed: ", shapes[shape], cases[i].what, (int)made, (int)wanted);
            passed += good;
            failed += !good;
        }
    printf("%d passed, %d failed\n", passed, failed);
    return failed != 0;
}
