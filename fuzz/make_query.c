/* Turns the bytes of an input into a query of one to four parts, accepted for the most part. */
#include <string.h>

#include "fuzz.h"

enum { LEAVES = 4, MOST_ROWS = 24, MOST_DEPTH = 4, NODE = 1, EDGE = 2 };

/* The table of a part while it is made: which rows match without an edge, how many unions and repetitions are around the row at hand,
 * which variables came last; and of the parts before, how many variables are taken, and which are nodes or edges outside of unions and
 * repetitions, so that another part can share them. */
struct making {
    struct bytes *b;
    uint16_t word[MOST_PATTERN];
    size_t words;
    int edgeless[MOST_PATTERN / 5];
    unsigned inside, recent[2];
    unsigned variables, single[GPC_VARIABLES + 1], parts;
};

static unsigned put_row(struct making *m, unsigned kind, unsigned p, unsigned q, unsigned r, unsigned s)
{
    uint16_t row[] = {(uint16_t)kind, (uint16_t)p, (uint16_t)q, (uint16_t)r, (uint16_t)s};
    memcpy(m->word + m->words, row, sizeof row);
    m->words += 5;
    return (unsigned)(m->words / 5 - 1);
}

/* A variable that may join the part with one before, 0 where there is none of the sort. */
static unsigned shared(struct making *m, unsigned sort)
{
    unsigned from = below(m->b, GPC_VARIABLES);
    for (unsigned i = 0; i < GPC_VARIABLES; i++)
        if (m->single[1 + (from + i) % GPC_VARIABLES] == sort)
            return 1 + (from + i) % GPC_VARIABLES;
    return 0;
}

/* Mostly a variable of its own, since few shared ones can be typed, or one that joins parts. */
static unsigned choose_variable(struct making *m, unsigned sort)
{
    unsigned choice = below(m->b, 8), x = 0;
    if (choice < 3)
        return 0;
    if (choice == 7 && m->variables > 0)
        return 1 + below(m->b, m->variables);
    if (choice >= 5 && m->parts > 0 && m->inside == 0)
        x = shared(m, sort);
    if (x != 0 || m->variables == GPC_VARIABLES)
        return x;
    m->variables++;
    m->single[m->variables] = m->inside == 0 ? sort : 0;
    return m->variables;
}

static unsigned variable(struct making *m, unsigned sort)
{
    unsigned x = choose_variable(m, sort);
    if (x != 0) {
        m->recent[1] = m->recent[0] == 0 ? x : m->recent[0];
        m->recent[0] = x;
    }
    return x;
}

static unsigned leaf(struct making *m, unsigned kind)
{
    unsigned x = variable(m, kind == 1 ? NODE : EDGE), label = below(m->b, 6);
    unsigned row = put_row(m, kind, x, label == 3 ? 1 : label == 4 ? 2 : 0, 0, 0);
    m->edgeless[row] = kind == 1;
    return row;
}

/* A variable that the part used lately. */
static unsigned used(struct making *m)
{
    unsigned x = m->recent[below(m->b, 2)];
    return x == 0 ? 1 : x;
}

static unsigned condition(struct making *m, unsigned depth)
{
    unsigned choice = depth == 0 ? 0 : below(m->b, 6), x = used(m), y = used(m);
    if (choice < 2)
        return put_row(m, 16, x, below(m->b, 3), below(m->b, 2), 0);
    if (choice == 2)
        return put_row(m, 17, x, below(m->b, 3), y, below(m->b, 3));
    unsigned p = condition(m, depth - 1);
    if (choice == 3)
        return put_row(m, 20, p, 0, 0, 0);
    unsigned q = condition(m, depth - 1);
    return put_row(m, choice == 4 ? 18 : 19, p, q, 0, 0);
}

unsigned add_condition(struct subject *s, struct bytes *b, const unsigned variable[2])
{
    static struct making m;
    m.b = b;
    m.words = s->query[3];
    m.recent[0] = variable[0];
    m.recent[1] = variable[1];
    unsigned row = condition(&m, 2);
    memcpy(s->query + s->query_words, m.word + s->query[3], 2 * (m.words - s->query[3]));
    s->query_words += m.words - s->query[3];
    s->query[3] = (uint16_t)m.words;
    return row;
}

/* A repetition over a row, which gets an edge where it can match without one, but for a few that are to be refused. */
static unsigned repeated(struct making *m, unsigned body)
{
    if (m->edgeless[body] && below(m->b, 32) != 31) {
        unsigned edge = leaf(m, 2 + below(m->b, 3));
        body = put_row(m, 6, body, edge, 0, 0);
    }
    unsigned least = below(m->b, 3), more = below(m->b, 4);
    unsigned row = put_row(m, 8, body, 0, least, more == 3 ? 65535 : least + more);
    m->edgeless[row] = least == 0;
    return row;
}

static unsigned pattern_row(struct making *m, unsigned depth, unsigned repetitions);

static unsigned conditioned(struct making *m, unsigned p)
{
    unsigned row = put_row(m, 7, p, condition(m, 2), 0, 0);
    m->edgeless[row] = m->edgeless[p];
    return row;
}

static unsigned two_rows(struct making *m, int is_union, unsigned depth, unsigned repetitions)
{
    m->inside += (unsigned)is_union;
    unsigned p = pattern_row(m, depth, repetitions), q = pattern_row(m, depth, repetitions);
    m->inside -= (unsigned)is_union;
    unsigned row = put_row(m, is_union ? 5 : 6, p, q, 0, 0);
    m->edgeless[row] = is_union ? m->edgeless[p] || m->edgeless[q] : m->edgeless[p] && m->edgeless[q];
    return row;
}

static unsigned pattern_row(struct making *m, unsigned depth, unsigned repetitions)
{
    unsigned choice = below(m->b, 10);
    if (depth == 0 || m->words > 5 * MOST_ROWS || choice < 2)
        return leaf(m, 1 + below(m->b, LEAVES));
    if (choice < 4 && repetitions > 0) {
        m->inside++;
        unsigned row = repeated(m, pattern_row(m, depth - 1, repetitions - 1));
        m->inside--;
        return row;
    }
    return choice == 9 ? conditioned(m, pattern_row(m, depth - 1, repetitions)) : two_rows(m, choice < 6, depth - 1, repetitions);
}

static uint16_t make_restrictor(struct bytes *b)
{
    static const uint16_t odd[] = {0, 5, 257, UINT16_MAX};
    unsigned choice = pick(b);
    return choice >= 252 ? odd[choice % 4] : (uint16_t)(1 + choice % 4);
}

/* Names that differ from part to part, but for a few. */
static uint16_t make_name(struct bytes *b, unsigned part, unsigned first)
{
    static const uint16_t odd[] = {1, 8, 13, 9};
    unsigned choice = pick(b);
    return choice >= 250 ? odd[choice % 4] : choice % 2 == 0 ? 0 : (uint16_t)(GPC_FIRST_NAME + (first + 3 * part) % 4);
}

/* The length of a pattern, told wrong now and then: none, a part row, over 64 rows. */
static size_t make_length(struct bytes *b, size_t words)
{
    unsigned choice = pick(b);
    return choice < 252 ? words : choice == 252 ? 0 : choice == 253 ? words - 1 : choice == 254 ? words + 2 : 5 * GPC_MOST_ROWS + 5;
}

/* Half of the queries have one part. Patterns are two repetitions deep, now and then three; those of several parts are small, so that
 * joins have an end. */
void make_query(struct subject *s, struct bytes *b)
{
    static const uint8_t parts[] = {1, 1, 1, 1, 2, 2, 3, 4};
    static struct making m;
    unsigned n = parts[below(b, 8)], first = below(b, 4);
    memset(&m, 0, sizeof m);
    m.b = b;
    s->query[0] = (uint16_t)n;
    s->query_words = 1 + 3 * n;
    for (unsigned i = 0; i < n; i++) {
        m.parts = i;
        m.words = m.recent[0] = m.recent[1] = 0;
        uint16_t restrictor = make_restrictor(b), name = make_name(b, i, first);
        pattern_row(&m, 1 + below(b, n == 1 ? MOST_DEPTH : 2), below(b, 16) == 15 ? 3 : 2);
        m.words = make_length(b, m.words);
        uint16_t head[] = {restrictor, name, (uint16_t)m.words};
        memcpy(s->query + 1 + 3 * i, head, sizeof head);
        memcpy(s->query + s->query_words, m.word, 2 * m.words);
        s->query_words += m.words;
    }
}
