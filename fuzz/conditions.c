/* Conditions, by their three truth values. Over a part of the query are put conditions that are made of two, A and B, by not, and, or:
 * what the two and their negations keep tells what the others must keep, and the image tells what an equality keeps. The query itself is
 * listed with its own conditions written otherwise. */
#include <string.h>

#include "fuzz.h"

/* A truth value is 1 true, 0 unknown, -1 false: so not changes the sign, and is the lesser of two, or the greater. */
enum { TRUE = 1, UNKNOWN = 0, FALSE = -1 };

/* Conditions made of A and B, the connective first. A and B have seven rows at most, so none puts more than MOST_ADDED over a part. */
static const char *const shapes[] = {"!!A", "&AB", "!&AB", "|AB", "!|AB", "&A!A", "|A!A"};
enum { SHAPES = sizeof shapes / sizeof shapes[0], MOST_ADDED = 20 };

/* The part alone and its listing; the variables that conditions name; the bytes that A and B are made from, each time they are put; and
 * the truth values of A and B for each record. */
static struct {
    struct subject subject;
    uint16_t types[GPC_TYPE_WORDS];
    struct listing all;
    unsigned variable[2];
    struct bytes from[2];
    int8_t truth[2][MOST_RECORDS];
} over;

/* Puts a row behind the last one of a part, which is the last part that has rows. */
static unsigned put_row(struct subject *s, size_t part, unsigned kind, unsigned p, unsigned q, unsigned r, unsigned t)
{
    uint16_t row[] = {(uint16_t)kind, (uint16_t)p, (uint16_t)q, (uint16_t)r, (uint16_t)t}, *count = &s->query[3 + 3 * part];
    memcpy(s->query + s->query_words, row, sizeof row);
    s->query_words += 5;
    *count = (uint16_t)(*count + 5);
    return *count / 5u - 1;
}

static unsigned put_not(struct subject *s, size_t part, unsigned row) { return put_row(s, part, GPC_KIND_NOT, row, 0, 0, 0); }

static unsigned put_shape(struct subject *s, const char **shape)
{
    char c = *(*shape)++;
    if (c == 'A' || c == 'B') {
        struct bytes from = over.from[c - 'A'];
        return add_condition(s, &from, over.variable);
    }
    unsigned p = put_shape(s, shape);
    if (c == '!')
        return put_not(s, 0, p);
    unsigned q = put_shape(s, shape);
    return put_row(s, 0, c == '&' ? GPC_KIND_AND : GPC_KIND_OR, p, q, 0, 0);
}

static int truth_of(const char **shape, int a, int b)
{
    char c = *(*shape)++;
    if (c == 'A' || c == 'B')
        return c == 'A' ? a : b;
    int p = truth_of(shape, a, b);
    if (c == '!')
        return -p;
    int q = truth_of(shape, a, b);
    return (c == '&') == (p < q) ? p : q;
}

/* Lists the part under a condition, and tells which of its records are kept. */
static void list_under(const char *shape, uint8_t *kept)
{
    static struct subject s;
    static struct listing l;
    size_t k = 0;
    s = over.subject;
    unsigned whole = s.query[3] / 5u - 1, condition = put_shape(&s, &shape);
    put_row(&s, 0, GPC_KIND_CONDITIONED, whole, condition, 0, 0);
    list(&s, over.types, &l);
    for (size_t i = 0; i < over.all.records; i++) {
        kept[i] = k < l.records && order(words_of(&over.all, i), length_of(&over.all, i), words_of(&l, k), length_of(&l, k)) == 0;
        k += kept[i];
    }
    EXPECT(k == l.records && l.complete, "a record under a condition that is none without it");
}

/* True is what the condition keeps, false what its negation keeps, unknown the rest. */
static void learn_truths(char name)
{
    static uint8_t kept[MOST_RECORDS], negated[MOST_RECORDS];
    const char shape[] = {'!', name, '\0'};
    list_under(shape + 1, kept);
    list_under(shape, negated);
    for (size_t i = 0; i < over.all.records; i++) {
        EXPECT(!kept[i] || !negated[i], "a record under a condition and under its negation");
        over.truth[name - 'A'][i] = (int8_t)(kept[i] - negated[i]);
        counts.truths[1 + kept[i] - negated[i]]++;
    }
    counts.conditions++;
}

static unsigned number_at(const struct subject *s, size_t at) { return s->image[at] + 256u * s->image[at + 1]; }

/* The value of a property, -1 where it is absent. */
static int property_of(const struct subject *s, unsigned element, unsigned key)
{
    for (size_t at = number_at(s, 12); at < s->image_bytes; at += 6)
        if (number_at(s, at) == element && number_at(s, at + 2) == key)
            return (int)number_at(s, at + 4);
    return -1;
}

/* The element that a variable is in a record of the part, a node or an edge. */
static unsigned element_of(const uint16_t *rec, unsigned x)
{
    const uint16_t *type = over.types;
    size_t at = path_words(rec, SIZE_MAX);
    for (; x > 1; x--, type += 6)
        at += type[0] == 0 ? 0 : value_words(type, rec + at, SIZE_MAX);
    return rec[at] + (type[0] == GPC_TYPE_EDGE ? number_at(&over.subject, 2) / 2 : 0);
}

static int truth_in_image(const uint16_t *row, const uint16_t *rec)
{
    int a = property_of(&over.subject, element_of(rec, row[1]), row[2]);
    int b = row[0] == GPC_KIND_CONSTANT ? row[3] : property_of(&over.subject, element_of(rec, row[3]), row[4]);
    return a < 0 || b < 0 ? UNKNOWN : a == b ? TRUE : FALSE;
}

/* Where A or B is an equality, its truth values are those that the image tells. */
static void check_equality(char name)
{
    static struct subject s;
    const char shape[] = {name, '\0'}, *at = shape;
    s = over.subject;
    const uint16_t *row = s.query + 4 + 5 * put_shape(&s, &at);
    for (size_t i = 0; row[0] <= GPC_KIND_EQUAL && i < over.all.records; i++)
        EXPECT(over.truth[name - 'A'][i] == truth_in_image(row, words_of(&over.all, i)), "an equality that the image tells otherwise");
}

static void check_shape(unsigned number)
{
    static uint8_t kept[MOST_RECORDS];
    unsigned met = 0;
    list_under(shapes[number], kept);
    for (size_t i = 0; i < over.all.records; i++) {
        const char *shape = shapes[number];
        int truth = truth_of(&shape, over.truth[0][i], over.truth[1][i]);
        EXPECT(kept[i] == (truth == TRUE), "a condition that its parts tell otherwise");
        met |= 1u << (1 + truth);
    }
    feature(50, 8 * number + met);
}

/* Two variables, or one twice, that are a node or an edge; whether there are any. */
static int choose_variables(struct bytes *b)
{
    unsigned single[GPC_VARIABLES], many = 0;
    for (unsigned x = 1; x <= GPC_VARIABLES; x++)
        if (over.types[6 * (x - 1)] == GPC_TYPE_NODE || over.types[6 * (x - 1)] == GPC_TYPE_EDGE)
            single[many++] = x;
    for (int i = 0; i < 2 && many > 0; i++)
        over.variable[i] = single[below(b, many)];
    return many > 0;
}

/* A part under conditions, but not by the shortest of its paths: under a condition they need not be those without it. */
static void check_over(const struct subject *s, struct bytes *b)
{
    static struct subject unused;
    struct part part[GPC_MOST_PARTS];
    const struct part *p = &part[below(b, (unsigned)parts_of(s, part))];
    part_alone(s, p, p->restrictor > GPC_SIMPLE ? p->restrictor - 2 : p->restrictor, &over.subject);
    check_query(&over.subject, over.types, GPC_TYPE_WORDS, GPC_REPORT_BYTES);
    if (p->count > 5 * (GPC_MOST_ROWS - MOST_ADDED) || !choose_variables(b))
        return;
    list(&over.subject, over.types, &over.all);
    if (!over.all.complete || over.all.records == 0)
        return;
    unsigned number = below(b, SHAPES);
    for (int i = 0; i < 2; i++) {
        over.from[i] = *b;
        unused = over.subject;
        add_condition(&unused, b, over.variable); /* past the bytes of this one, so that B is another than A */
        learn_truths((char)('A' + i));
        check_equality((char)('A' + i));
    }
    check_shape(number);
}

/* A query that is written otherwise, part by part: by De Morgan's laws, with each condition negated twice; or with a key that no element
 * has in each equality, so that each condition is unknown; or so, and negated. */
struct writing {
    enum { OTHERWISE, UNDECIDED, UNDECIDED_NEGATED } way;
    unsigned key;
    struct subject out;
    size_t part;
    unsigned to[GPC_MOST_ROWS];
};

static unsigned write_row(struct writing *w, const uint16_t *row)
{
    unsigned kind = row[0], p = row[1], q = row[2], t = row[4];
    int connective = kind == GPC_KIND_AND || kind == GPC_KIND_OR, equality = kind == GPC_KIND_CONSTANT || kind == GPC_KIND_EQUAL;
    if (kind > GPC_KIND_UNDIRECTED && !equality)
        p = w->to[p];
    if (connective || (kind >= GPC_KIND_UNION && kind <= GPC_KIND_CONDITIONED))
        q = w->to[q];
    if (connective && w->way == OTHERWISE) {
        p = put_not(&w->out, w->part, p);
        q = put_not(&w->out, w->part, q);
        return put_not(&w->out, w->part, put_row(&w->out, w->part, GPC_KIND_AND + GPC_KIND_OR - kind, p, q, 0, 0));
    }
    for (int times = w->way == OTHERWISE ? 2 : w->way == UNDECIDED ? 0 : 1; kind == GPC_KIND_CONDITIONED && times > 0; times--)
        q = put_not(&w->out, w->part, q);
    if (equality && w->way != OTHERWISE) {
        q = w->key;
        t = kind == GPC_KIND_EQUAL ? w->key : 0;
    }
    return put_row(&w->out, w->part, kind, p, q, row[3], t);
}

/* Whether there is room for it: a row becomes four at most. */
static int write_query(struct writing *w, const struct subject *s)
{
    struct part part[GPC_MOST_PARTS];
    size_t parts = parts_of(s, part);
    w->out = *s;
    w->out.query_words = 1 + 3 * parts;
    for (w->part = 0; w->part < parts; w->part++) {
        const struct part *p = &part[w->part];
        uint16_t *count = &w->out.query[3 + 3 * w->part];
        *count = 0;
        for (size_t row = 0; 5 * row < p->count; row++) {
            if (*count > 5 * (GPC_MOST_ROWS - 4))
                return 0;
            w->to[row] = write_row(w, p->words + 5 * row);
        }
    }
    return 1;
}

static int same(const struct listing *a, const struct listing *b)
{
    return a->complete == b->complete && order(a->words, a->ends[a->records], b->words, b->ends[b->records]) == 0;
}

static int has_condition(const struct subject *s)
{
    struct part part[GPC_MOST_PARTS];
    for (size_t i = parts_of(s, part); i > 0; i--)
        for (size_t at = 0; at < part[i - 1].count; at += 5)
            if (part[i - 1].words[at] == GPC_KIND_CONDITIONED)
                return 1;
    return 0;
}

/* The least key that no element has. */
static unsigned absent_key(const struct subject *s)
{
    unsigned key = 0;
    for (size_t at = number_at(s, 12); at < s->image_bytes;) {
        int met = number_at(s, at + 2) == key;
        key += (unsigned)met;
        at = met ? number_at(s, 12) : at + 6;
    }
    return key;
}

/* The query with its own conditions written otherwise, wherever in the patterns they stand. */
static void check_written(const struct subject *s, const uint16_t *types, const struct listing *l)
{
    static struct writing w;
    static struct listing other, negated;
    w.way = OTHERWISE;
    if (!has_condition(s) || !write_query(&w, s))
        return;
    list(&w.out, types, &other);
    EXPECT(same(l, &other), "conditions that list otherwise when they are written otherwise");
    w.key = absent_key(s);
    w.way = UNDECIDED;
    write_query(&w, s);
    list(&w.out, types, &other);
    w.way = UNDECIDED_NEGATED;
    write_query(&w, s);
    list(&w.out, types, &negated);
    EXPECT(same(&other, &negated), "unknown conditions that list otherwise when they are negated");
    counts.written++;
    feature(51, 4 * (l->records > 0) + 2 * (other.records > 0) + (other.records == l->records));
}

void check_conditions(const struct subject *s, const uint16_t *types, const struct listing *l, struct bytes *b)
{
    check_over(s, b);
    check_written(s, types, l);
}
