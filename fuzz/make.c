/* Turns the bytes of an input into an image and a query. Bytes are choices of a generator of accepted ones, so that listings run for
 * most inputs; some inputs then damage what was made, and a few are taken as they are. */
#include <string.h>

#include "fuzz.h"

unsigned pick(struct bytes *b)
{
    if (b->left == 0)
        return 0;
    b->left--;
    return *b->at++;
}

unsigned below(struct bytes *b, unsigned n) { return pick(b) % n; }

static void put(struct subject *s, unsigned v)
{
    s->image[s->image_bytes++] = (uint8_t)(v & 255);
    s->image[s->image_bytes++] = (uint8_t)(v >> 8);
}

/* The rows of labels or properties: up to two for each element, rising. Keys start at 0, labels at 1. */
static void put_marks(struct subject *s, struct bytes *b, int valued)
{
    for (unsigned element = 0; element < s->nodes + s->edges; element++) {
        unsigned first = below(b, 6), second = below(b, 12);
        for (unsigned mark = 0; mark < 3; mark++) {
            if (mark != first && (mark != second || second < first))
                continue;
            put(s, element);
            put(s, valued ? mark : mark + 1);
            if (valued)
                put(s, below(b, 2));
        }
    }
}

static void put_edges(struct subject *s, struct bytes *b)
{
    for (unsigned i = 0; i < s->edges; i++) {
        unsigned first = below(b, s->nodes), second = below(b, s->nodes), directed = below(b, 3) != 0;
        int turned = !directed && first > second;
        put(s, turned ? second : first);
        put(s, turned ? first : second);
        put(s, directed);
    }
}

static void set_pair(struct subject *s, unsigned section, size_t from, size_t to)
{
    size_t end = s->image_bytes;
    s->image_bytes = 4 * section;
    put(s, (unsigned)from);
    put(s, (unsigned)(to - from));
    s->image_bytes = end;
}

/* Mostly up to 8 nodes and 12 edges; now and then as many as an image may have, and some over. */
static void make_image(struct subject *s, struct bytes *b)
{
    int large = pick(b) == 255;
    s->nodes = large ? 190 + below(b, 14) : (below(b, 32) + 7) % 9;
    s->edges = s->nodes == 0 ? 0 : large ? 190 + below(b, 14) : below(b, 13);
    size_t from[5] = {16};
    s->image_bytes = 16;
    for (unsigned i = 0, outer = below(b, 3); i < s->nodes; i++, outer += 1 + below(b, 3))
        put(s, outer);
    from[1] = s->image_bytes;
    put_edges(s, b);
    from[2] = s->image_bytes;
    put_marks(s, b, 0);
    from[3] = s->image_bytes;
    put_marks(s, b, 1);
    from[4] = s->image_bytes;
    for (unsigned i = 0; i < 4; i++)
        set_pair(s, i, from[i], from[i + 1]);
}

/* Words changed anywhere, heads and number of parts among them, left off or added. */
static void damage_query(struct subject *s, struct bytes *b)
{
    unsigned way = below(b, 4), at = pick(b), value = pick(b);
    if (way < 2 && s->query_words > 0)
        s->query[(at < 128 ? at % 14 : at) % s->query_words] = (uint16_t)(way == 0 ? value % 24 : value * 257);
    else if (way == 2)
        s->query_words -= s->query_words < at % 7 ? s->query_words : at % 7;
    else if (s->query_words < MOST_QUERY)
        s->query[s->query_words++] = (uint16_t)value;
}

static void damage(struct subject *s, struct bytes *b)
{
    for (unsigned times = 1 + below(b, 3); times > 0; times--) {
        unsigned choice = below(b, 6), at = pick(b), value = pick(b);
        if (choice < 2 && s->image_bytes > 0)
            s->image[(at + 256 * (size_t)(choice & value & 3)) % s->image_bytes] = (uint8_t)value;
        else if (choice == 2)
            s->image_bytes -= s->image_bytes < at ? s->image_bytes : at;
        else
            damage_query(s, b);
    }
}

/* The input as it is: half of it the image, the rest the query. */
static void take_raw(struct subject *s, struct bytes *b)
{
    s->image_bytes = b->left / 2 < MOST_IMAGE ? b->left / 2 : MOST_IMAGE;
    for (size_t i = 0; i < s->image_bytes; i++)
        s->image[i] = (uint8_t)pick(b);
    s->query_words = b->left / 2 < MOST_QUERY ? b->left / 2 : MOST_QUERY;
    for (size_t i = 0; i < s->query_words; i++)
        s->query[i] = (uint16_t)(pick(b) + 256 * pick(b));
}

void make_subject(struct subject *s, struct bytes *b)
{
    unsigned way = pick(b);
    if (way >= 252) {
        take_raw(s, b);
        return;
    }
    make_query(s, b);
    make_image(s, b);
    if (way >= 224)
        damage(s, b);
}
