/* A query and its parts: the checker must say of a query what it says of the parts, each as a query of its own. */
#include <string.h>

#include "fuzz.h"

size_t parts_of(const struct subject *s, struct part part[GPC_MOST_PARTS])
{
    size_t parts = s->query_words == 0 ? 0 : s->query[0], at = 1 + 3 * parts;
    if (parts > GPC_MOST_PARTS || at > s->query_words)
        return 0;
    for (size_t i = 0; i < parts; i++) {
        const uint16_t *head = s->query + 1 + 3 * i;
        if (head[2] > s->query_words - at)
            return 0;
        part[i] = (struct part){head[0], head[1], s->query + at, head[2]};
        at += head[2];
    }
    return at == s->query_words ? parts : 0;
}

void part_alone(const struct subject *s, const struct part *p, uint16_t restrictor, struct subject *alone)
{
    uint16_t head[] = {1, restrictor, 0, (uint16_t)p->count};
    memcpy(alone->image, s->image, s->image_bytes);
    alone->image_bytes = s->image_bytes;
    memcpy(alone->query, head, sizeof head);
    memcpy(alone->query + 4, p->words, 2 * p->count);
    alone->query_words = 4 + p->count;
}

static int is_bad_name(const struct part *part, size_t parts, size_t i)
{
    if (part[i].name == 0)
        return 0;
    for (size_t k = i + 1; k < parts; k++)
        if (part[k].name == part[i].name)
            return 1;
    return part[i].name < GPC_FIRST_NAME || part[i].name > GPC_LAST_NAME;
}

/* 31 and 32, which go by the words alone. */
static uint64_t layout_cause(const struct part *part, size_t parts)
{
    if (parts == 0)
        return GPC_QUERY_LAYOUT;
    for (size_t i = 0; i < parts; i++)
        if (is_bad_name(part, parts, i))
            return GPC_QUERY_NAME;
    return 0;
}

/* Puts the types of one part among those of the parts before; whether a variable of two parts is neither Node nor Edge in both. */
static int put_types(uint16_t *all, const uint16_t *types, uint16_t name)
{
    int clash = 0;
    for (int x = 0; x < GPC_VARIABLES; x++) {
        const uint16_t *type = types + 6 * x;
        if (type[0] == 0)
            continue;
        clash |= all[6 * x] != 0 && (all[6 * x] != type[0] || type[0] > GPC_TYPE_EDGE);
        memcpy(all + 6 * x, type, 12);
    }
    if (name != 0)
        all[6 * (name - 1)] = GPC_TYPE_PATH;
    return clash;
}

void check_parts(const struct subject *s, const struct outcome *o, const uint16_t *types)
{
    static struct subject alone;
    uint16_t all[GPC_TYPE_WORDS] = {0}, own[GPC_TYPE_WORDS];
    struct part part[GPC_MOST_PARTS];
    size_t parts = parts_of(s, part);
    uint64_t cause = layout_cause(part, parts), row = 0;
    int clash = 0;
    for (size_t i = 0; cause == 0 && i < parts; i++) {
        part_alone(s, &part[i], part[i].restrictor, &alone);
        struct outcome told = check_query(&alone, own, GPC_TYPE_WORDS, GPC_REPORT_BYTES);
        cause = told.number[0];
        row = told.number[1];
        clash |= put_types(all, own, part[i].name);
    }
    if (cause == 0 && clash)
        cause = GPC_QUERY_UNTYPED;
    EXPECT(o->number[0] == cause && o->number[1] == row, "not the first cause of the parts");
    EXPECT(cause != 0 || memcmp(all, types, sizeof all) == 0, "types that are not those of the parts");
    for (size_t i = 0; i < parts; i++)
        feature(30, 64 * parts + 16 * i + part[i].name % 16);
}
