/* What every host needs beside the library: files, the reported numbers, and a record taken apart by the types. Not proved. */
#include "record.h"

#include <inttypes.h>
#include <stdio.h>
#include <stdlib.h>

static _Noreturn void die(const char *what)
{
    perror(what);
    exit(2);
}

struct bytes read_bytes(const char *file)
{
    struct bytes b = {NULL, 0};
    size_t room = 0, got;
    FILE *in = fopen(file, "rb");
    if (in == NULL)
        die(file);
    do {
        room += 4096;
        b.at = realloc(b.at, room);
        if (b.at == NULL)
            die(file);
        got = fread(b.at + b.count, 1, room - b.count, in);
        b.count += got;
    } while (got > 0);
    if (ferror(in))
        die(file);
    fclose(in);
    return b;
}

struct words read_words(const char *file)
{
    struct bytes b = read_bytes(file);
    struct words w = {NULL, 0};
    resize(&w, b.count / 2);
    for (size_t i = 0; i < w.count; i++)
        w.at[i] = (uint16_t)(b.at[2 * i] | b.at[2 * i + 1] << 8);
    free(b.at);
    return w;
}

/* One word more than asked for, since no memory may come as NULL. */
void resize(struct words *w, size_t count)
{
    w->at = realloc(w->at, (count + 1) * sizeof *w->at);
    if (w->at == NULL)
        die("memory");
    w->count = count;
}

uint64_t reported(const uint8_t *report, int i)
{
    uint64_t number = 0;
    for (int k = 7; k >= 0; k--)
        number = number << 8 | report[8 * i + k];
    return number;
}

void stop_if_refused(const uint8_t *report)
{
    if (reported(report, GPC_REPORT_REFUSAL) == GPC_ACCEPTED)
        return;
    printf("refused %" PRIu64 " row %" PRIu64 "\n", reported(report, GPC_REPORT_REFUSAL), reported(report, GPC_REPORT_ROW));
    exit(1);
}

const uint16_t *type_of(const uint16_t *types, int variable) { return types + TYPE_DEPTH * (variable - 1); }

/* The number of edges, the edges, and one node more. */
size_t path_words(const uint16_t *path) { return 2 + 2 * (size_t)path[0]; }

size_t paths_words(size_t parts, const uint16_t *paths)
{
    size_t at = 0;
    for (; parts > 0; parts--)
        at += path_words(paths + at);
    return at;
}

/* The count of a group, then for each factor its path and the value in it. */
static size_t group_words(const uint16_t *inner, const uint16_t *group)
{
    size_t at = 1;
    for (uint16_t factors = group[0]; factors > 0; factors--) {
        at += path_words(group + at);
        at += value_words(inner, group + at);
    }
    return at;
}

size_t value_words(const uint16_t *type, const uint16_t *value)
{
    switch (type[0]) {
    case GPC_TYPE_MAYBE:
        return value[0] == GPC_NOTHING ? 1 : value_words(type + 1, value);
    case GPC_TYPE_GROUP:
        return group_words(type + 1, value);
    case GPC_TYPE_PATH:
        return path_words(value);
    default:
        return 1;
    }
}

size_t record_words(const uint16_t *types, size_t parts, const uint16_t *record)
{
    size_t at = paths_words(parts, record);
    for (int v = 1; v <= GPC_LAST_NAME; v++)
        if (type_of(types, v)[0] != 0)
            at += value_words(type_of(types, v), record + at);
    return at;
}
