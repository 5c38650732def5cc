/* A record as text for a person: its paths, the values of its variables, and its named paths. Not proved. */
#include <stdio.h>

#include "view.h"

static void print_node(const struct view *v, uint16_t node) { printf("%d", cell(v, NODES, node, 0)); }

/* An edge as the path walks it: forward, backward, or one without a direction. */
static void print_step(const struct view *v, uint16_t from, uint16_t edge)
{
    if (cell(v, EDGES, edge, 2) == 0)
        printf(" --e%d-- ", edge);
    else
        printf(cell(v, EDGES, edge, 0) == from ? " -e%d-> " : " <-e%d- ", edge);
}

static void print_path(const struct view *v, const uint16_t *path)
{
    print_node(v, path[1]);
    for (size_t i = 2; i < path_words(path); i += 2) {
        print_step(v, path[i - 1], path[i]);
        print_node(v, path[i + 1]);
    }
}

static void print_line(const struct view *v, const uint16_t *path)
{
    print_path(v, path);
    printf("\n");
}

static void print_value(const struct view *v, const uint16_t *type, const uint16_t *value, int depth);

/* Each factor on a line: its path, and the value in it. */
static void print_group(const struct view *v, const uint16_t *inner, const uint16_t *group, int depth)
{
    size_t at = 1;
    printf("group of %d\n", group[0]);
    for (uint16_t i = 0; i < group[0]; i++) {
        printf("%*s", 2 * depth + 2, "");
        print_path(v, group + at);
        printf(": ");
        at += path_words(group + at);
        print_value(v, inner, group + at, depth + 1);
        at += value_words(inner, group + at);
    }
}

static void print_value(const struct view *v, const uint16_t *type, const uint16_t *value, int depth)
{
    if (type[0] == GPC_TYPE_MAYBE && value[0] == GPC_NOTHING)
        printf("Nothing\n");
    else if (type[0] == GPC_TYPE_MAYBE)
        print_value(v, type + 1, value, depth);
    else if (type[0] == GPC_TYPE_GROUP)
        print_group(v, type + 1, value, depth);
    else if (type[0] == GPC_TYPE_PATH)
        print_line(v, value);
    else if (type[0] == GPC_TYPE_EDGE)
        printf("e%d\n", value[0]);
    else
        printf("%d\n", cell(v, NODES, value[0], 0));
}

static void print_paths(const struct view *v, size_t parts, const uint16_t *paths, int indent)
{
    for (size_t i = 0; i < parts; i++) {
        printf("%*s", i == 0 ? 0 : indent, "");
        print_line(v, paths + paths_words(i, paths));
    }
}

void print_answer(const struct view *v, const uint16_t *types, size_t parts, const uint16_t *record, int indent)
{
    size_t at = paths_words(parts, record);
    print_paths(v, parts, record, indent);
    for (int x = 1; x <= GPC_LAST_NAME; x++) {
        if (type_of(types, x)[0] == 0)
            continue;
        printf("  ");
        print_name(x < GPC_FIRST_NAME ? &v->variables : &v->paths, (uint16_t)x);
        printf(": ");
        print_value(v, type_of(types, x), record + at, 1);
        at += value_words(type_of(types, x), record + at);
    }
}
