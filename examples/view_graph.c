/* A graph image as text for a person, and for Graphviz. Not proved. */
#include <stdio.h>

#include "view.h"

static uint16_t word(const struct view *v, size_t at) { return (uint16_t)(v->image.at[at] | v->image.at[at + 1] << 8); }

static size_t row_bytes(enum section s) { return s == NODES ? 2 : s == LABELS ? 4 : 6; }

/* The directory holds offset and length of each section. */
size_t rows(const struct view *v, enum section s) { return word(v, 4 * s + 2) / row_bytes(s); }

uint16_t cell(const struct view *v, enum section s, size_t row, size_t column)
{
    return word(v, word(v, 4 * s) + row * row_bytes(s) + 2 * column);
}

void print_name(const struct names *n, uint16_t number)
{
    const char *name = name_of(n, number);
    if (name != NULL)
        printf("%s", name);
    else
        printf("%d", number);
}

/* The labels and properties of an element: nodes are numbered first, then edges. */
static void print_marks(const struct view *v, size_t element)
{
    for (size_t i = 0; i < rows(v, LABELS); i++) {
        if (cell(v, LABELS, i, 0) != element)
            continue;
        printf(" :");
        print_name(&v->labels, cell(v, LABELS, i, 1));
    }
    for (size_t i = 0; i < rows(v, PROPERTIES); i++) {
        if (cell(v, PROPERTIES, i, 0) != element)
            continue;
        printf(" ");
        print_name(&v->keys, cell(v, PROPERTIES, i, 1));
        printf("=%d", cell(v, PROPERTIES, i, 2));
    }
}

static uint16_t end_of(const struct view *v, size_t edge, size_t end) { return cell(v, NODES, cell(v, EDGES, edge, end), 0); }

void print_graph(const struct view *v)
{
    for (size_t i = 0; i < rows(v, NODES); i++) {
        printf("node %d", cell(v, NODES, i, 0));
        print_marks(v, i);
        printf("\n");
    }
    for (size_t i = 0; i < rows(v, EDGES); i++) {
        printf("edge e%zu: %d %s %d", i, end_of(v, i, 0), cell(v, EDGES, i, 2) ? "->" : "--", end_of(v, i, 1));
        print_marks(v, rows(v, NODES) + i);
        printf("\n");
    }
}

/* Whether a path goes through a node (parity 0) or an edge (parity 1): they alternate behind the number of edges. */
static int on_path(const uint16_t *path, size_t parity, size_t number)
{
    for (size_t i = 1 + parity; i < path_words(path); i += 2)
        if (path[i] == number)
            return 1;
    return 0;
}

static const char *style(size_t parts, const uint16_t *paths, size_t parity, size_t number)
{
    for (size_t i = 0; i < parts; i++)
        if (on_path(paths + paths_words(i, paths), parity, number))
            return " color=red penwidth=3";
    return "";
}

/* A drawing has one sort of arrow in all; an undirected edge is one without a head. */
void print_dot(const struct view *v, size_t parts, const uint16_t *paths)
{
    printf("digraph record {\n");
    for (size_t i = 0; i < rows(v, NODES); i++) {
        printf("  n%zu [label=\"%d", i, cell(v, NODES, i, 0));
        print_marks(v, i);
        printf("\"%s];\n", style(parts, paths, 0, i));
    }
    for (size_t i = 0; i < rows(v, EDGES); i++) {
        printf("  n%d -> n%d [label=\"e%zu", cell(v, EDGES, i, 0), cell(v, EDGES, i, 1), i);
        print_marks(v, rows(v, NODES) + i);
        printf("\"%s%s];\n", cell(v, EDGES, i, 2) ? "" : " dir=none", style(parts, paths, 1, i));
    }
    printf("}\n");
}
