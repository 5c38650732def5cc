/* A graph image and its records as text for a person, and for Graphviz. Not proved. */
#ifndef VIEW_H
#define VIEW_H

#include "record.h"
#include "text.h"

/* An image that the library accepted, and names for labels, keys, variables and paths, where there are any. */
struct view {
    struct bytes image;
    struct names labels, keys, variables, paths;
};

enum section { NODES, EDGES, LABELS, PROPERTIES };

/* How many rows a section has, and the word at a place of one of its rows. */
size_t rows(const struct view *v, enum section s);
uint16_t cell(const struct view *v, enum section s, size_t row, size_t column);

/* The name of a number, or the number where it has none. */
void print_name(const struct names *n, uint16_t number);

/* Nodes and edges, each on a line. */
void print_graph(const struct view *v);

/* The paths of a record, each on a line, all but the first indented; then the values of its variables, and its named paths. */
void print_answer(const struct view *v, const uint16_t *types, size_t parts, const uint16_t *record, int indent);

/* The graph for Graphviz, with the paths of some parts marked. */
void print_dot(const struct view *v, size_t parts, const uint16_t *paths);

#endif
