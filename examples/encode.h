/* A record and a query, from text to what the library is lent. Not proved; samples/README.md describes the text. */
#ifndef ENCODE_H
#define ENCODE_H

#include <stddef.h>

#include "gpc.h"
#include "text.h"

enum { MOST_TABLE_WORDS = 5 * GPC_MOST_ROWS };

/* A label or a property of an element. Edges are numbered behind the nodes, of which more may follow, so the two are kept apart. */
struct mark {
    int of_edge;
    uint16_t at, name, value;
};

/* The library's own limits, so that a text that is too long is told here; so for the parts of a query and their rows. */
struct graph {
    struct names labels, keys, nodes;
    size_t node_count, edge_count, label_count, property_count;
    uint16_t outer[GPC_MOST_NODES];
    uint16_t edge[GPC_MOST_EDGES][3];
    struct mark label[GPC_MOST_LABELS];
    struct mark property[GPC_MOST_PROPERTIES];
};

/* A part: its restrictor, its path name (0 for none) and the table of its pattern. */
struct part {
    struct names rows;
    uint16_t restrictor, name;
    size_t words;
    uint16_t word[MOST_TABLE_WORDS];
};

struct query {
    struct names variables, paths;
    size_t parts;
    struct part part[GPC_MOST_PARTS];
};

void read_graph(struct graph *g, const char *file);
size_t image_bytes(const struct graph *g);
void write_image(const struct graph *g, FILE *out);

/* Adds the row in a line of text to a part of a query. Labels and keys go by the names of the graph, variables by the query's. */
void add_row(const struct text *t, const struct query *q, const struct graph *g, struct part *p);

void read_query(struct query *q, const struct graph *g, const char *file);
void write_pattern(const struct part *p, FILE *out);
void write_query(const struct query *q, FILE *out);

void write_word(FILE *out, size_t word);

#endif
