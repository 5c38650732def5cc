/* A record, from text to a graph image. Not proved. */
#include <stdlib.h>
#include <string.h>

#include "encode.h"

/* Counts one more row, where there is room for it. */
static size_t one_more(const struct text *t, size_t *count, size_t most)
{
    if (*count == most)
        fault(t, "too many", t->word[0]);
    return (*count)++;
}

/* The words from one on are marks of an element: a label, or a key, = and a value. */
static void add_marks(const struct text *t, struct graph *g, int from, int of_edge, size_t at)
{
    for (int i = from; i < t->words; i++) {
        struct mark m = {of_edge, (uint16_t)at, 0, 0};
        char *equals = strchr(t->word[i], '=');
        if (equals == NULL) {
            m.name = number_of(t, &g->labels, t->word[i]);
            g->label[one_more(t, &g->label_count, GPC_MOST_LABELS)] = m;
        } else {
            *equals = '\0';
            m.name = number_of(t, &g->keys, t->word[i]);
            m.value = number_of(t, NULL, equals + 1);
            g->property[one_more(t, &g->property_count, GPC_MOST_PROPERTIES)] = m;
        }
    }
}

static void add_node(const struct text *t, struct graph *g)
{
    size_t at = one_more(t, &g->node_count, GPC_MOST_NODES);
    g->outer[at] = number_of(t, NULL, word_at(t, 1));
    add_name(t, &g->nodes, word_at(t, 2), (uint16_t)at);
    add_marks(t, g, 3, 0, at);
}

/* An undirected edge names its lower end first. */
static void add_edge(const struct text *t, struct graph *g)
{
    size_t at = one_more(t, &g->edge_count, GPC_MOST_EDGES);
    uint16_t first = number_of(t, &g->nodes, word_at(t, 1)), second = number_of(t, &g->nodes, word_at(t, 3));
    int directed = strcmp(word_at(t, 2), "->") == 0;
    if (!directed && strcmp(t->word[2], "--") != 0)
        fault(t, "neither -> nor --", t->word[2]);
    int swapped = !directed && first > second;
    g->edge[at][0] = swapped ? second : first;
    g->edge[at][1] = swapped ? first : second;
    g->edge[at][2] = (uint16_t)directed;
    add_marks(t, g, 4, 1, at);
}

static void add_to_graph(const struct text *t, struct graph *g)
{
    if (strcmp(t->word[0], "labels") == 0)
        add_line(t, &g->labels, 1);
    else if (strcmp(t->word[0], "keys") == 0)
        add_line(t, &g->keys, 1);
    else if (strcmp(t->word[0], "node") == 0)
        add_node(t, g);
    else if (strcmp(t->word[0], "edge") == 0)
        add_edge(t, g);
    else
        fault(t, "neither labels, keys, node nor edge", t->word[0]);
}

static int by_element(const void *a, const void *b)
{
    const struct mark *m = a, *n = b;
    if (m->of_edge != n->of_edge)
        return m->of_edge - n->of_edge;
    return m->at != n->at ? m->at - n->at : m->name - n->name;
}

void read_graph(struct graph *g, const char *file)
{
    struct text t;
    memset(g, 0, sizeof *g);
    for (open_text(&t, file); next_line(&t);)
        add_to_graph(&t, g);
    qsort(g->label, g->label_count, sizeof *g->label, by_element);
    qsort(g->property, g->property_count, sizeof *g->property, by_element);
}

void write_word(FILE *out, size_t word)
{
    fputc((int)(word & 255), out);
    fputc((int)(word >> 8 & 255), out);
}

static void write_marks(const struct graph *g, const struct mark *m, size_t count, int valued, FILE *out)
{
    for (size_t i = 0; i < count; i++) {
        write_word(out, (m[i].of_edge ? g->node_count : 0) + m[i].at);
        write_word(out, m[i].name);
        if (valued)
            write_word(out, m[i].value);
    }
}

static void sizes(const struct graph *g, size_t size[4])
{
    size[0] = 2 * g->node_count;
    size[1] = 6 * g->edge_count;
    size[2] = 4 * g->label_count;
    size[3] = 6 * g->property_count;
}

size_t image_bytes(const struct graph *g)
{
    size_t size[4];
    sizes(g, size);
    return 16 + size[0] + size[1] + size[2] + size[3];
}

void write_image(const struct graph *g, FILE *out)
{
    size_t size[4], offset = 16;
    sizes(g, size);
    for (int i = 0; i < 4; offset += size[i], i++) {
        write_word(out, offset);
        write_word(out, size[i]);
    }
    for (size_t i = 0; i < g->node_count; i++)
        write_word(out, g->outer[i]);
    for (size_t i = 0; i < 3 * g->edge_count; i++)
        write_word(out, g->edge[i / 3][i % 3]);
    write_marks(g, g->label, g->label_count, 0, out);
    write_marks(g, g->property, g->property_count, 1, out);
}
