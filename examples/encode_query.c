/* A query, from text to words: the parts, each with its restrictor, its path name and its pattern. Not proved. */
#include <string.h>

#include "encode.h"

static struct part *begin_part(const struct text *t, struct query *q)
{
    if (q->parts == GPC_MOST_PARTS)
        fault(t, "too many", t->word[0]);
    return &q->part[q->parts++];
}

/* The part that a line belongs to. The first may begin without a line of its own. */
static struct part *part_at_hand(const struct text *t, struct query *q)
{
    return q->parts == 0 ? begin_part(t, q) : &q->part[q->parts - 1];
}

/* A part with a path name, or with none. */
static void add_part(const struct text *t, struct query *q)
{
    struct part *p = begin_part(t, q);
    if (t->words > 2)
        fault(t, "a word too many", t->word[2]);
    if (t->words == 2)
        p->name = number_of(t, &q->paths, t->word[1]);
}

void read_query(struct query *q, const struct graph *g, const char *file)
{
    struct text t;
    memset(q, 0, sizeof *q);
    for (open_text(&t, file); next_line(&t);) {
        if (strcmp(t.word[0], "variables") == 0)
            add_line(&t, &q->variables, 1);
        else if (strcmp(t.word[0], "paths") == 0)
            add_line(&t, &q->paths, GPC_FIRST_NAME);
        else if (strcmp(t.word[0], "part") == 0)
            add_part(&t, q);
        else if (strcmp(t.word[0], "restrictor") == 0)
            part_at_hand(&t, q)->restrictor = number_of(&t, NULL, word_at(&t, 1));
        else
            add_row(&t, q, g, part_at_hand(&t, q));
    }
}

void write_pattern(const struct part *p, FILE *out)
{
    for (size_t i = 0; i < p->words; i++)
        write_word(out, p->word[i]);
}

void write_query(const struct query *q, FILE *out)
{
    write_word(out, q->parts);
    for (const struct part *p = q->part; p < q->part + q->parts; p++) {
        write_word(out, p->restrictor);
        write_word(out, p->name);
        write_word(out, p->words);
    }
    for (const struct part *p = q->part; p < q->part + q->parts; p++)
        write_pattern(p, out);
}
