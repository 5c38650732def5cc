/* The pattern of a part, from text to the rows of a table. Not proved. */
#include <string.h>

#include "encode.h"

/* What the words behind a kind are, letter by letter for p, q, r, s: v a variable, l a label, k a key, p a row, n a number,
 * . nothing. */
static const struct kind {
    const char *name;
    uint16_t number;
    const char *uses;
} kinds[] = {
    {"node", 1, "vl"},    {"forward", 2, "vl"}, {"backward", 3, "vl"}, {"undirected", 4, "vl"}, {"union", 5, "pp"},
    {"concat", 6, "pp"},  {"where", 7, "pp"},   {"repeat", 8, "p.nn"}, {"equals", 16, "vkn"},   {"same", 17, "vkvk"},
    {"and", 18, "pp"},    {"or", 19, "pp"},     {"not", 20, "p"},
};

static const struct kind *kind_of(const struct text *t)
{
    for (size_t i = 0; i < sizeof kinds / sizeof kinds[0]; i++)
        if (strcmp(kinds[i].name, word_at(t, 2)) == 0)
            return &kinds[i];
    fault(t, "no kind of row", t->word[2]);
}

/* A dash stands for no variable and no label, a star for no bound. */
static uint16_t use(const struct text *t, const struct query *q, const struct graph *g, const struct part *p, char letter,
                    const char *word)
{
    const struct names *names = letter == 'v' ? &q->variables : letter == 'l' ? &g->labels : letter == 'k' ? &g->keys
                              : letter == 'p' ? &p->rows : NULL;
    if ((letter == 'v' || letter == 'l') && strcmp(word, "-") == 0)
        return 0;
    if (letter == 'n' && strcmp(word, "*") == 0)
        return UINT16_MAX;
    return number_of(t, names, word);
}

/* A row: its name, =, its kind, and what the kind uses. */
void add_row(const struct text *t, const struct query *q, const struct graph *g, struct part *p)
{
    if (strcmp(word_at(t, 1), "=") != 0)
        fault(t, "no = after", t->word[0]);
    const struct kind *k = kind_of(t);
    if (p->words == MOST_TABLE_WORDS)
        fault(t, "too many rows", t->word[0]);
    uint16_t *row = p->word + p->words;
    int at = 3;
    row[0] = k->number;
    for (int i = 0; k->uses[i] != '\0'; i++)
        if (k->uses[i] != '.')
            row[1 + i] = use(t, q, g, p, k->uses[i], word_at(t, at++));
    if (at != t->words)
        fault(t, "a word too many", word_at(t, at));
    add_name(t, &p->rows, t->word[0], (uint16_t)(p->words / 5));
    p->words += 5;
}
