/* The text of the samples, taken apart: lines of words, and names that stand for numbers. Not proved. */
#include "text.h"

#include <stdlib.h>
#include <string.h>

void open_text(struct text *t, const char *file)
{
    memset(t, 0, sizeof *t);
    t->file = file;
    t->in = fopen(file, "r");
    if (t->in == NULL) {
        perror(file);
        exit(2);
    }
}

_Noreturn void fault(const struct text *t, const char *what, const char *word)
{
    fprintf(stderr, "%s:%d: %s: %s\n", t->file, t->line, what, word);
    exit(2);
}

static void split(struct text *t)
{
    t->bytes[strcspn(t->bytes, "#")] = '\0';
    t->words = 0;
    for (char *w = strtok(t->bytes, " \t\r\n"); w != NULL; w = strtok(NULL, " \t\r\n")) {
        if (t->words == LINE_WORDS)
            fault(t, "too many words in the line", w);
        t->word[t->words++] = w;
    }
}

int next_line(struct text *t)
{
    while (fgets(t->bytes, sizeof t->bytes, t->in) != NULL) {
        t->line++;
        if (strlen(t->bytes) == sizeof t->bytes - 1)
            fault(t, "line too long", "");
        split(t);
        if (t->words > 0)
            return 1;
    }
    fclose(t->in);
    return 0;
}

const char *word_at(const struct text *t, int at)
{
    if (at >= t->words)
        fault(t, "a word is missing after", t->word[t->words - 1]);
    return t->word[at];
}

static int find(const struct names *n, const char *name)
{
    for (int i = 0; i < n->count; i++)
        if (strcmp(n->name[i], name) == 0)
            return i;
    return -1;
}

void add_name(const struct text *t, struct names *n, const char *name, uint16_t number)
{
    if (find(n, name) >= 0)
        fault(t, "named twice", name);
    if (n->count == MOST_NAMES || strlen(name) >= NAME_BYTES)
        fault(t, "too many names, or one too long", name);
    if (strpbrk(name, "=\"\\") != NULL)
        fault(t, "a name with a sign that marks or drawings need", name);
    strcpy(n->name[n->count], name);
    n->number[n->count++] = number;
}

void add_line(const struct text *t, struct names *n, int from)
{
    for (int i = 1; i < t->words; i++)
        add_name(t, n, t->word[i], (uint16_t)(from + n->count));
}

uint16_t number_of(const struct text *t, const struct names *n, const char *word)
{
    int at = n == NULL ? -1 : find(n, word);
    if (at >= 0)
        return n->number[at];
    char *end;
    unsigned long number = strtoul(word, &end, 10);
    if (word[0] < '0' || word[0] > '9' || *end != '\0' || number > UINT16_MAX)
        fault(t, "neither a name nor a number up to 65535", word);
    return (uint16_t)number;
}

const char *name_of(const struct names *n, uint16_t number)
{
    for (int i = 0; i < n->count; i++)
        if (n->number[i] == number)
            return n->name[i];
    return NULL;
}
