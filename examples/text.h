/* The text of the samples, taken apart: lines of words, and names that stand for numbers. Not proved. */
#ifndef TEXT_H
#define TEXT_H

#include <stdint.h>
#include <stdio.h>

enum { LINE_BYTES = 512, LINE_WORDS = 64, NAME_BYTES = 32, MOST_NAMES = 512 };

/* A file read line by line; of the line at hand, its words. */
struct text {
    const char *file;
    FILE *in;
    int line;
    char bytes[LINE_BYTES];
    char *word[LINE_WORDS];
    int words;
};

struct names {
    int count;
    char name[MOST_NAMES][NAME_BYTES];
    uint16_t number[MOST_NAMES];
};

void open_text(struct text *t, const char *file);

/* Goes to the next line that says something and returns 0 where there is none. What follows a # is a remark. */
int next_line(struct text *t);

/* Names file, line and word, and ends the program. */
_Noreturn void fault(const struct text *t, const char *what, const char *word);

/* The word at a place of the line; a line without it is a fault. */
const char *word_at(const struct text *t, int at);

void add_name(const struct text *t, struct names *n, const char *name, uint16_t number);

/* Numbers the words of the line but the first, from a number on, further lines of the same names going on. */
void add_line(const struct text *t, struct names *n, int from);

/* What a word stands for: its number if it is a name, else the number that it writes. Names may be NULL, for none. */
uint16_t number_of(const struct text *t, const struct names *n, const char *word);

/* The first name of a number, NULL where it has none. */
const char *name_of(const struct names *n, uint16_t number);

#endif
