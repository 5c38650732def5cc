/* Compares the exported operations with the enumerator's cases, every byte and word.
 *
 *     enumerator SORT SEED COUNT | compare SORT
 *
 * The text of a case is described in tests/enumerator/README.md. Each buffer stands between guard bytes, which must be as
 * they were afterwards, and so must every buffer that a call may only read. A buffer of length 0 is lent as a null pointer
 * in every other case. The last line is 'N passed, M failed', a case being one test: it passes if each of its calls does.
 */
#include <stdint.h>
#include <stdio.h>
#include <stdlib.h>
#include <string.h>

#include "../../include/gpc.h"

enum { GUARD = 64, MOST_FIELDS = 16, MOST_SHOWN = 20 };

/* A field of a case: a number, or items of one or two bytes between two guards. */
struct field {
    char name[32];
    uint64_t number;
    size_t width;
    size_t items;
    uint8_t *memory;
};

/* The fields of one call. The first ones, as many as are fixed, serve every call of the case; there may be none. */
struct sample {
    size_t calls;
    size_t count;
    size_t fixed;
    struct field fields[MOST_FIELDS];
};

static void die(const char *what) {
    fprintf(stderr, "compare: %s\n", what);
    exit(2);
}

static int is_number(const char *name) { return strcmp(name, "result") == 0; }

static size_t width_of(const char *name) {
    return strncmp(name, "image", 5) == 0 || strncmp(name, "sitting", 7) == 0 || strncmp(name, "report", 6) == 0 ? 1 : 2;
}

static uint8_t guard_byte(size_t i) { return (uint8_t)(0xa5 ^ (i * 29)); }

static uint8_t *guarded(size_t bytes) {
    uint8_t *memory = malloc(bytes + 2 * GUARD);
    if (memory == NULL) die("no memory");
    for (size_t i = 0; i < GUARD; i++) {
        memory[i] = guard_byte(i);
        memory[GUARD + bytes + i] = guard_byte(i);
    }
    return memory;
}

static int guards_hold(const struct field *f) {
    size_t bytes = f->items * f->width;
    for (size_t i = 0; i < GUARD; i++)
        if (f->memory[i] != guard_byte(i) || f->memory[GUARD + bytes + i] != guard_byte(i)) return 0;
    return 1;
}

static uint8_t *contents(const struct field *f) { return f->memory + GUARD; }

static unsigned hex(const char *at, size_t digits) {
    unsigned value = 0;
    for (size_t i = 0; i < digits; i++) {
        char c = at[i];
        value = value * 16 + (unsigned)(c <= '9' ? c - '0' : c - 'a' + 10);
    }
    return value;
}

static void put(struct field *f, size_t at, unsigned value) {
    uint8_t *to = contents(f) + at * f->width;
    if (f->width == 1) {
        *to = (uint8_t)value;
    } else {
        uint16_t word = (uint16_t)value;
        memcpy(to, &word, 2);
    }
}

/* One pass over the pieces of a dump: counts the items, and stores them where store is not 0. */
static size_t pieces(struct field *f, const char *text, int store) {
    size_t digits = 2 * f->width, items = 0;
    while (*text != '\0') {
        size_t length = strcspn(text, " ");
        const char *star = memchr(text, '*', length);
        if (star != NULL) {
            size_t times = strtoull(star + 1, NULL, 10);
            for (size_t i = 0; store && i < times; i++) put(f, items + i, hex(text, digits));
            items += times;
        } else {
            for (size_t i = 0; i < length / digits; i++, items++)
                if (store) put(f, items, hex(text + i * digits, digits));
        }
        text += length;
        text += *text == ' ';
    }
    return items;
}

static void take_field(struct sample *s, char *line) {
    char *value = strchr(line, ' ');
    if (value != NULL) *value++ = '\0';
    else value = line + strlen(line);
    if (strcmp(line, "note") == 0) return;
    if (s->count == MOST_FIELDS) die("too many fields");
    struct field *f = &s->fields[s->count++];
    memset(f, 0, sizeof *f);
    snprintf(f->name, sizeof f->name, "%s", line);
    if (is_number(f->name)) {
        f->number = strtoull(value, NULL, 10);
        return;
    }
    f->width = width_of(f->name);
    f->items = pieces(f, value, 0);
    f->memory = guarded(f->items * f->width);
    pieces(f, value, 1);
}

/* Drops the fields from one on. */
static void forget(struct sample *s, size_t from) {
    for (size_t i = from; i < s->count; i++) free(s->fields[i].memory);
    s->count = from;
}

static struct field *find(struct sample *s, const char *name) {
    for (size_t i = 0; i < s->count; i++)
        if (strcmp(s->fields[i].name, name) == 0) return &s->fields[i];
    return NULL;
}

static struct field *field(struct sample *s, const char *name) {
    struct field *f = find(s, name);
    if (f == NULL) die(name);
    return f;
}

/* What a call is lent: a null pointer for nothing, where null is asked for. */
static void *lent(struct sample *s, const char *name, int null) {
    struct field *f = field(s, name);
    return f->items == 0 && null ? NULL : contents(f);
}

static size_t items(struct sample *s, const char *name) { return field(s, name)->items; }

/* The operation is told by what the case lends. */
static uint64_t call(struct sample *s, int null) {
    if (find(s, "types") != NULL)
        return gpc_check_query(lent(s, "query", null), items(s, "query"), lent(s, "types", null), items(s, "types"),
                               lent(s, "report", null), items(s, "report"));
    if (find(s, "record") != NULL)
        return gpc_judge_record(lent(s, "image", null), items(s, "image"), lent(s, "query", null), items(s, "query"),
                                lent(s, "record", null), items(s, "record"), lent(s, "work", null), items(s, "work"),
                                lent(s, "report", null), items(s, "report"));
    if (find(s, "bookmark") != NULL)
        return gpc_fill_page(lent(s, "image", null), items(s, "image"), lent(s, "query", null), items(s, "query"),
                             lent(s, "bookmark", null), items(s, "bookmark"), lent(s, "sitting", null), items(s, "sitting"),
                             lent(s, "page", null), items(s, "page"), lent(s, "work", null), items(s, "work"),
                             lent(s, "report", null), items(s, "report"));
    return gpc_read_image(lent(s, "image", null), items(s, "image"), lent(s, "report", null), items(s, "report"));
}

/* Whether a buffer is as the case says: as NAME-after where there is one, else as it was lent. */
static int as_expected(struct sample *s, const struct field *f, const uint8_t *before) {
    char after[48];
    snprintf(after, sizeof after, "%s-after", f->name);
    const uint8_t *expected = before;
    for (size_t i = 0; i < s->count; i++)
        if (strcmp(s->fields[i].name, after) == 0) expected = contents(&s->fields[i]);
    return guards_hold(f) && memcmp(contents(f), expected, f->items * f->width) == 0;
}

static int is_lent(const struct field *f) { return f->memory != NULL && strstr(f->name, "-after") == NULL; }

static int holds(struct sample *s, int null) {
    uint8_t *before[MOST_FIELDS] = {0};
    for (size_t i = 0; i < s->count; i++) {
        struct field *f = &s->fields[i];
        if (!is_lent(f)) continue;
        before[i] = guarded(f->items * f->width);
        memcpy(before[i] + GUARD, contents(f), f->items * f->width);
    }
    int good = call(s, null) == field(s, "result")->number;
    for (size_t i = 0; i < s->count; i++) {
        if (before[i] == NULL) continue;
        good = good && as_expected(s, &s->fields[i], before[i] + GUARD);
        free(before[i]);
    }
    return good;
}

/* What is told of the cases so far. */
struct tally {
    size_t passed, failed;
};

static void end_case(const char *sort, const char *name, struct sample *s, int good, struct tally *t) {
    if (s->count == 0) return;
    int null = (int)((t->passed + t->failed) % 2);
    good = good && holds(s, null);
    t->passed += good;
    t->failed += !good;
    if (!good && t->failed <= MOST_SHOWN) printf("differs: %s case %s\n", sort, name);
    forget(s, 0);
    s->calls = 0;
    s->fixed = 0;
}

/* A line "call K": what came before the first one is fixed, and a call before another one is complete. */
static int next_call(struct sample *s, const struct tally *t) {
    if (s->calls++ == 0) {
        s->fixed = s->count;
        return 1;
    }
    int good = holds(s, (int)((t->passed + t->failed) % 2));
    forget(s, s->fixed);
    return good;
}

int main(int argc, char **argv) {
    if (argc != 2) die("usage: compare SORT, cases on standard input");
    struct sample s = {0};
    struct tally t = {0};
    char *line = NULL, name[32] = "";
    size_t room = 0;
    int good = 1;
    while (getline(&line, &room, stdin) >= 0) {
        line[strcspn(line, "\n")] = '\0';
        if (strncmp(line, "case ", 5) == 0) {
            end_case(argv[1], name, &s, good, &t);
            good = 1;
            snprintf(name, sizeof name, "%s", line + 5);
        } else if (strncmp(line, "call ", 5) == 0) {
            good = next_call(&s, &t) && good;
        } else {
            take_field(&s, line);
        }
    }
    end_case(argv[1], name, &s, good, &t);
    free(line);
    printf("%zu passed, %zu failed\n", t.passed, t.failed);
    return t.failed != 0 || t.passed == 0;
}
