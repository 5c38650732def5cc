/* What every host needs beside the library: files, the reported numbers, and a record taken apart by the types. Not proved. */
#ifndef RECORD_H
#define RECORD_H

#include <stddef.h>
#include <stdint.h>

#include "gpc.h"

enum { TYPE_DEPTH = GPC_TYPE_WORDS / GPC_LAST_NAME };

struct bytes {
    uint8_t *at;
    size_t count;
};

struct words {
    uint16_t *at;
    size_t count;
};

/* The contents of a file; a file that cannot be read ends the program. */
struct bytes read_bytes(const char *file);

/* The same as words, each low byte first. Half a word at the end is left off. */
struct words read_words(const char *file);

/* Memory for a number of words, what it held kept; ends the program where there is none. */
void resize(struct words *w, size_t count);

/* Number i of a report. */
uint64_t reported(const uint8_t *report, int i);

/* Ends the program if a report says that the call was refused, telling number and row. */
void stop_if_refused(const uint8_t *report);

/* The six words of the type of a variable, 1 to 8, or a path name, 9 to 12; the first is 0 where no part uses it. */
const uint16_t *type_of(const uint16_t *types, int variable);

/* How many words a path, the paths of some parts, a value of a type, and a record of a query of some parts take. They ask for words of
 * a record of the listing, as the library places them on a page: there every count is followed by what it counts. The number of parts
 * is the first word of the query. */
size_t path_words(const uint16_t *path);
size_t paths_words(size_t parts, const uint16_t *paths);
size_t value_words(const uint16_t *type, const uint16_t *value);
size_t record_words(const uint16_t *types, size_t parts, const uint16_t *record);

#endif
