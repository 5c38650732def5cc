/* A sitting that goes on from run to run, in a file. Not proved. */
#ifndef SITTING_H
#define SITTING_H

#include <stdint.h>

#include "gpc.h"

/* The total of a sitting: how many lines it has printed. */
uint32_t total_of(const uint8_t *sitting);

/* The sitting that a file holds; a fresh one where there is no such file. A file of other than 4 bytes ends the program. */
void read_sitting(const char *file, uint8_t *sitting);

/* Puts the sitting into the file, whatever this held; ends the program where it cannot. */
void write_sitting(const char *file, const uint8_t *sitting);

#endif
