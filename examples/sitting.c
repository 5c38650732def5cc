/* A sitting that goes on from run to run, in a file. Not proved. */
#include "sitting.h"

#include <errno.h>
#include <stdio.h>
#include <stdlib.h>
#include <string.h>

#include "record.h"

uint32_t total_of(const uint8_t *sitting)
{
    uint32_t total = 0;
    for (int k = GPC_SITTING_BYTES - 1; k >= 0; k--)
        total = total << 8 | sitting[k];
    return total;
}

static int exists(const char *file)
{
    FILE *in = fopen(file, "rb");
    if (in == NULL)
        return errno != ENOENT;
    fclose(in);
    return 1;
}

/* A file cut short is not taken for a fresh sitting: its lines would be lost unseen. */
void read_sitting(const char *file, uint8_t *sitting)
{
    memset(sitting, 0, GPC_SITTING_BYTES);
    if (!exists(file))
        return;
    struct bytes held = read_bytes(file);
    if (held.count != GPC_SITTING_BYTES) {
        fprintf(stderr, "SITTING must hold %d bytes, and holds %zu\n", GPC_SITTING_BYTES, held.count);
        exit(2);
    }
    memcpy(sitting, held.at, GPC_SITTING_BYTES);
    free(held.at);
}

void write_sitting(const char *file, const uint8_t *sitting)
{
    FILE *out = fopen(file, "wb");
    size_t written = out == NULL ? 0 : fwrite(sitting, 1, GPC_SITTING_BYTES, out);
    if (out == NULL || fclose(out) != 0 || written != GPC_SITTING_BYTES) {
        perror(file);
        exit(2);
    }
}
