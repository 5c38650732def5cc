/* A plain driver for the fuzz target, which needs nothing but a C compiler.
 *
 *     driver SECONDS SEED KEEP     runs so long; the input of a failure is written to the file KEEP
 *     driver FILE                  runs the input in the file
 *
 * Inputs that did something new are kept and changed further. */
#include <fcntl.h>
#include <signal.h>
#include <stdio.h>
#include <stdlib.h>
#include <string.h>
#include <time.h>
#include <unistd.h>

#include "fuzz.h"

enum { MOST_KEPT = 2048, MOST_BYTES = 640 };

struct input {
    size_t size;
    uint8_t data[MOST_BYTES];
};

static struct input kept[MOST_KEPT], now;
static size_t many;
static uint8_t seen[sizeof fuzz_features];
static const char *keep_at;
static uint64_t state;

/* xorshift64*. */
static uint32_t draw(uint32_t n)
{
    state ^= state >> 12;
    state ^= state << 25;
    state ^= state >> 27;
    return (uint32_t)((state * 0x2545f4914f6cdd1d) >> 32) % n;
}

/* Only calls that a signal handler may make. */
static void on_failure(int sign)
{
    int file = keep_at == NULL ? -1 : open(keep_at, O_WRONLY | O_CREAT | O_TRUNC, 0644);
    if (file >= 0) {
        ssize_t written = write(file, now.data, now.size);
        (void)written;
        close(file);
    }
    _exit(128 + sign);
}

static void fresh(void)
{
    now.size = 32 + draw(MOST_BYTES - 32);
    for (size_t i = 0; i < now.size; i++)
        now.data[i] = (uint8_t)draw(256);
    if (draw(4) != 0)
        now.data[0] = (uint8_t)draw(224);
}

static void change_once(void)
{
    size_t at = draw((uint32_t)now.size);
    uint32_t way = draw(5);
    if (way == 0) {
        now.data[at] ^= (uint8_t)(1u << draw(8));
    } else if (way == 1) {
        now.data[at] = (uint8_t)draw(256);
    } else if (way == 2 && now.size < MOST_BYTES) {
        memmove(now.data + at + 1, now.data + at, now.size - at);
        now.data[at] = (uint8_t)draw(256);
        now.size++;
    } else if (way == 3 && now.size > 1) {
        memmove(now.data + at, now.data + at + 1, now.size - at - 1);
        now.size--;
    } else {
        const struct input *other = &kept[draw((uint32_t)many)];
        size_t end = other->size < now.size ? other->size : now.size;
        if (at < end)
            memcpy(now.data + at, other->data + at, end - at);
    }
}

static void next_input(void)
{
    if (many == 0 || draw(4) == 0) {
        fresh();
        return;
    }
    now = kept[draw((uint32_t)many)];
    for (uint32_t times = 1 + draw(6); times > 0; times--)
        change_once();
}

static void run_once(void)
{
    int new = 0;
    memset(fuzz_features, 0, sizeof fuzz_features);
    LLVMFuzzerTestOneInput(now.data, now.size);
    for (size_t i = 0; i < sizeof fuzz_features; i++) {
        new |= fuzz_features[i] && !seen[i];
        seen[i] |= fuzz_features[i];
    }
    if (new && many < MOST_KEPT)
        kept[many++] = now;
}

static int replay(const char *name)
{
    FILE *file = fopen(name, "rb");
    if (file == NULL) {
        perror(name);
        return 2;
    }
    now.size = fread(now.data, 1, MOST_BYTES, file);
    fclose(file);
    LLVMFuzzerTestOneInput(now.data, now.size);
    return 0;
}

int main(int argc, char **argv)
{
    LLVMFuzzerInitialize(&argc, &argv);
    if (argc == 2)
        return replay(argv[1]);
    if (argc != 4) {
        fputs("usage: driver SECONDS SEED KEEP, or driver FILE\n", stderr);
        return 2;
    }
    time_t end = time(NULL) + strtol(argv[1], NULL, 10);
    state = 2 * strtoull(argv[2], NULL, 10) + 0x9e3779b97f4a7c15;
    keep_at = argv[3];
    signal(SIGABRT, on_failure);
    signal(SIGSEGV, on_failure);
    signal(SIGBUS, on_failure);
    signal(SIGFPE, on_failure);
    signal(SIGILL, on_failure);
    while (time(NULL) < end) {
        next_input();
        run_once();
    }
    return 0;
}
