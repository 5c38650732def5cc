/* The first pages of a listing, for the hunt.
 *
 *     pages INPUT MOST_PAGES SECONDS
 *
 * An input is what the listing program reads: bytes of the image, words of the pattern and restrictor, as three 16-bit numbers, low
 * byte first, then image and pattern. Prints a line for each page of 20,000 words: the milliseconds of processor time that the call
 * took, its records and their words. The last line is done, more, or over where a page takes longer than so many seconds.
 */
#include <inttypes.h>
#include <signal.h>
#include <stdio.h>
#include <stdlib.h>
#include <string.h>
#include <sys/time.h>

#include "paging.h"

enum { HEAD_BYTES = 6, PAGE_WORDS = 20000 };

static struct listing l;

static uint16_t number_at(const uint8_t *at) { return (uint16_t)(at[0] | at[1] << 8); }

/* A query of one part without a path name. */
static void make_query(uint16_t restrictor, const uint8_t *pattern, uint16_t words)
{
    const uint16_t head[] = {1, restrictor, 0, words};
    resize(&l.query, 4 + (size_t)words);
    memcpy(l.query.at, head, sizeof head);
    for (size_t i = 0; i < words; i++)
        l.query.at[4 + i] = number_at(pattern + 2 * i);
}

static void read_input(const char *file)
{
    struct bytes in = read_bytes(file);
    size_t bytes = in.count < HEAD_BYTES ? 0 : number_at(in.at), words = in.count < HEAD_BYTES ? 0 : number_at(in.at + 2);
    if (in.count < HEAD_BYTES + bytes + 2 * words) {
        fprintf(stderr, "%s ends early\n", file);
        exit(2);
    }
    l.image = (struct bytes){in.at + HEAD_BYTES, bytes};
    make_query(number_at(in.at + 4), in.at + HEAD_BYTES + bytes, (uint16_t)words);
}

/* The timer is on during the call alone, so that the rest of the program is at rest here. */
static void give_up(int sig)
{
    (void)sig;
    puts("over");
    fflush(stdout);
    _Exit(0);
}

/* By processor time, as the pages are measured: other work on the machine does not count. */
static void set_timer(long seconds)
{
    struct itimerval timer = {.it_value = {.tv_sec = seconds}};
    setitimer(ITIMER_PROF, &timer, NULL);
}

static int list_page(long seconds)
{
    set_timer(seconds);
    double before = seconds_by(CLOCK_PROCESS_CPUTIME_ID);
    fill_page(&l);
    double spent = seconds_by(CLOCK_PROCESS_CPUTIME_ID) - before;
    set_timer(0);
    stop_if_refused(l.report);
    printf("%.3f %" PRIu64 " %" PRIu64 "\n", 1e3 * spent, reported(l.report, GPC_REPORT_RECORDS), reported(l.report, GPC_REPORT_WORDS));
    keep_bookmark(&l);
    return reported(l.report, GPC_REPORT_DONE) != 0;
}

int main(int argc, char **argv)
{
    int done = 0;
    if (argc != 4) {
        fputs("usage: pages INPUT MOST_PAGES SECONDS\n", stderr);
        return 2;
    }
    read_input(argv[1]);
    resize(&l.page, PAGE_WORDS);
    resize(&l.bookmark, 0);
    check_query(&l);
    signal(SIGPROF, give_up);
    for (long pages = atol(argv[2]); pages > 0 && !done; pages--)
        done = list_page(atol(argv[3]));
    puts(done ? "done" : "more");
    free(l.image.at - HEAD_BYTES);
    free(l.query.at);
    free(l.page.at);
    free(l.bookmark.at);
    return 0;
}
