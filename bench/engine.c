/* Lists a case page by page and times gpc_fill_page alone.
 *
 *     engine IMAGE QUERY PAGE_WORDS MOST_PAGES SECONDS PAGE_SECONDS RUNS EDGES CLOCK
 *
 * Prints answers, words, pages, whether the listing came to its end, then in seconds the first page, the worst one and all of them.
 * Of several runs each page counts by its best. A run ends after so many pages or seconds (0: no bound on pages), and a run that took
 * over 2 s is the last. A page that takes longer than a page may is given up: it counts as a page without answers. The listing begins
 * with the records whose first path has so many edges (0: with the first record). The clock is wall or processor: the second does not
 * count what else runs on the machine.
 */
#include <inttypes.h>
#include <signal.h>
#include <stdio.h>
#include <stdlib.h>
#include <string.h>
#include <unistd.h>

#include "paging.h"

enum { LONG_RUN_SECONDS = 2 };

static unsigned page_seconds;
static clockid_t used_clock;

/* What the runs found; best holds the best time of each page. */
struct found {
    uint64_t answers, words;
    size_t pages, room;
    int done;
    double *best;
};

/* One page, and how long it took. The alarm is on during the call alone, so that give_up finds the rest of the program at rest. */
static double fill(struct listing *l)
{
    alarm(page_seconds);
    double before = seconds_by(used_clock);
    fill_page(l);
    double after = seconds_by(used_clock);
    alarm(0);
    stop_if_refused(l->report);
    return after - before;
}

/* Room for the time of one page more, made before it is filled: give_up may not ask for memory. */
static void make_room(struct found *f)
{
    if (f->pages < f->room)
        return;
    f->room = 2 * f->room + 64;
    f->best = realloc(f->best, f->room * sizeof *f->best);
    if (f->best == NULL)
        exit(2);
}

static void note_time(struct found *f, size_t page, double seconds)
{
    if (page >= f->pages || seconds < f->best[page])
        f->best[page] = seconds;
    if (page >= f->pages)
        f->pages = page + 1;
}

/* One run, with a fresh sitting; a number of edges alone is a bookmark before all records whose first path has so many. */
static double run(struct listing *l, struct found *f, size_t most_pages, double seconds, uint16_t edges)
{
    double total = 0;
    size_t page = 0;
    f->answers = f->words = 0;
    f->done = 0;
    resize(&l->bookmark, edges > 0);
    l->bookmark.at[0] = edges;
    memset(l->sitting, 0, sizeof l->sitting);
    do {
        make_room(f);
        double t = fill(l);
        note_time(f, page++, t);
        total += t;
        f->answers += reported(l->report, GPC_REPORT_RECORDS);
        f->words += reported(l->report, GPC_REPORT_WORDS);
        f->done = reported(l->report, GPC_REPORT_DONE) != 0;
        keep_bookmark(l);
    } while (!f->done && page != most_pages && total < seconds);
    return total;
}

static void print(const struct found *f)
{
    double total = 0, worst = 0;
    for (size_t i = 0; i < f->pages; i++) {
        total += f->best[i];
        worst = f->best[i] > worst ? f->best[i] : worst;
    }
    printf("%" PRIu64 " %" PRIu64 " %zu %d %.9f %.9f %.9f\n", f->answers, f->words, f->pages, f->done, f->best[0], worst, total);
}

static struct listing l;
static struct found f;

/* Tells what was found up to a page that takes too long. */
static void give_up(int sig)
{
    (void)sig;
    note_time(&f, f.pages, page_seconds);
    print(&f);
    fflush(stdout);
    _Exit(0);
}

int main(int argc, char **argv)
{
    if (argc != 10) {
        fputs("usage: engine IMAGE QUERY PAGE_WORDS MOST_PAGES SECONDS PAGE_SECONDS RUNS EDGES CLOCK\n", stderr);
        return 2;
    }
    l.image = read_bytes(argv[1]);
    l.query = read_words(argv[2]);
    resize(&l.page, strtoull(argv[3], NULL, 10));
    check_query(&l);
    signal(SIGALRM, give_up);
    page_seconds = (unsigned)atoi(argv[6]);
    used_clock = strcmp(argv[9], "processor") == 0 ? CLOCK_PROCESS_CPUTIME_ID : CLOCK_MONOTONIC;
    for (int runs = atoi(argv[7]); runs > 0; runs--)
        if (run(&l, &f, strtoull(argv[4], NULL, 10), strtod(argv[5], NULL), (uint16_t)atoi(argv[8])) > LONG_RUN_SECONDS)
            break;
    print(&f);
    free(l.image.at);
    free(l.query.at);
    free(l.page.at);
    free(l.bookmark.at);
    free(f.best);
    return 0;
}
