/* Prints a graph image and a listing over it for a person. Not proved.
 *
 *     show IMAGE                 the graph
 *     show IMAGE QUERY           the graph, and each record of the listing
 *     show --dot IMAGE           the graph for Graphviz
 *     show --dot K IMAGE QUERY   the same, the paths of record K marked, records counted from 0
 *
 * Nodes are shown by their outer numbers, edges by an e and their place in the image. Before all else may come --names TEXT, as often
 * as wanted, with the text that image or query was made from (see encode.c): labels, keys, variables and paths then have the names
 * given there.
 */
#include <stdio.h>
#include <stdlib.h>
#include <string.h>

#include "view.h"

struct show {
    struct view view;
    struct words query;
    size_t marked;
    int dot;
    uint16_t types[GPC_TYPE_WORDS];
    uint16_t page[GPC_WORK_WORDS], work[GPC_WORK_WORDS], bookmark[GPC_WORK_WORDS];
    uint8_t report[GPC_REPORT_BYTES];
};

static struct show show;

static _Noreturn void usage(void)
{
    fputs("usage: show [--names TEXT ..] [--dot] IMAGE\n"
          "       show [--names TEXT ..] [--dot K] IMAGE QUERY\n", stderr);
    exit(2);
}

/* Only the lines that give names are looked at. */
static void read_names(const char *file)
{
    static struct text t;
    for (open_text(&t, file); next_line(&t);) {
        if (strcmp(t.word[0], "labels") == 0)
            add_line(&t, &show.view.labels, 1);
        else if (strcmp(t.word[0], "keys") == 0)
            add_line(&t, &show.view.keys, 1);
        else if (strcmp(t.word[0], "variables") == 0)
            add_line(&t, &show.view.variables, 1);
        else if (strcmp(t.word[0], "paths") == 0)
            add_line(&t, &show.view.paths, GPC_FIRST_NAME);
    }
}

/* The page after the bookmark. A page this long has room for any record, so that 23 does not come; nor does 34, since no total is kept
 * and each sitting is a fresh one. */
static void fill(size_t bookmark_words)
{
    uint8_t sitting[GPC_SITTING_BYTES] = {0};
    gpc_fill_page(show.view.image.at, show.view.image.count, show.query.at, show.query.count, show.bookmark, bookmark_words, sitting,
                  sizeof sitting, show.page, GPC_WORK_WORDS, show.work, GPC_WORK_WORDS, show.report, sizeof show.report);
    stop_if_refused(show.report);
}

/* What is done with each record; the answer is whether to go on. */
static int take(size_t number, const uint16_t *record)
{
    if (!show.dot) {
        int indent = printf("record %zu: ", number);
        print_answer(&show.view, show.types, show.query.at[0], record, indent);
    } else if (number == show.marked) {
        print_dot(&show.view, show.query.at[0], record);
        return 0;
    }
    return 1;
}

/* All records, page by page; how many were taken. */
static size_t each_record(void)
{
    size_t taken = 0, words = 0, more = 1;
    while (more) {
        fill(words);
        const uint16_t *record = show.page;
        words = 0;
        for (uint64_t left = reported(show.report, GPC_REPORT_RECORDS); left > 0; left--) {
            record += words;
            words = record_words(show.types, show.query.at[0], record);
            if (!take(taken, record))
                return taken;
            taken++;
        }
        memcpy(show.bookmark, record, words * sizeof *record);
        more = reported(show.report, GPC_REPORT_DONE) == 0;
    }
    if (show.dot) {
        fprintf(stderr, "show: there are %zu records\n", taken);
        exit(1);
    }
    return taken;
}

static void list(const char *file)
{
    show.query = read_words(file);
    gpc_check_query(show.query.at, show.query.count, show.types, GPC_TYPE_WORDS, show.report, sizeof show.report);
    stop_if_refused(show.report);
    size_t count = each_record();
    if (!show.dot)
        printf("%zu records\n", count);
}

static void read_image(const char *file)
{
    show.view.image = read_bytes(file);
    gpc_read_image(show.view.image.at, show.view.image.count, show.report, sizeof show.report);
    stop_if_refused(show.report);
}

/* Takes the options and returns how many arguments they are. */
static int options(int argc, char **argv)
{
    int at = 1;
    for (; argc > at + 1 && strcmp(argv[at], "--names") == 0; at += 2)
        read_names(argv[at + 1]);
    if (argc > at && strcmp(argv[at], "--dot") == 0) {
        show.dot = 1;
        at++;
        if (argc == at + 3)
            show.marked = strtoull(argv[at++], NULL, 10);
    }
    return at;
}

int main(int argc, char **argv)
{
    int at = options(argc, argv);
    if (argc != at + 1 && argc != at + 2)
        usage();
    read_image(argv[at]);
    if (!show.dot)
        print_graph(&show.view);
    else if (argc == at + 1)
        print_dot(&show.view, 0, NULL);
    if (argc == at + 2)
        list(argv[at + 1]);
    return 0;
}
