/* Turns a record and a query, written as text, into the bytes that the library is lent. Not proved.
 *
 *     encode image RECORD          the graph image
 *     encode query RECORD QUERY    the query, 16-bit words, low byte first
 *     encode input RECORD QUERY    both as the program that prints a listing reads them, which takes one part without a path name
 *
 * Writes to standard output. What the text means is left to the library to check; a text that cannot be read is told with its line.
 */
#include <string.h>

#include "encode.h"

static struct graph graph;
static struct query query;

/* Whether the query is one that the program can be given. */
static int write_input(void)
{
    const struct part *p = query.part;
    if (query.parts != 1 || p->name != 0)
        return 0;
    write_word(stdout, image_bytes(&graph));
    write_word(stdout, p->words);
    write_word(stdout, p->restrictor);
    write_image(&graph, stdout);
    write_pattern(p, stdout);
    return 1;
}

static int usage(void)
{
    fputs("usage: encode image RECORD | encode query RECORD QUERY | encode input RECORD QUERY\n", stderr);
    return 2;
}

static int encode(int argc, char **argv)
{
    read_graph(&graph, argv[2]);
    if (argc == 4)
        read_query(&query, &graph, argv[3]);
    if (strcmp(argv[1], "image") == 0 && argc == 3) {
        write_image(&graph, stdout);
    } else if (strcmp(argv[1], "query") == 0 && argc == 4) {
        write_query(&query, stdout);
    } else if (strcmp(argv[1], "input") != 0 || argc != 4) {
        return usage();
    } else if (!write_input()) {
        fprintf(stderr, "%s: not one part without a path name\n", argv[3]);
        return 1;
    }
    return fflush(stdout) != 0 || ferror(stdout);
}

int main(int argc, char **argv) { return argc < 3 || argc > 4 ? usage() : encode(argc, argv); }
