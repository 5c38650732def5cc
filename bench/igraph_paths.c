/* Lists paths with igraph and times its calls alone.
 *
 *     igraph_paths FILE SECONDS
 *
 * The file holds numbers (bench/searches.py writes it): nodes, edges, whether they are directed, whether the shortest paths are asked for,
 * the most edges of a path (0: no bound), how many starts and how many ends (0: every node); then the starts, the ends, and the two ends of
 * each edge. Prints how many paths of one edge or more lead from a start to an end, and the seconds; or over, where the calls take too long
 * or too much memory.
 */
#include <igraph/igraph.h>
#include <signal.h>
#include <stdio.h>
#include <stdlib.h>
#include <time.h>
#include <unistd.h>

enum { NODES, EDGES, DIRECTED, SHORTEST, MOST, STARTS, ENDS, HEAD };

struct asked {
    long head[HEAD];
    igraph_vector_int_t starts, ends, edges;
    igraph_t graph;
};

/* It may come in the midst of a call, so nothing that asks for memory is used. */
static _Noreturn void give_up(int sig)
{
    (void)sig;
    _Exit(write(STDOUT_FILENO, "over\n", 5) == 5 ? 0 : 2);
}

/* No memory is a reason to give up, and the only one that is looked for. */
static void stop_if_failed(igraph_error_t code)
{
    if (code == IGRAPH_ENOMEM)
        give_up(0);
    if (code != IGRAPH_SUCCESS) {
        fprintf(stderr, "igraph: %s\n", igraph_strerror(code));
        exit(2);
    }
}

static double now(void)
{
    struct timespec t;
    clock_gettime(CLOCK_MONOTONIC, &t);
    return (double)t.tv_sec + 1e-9 * (double)t.tv_nsec;
}

static long read_number(FILE *in)
{
    long number;
    if (fscanf(in, "%ld", &number) != 1)
        exit(2);
    return number;
}

static void read_numbers(FILE *in, igraph_vector_int_t *numbers, long count)
{
    stop_if_failed(igraph_vector_int_init(numbers, count));
    for (long i = 0; i < count; i++)
        VECTOR(*numbers)[i] = read_number(in);
}

static void read_asked(const char *file, struct asked *a)
{
    FILE *in = fopen(file, "r");
    if (in == NULL) {
        perror(file);
        exit(2);
    }
    for (int i = 0; i < HEAD; i++)
        a->head[i] = read_number(in);
    read_numbers(in, &a->starts, a->head[STARTS]);
    read_numbers(in, &a->ends, a->head[ENDS]);
    read_numbers(in, &a->edges, 2 * a->head[EDGES]);
    fclose(in);
    stop_if_failed(igraph_create(&a->graph, &a->edges, a->head[NODES], a->head[DIRECTED]));
}

/* Paths come one after another, each ended by -1. */
static long list_simple(const struct asked *a, igraph_integer_t start, igraph_vs_t ends, double *spent)
{
    igraph_vector_int_t paths;
    stop_if_failed(igraph_vector_int_init(&paths, 0));
    double before = now();
    stop_if_failed(igraph_get_all_simple_paths(&a->graph, &paths, start, ends, a->head[MOST] ? a->head[MOST] : -1, IGRAPH_OUT));
    *spent += now() - before;
    long count = 0;
    for (long i = 0; i < igraph_vector_int_size(&paths); i++)
        count += VECTOR(paths)[i] == -1;
    igraph_vector_int_destroy(&paths);
    return count;
}

/* The path of no edge is among them and does not count. */
static long list_shortest(const struct asked *a, igraph_integer_t start, igraph_vs_t ends, double *spent)
{
    igraph_vector_int_list_t paths;
    stop_if_failed(igraph_vector_int_list_init(&paths, 0));
    double before = now();
    stop_if_failed(igraph_get_all_shortest_paths(&a->graph, &paths, NULL, NULL, start, ends, IGRAPH_OUT));
    *spent += now() - before;
    long count = 0;
    for (long i = 0; i < igraph_vector_int_list_size(&paths); i++)
        count += igraph_vector_int_size(igraph_vector_int_list_get_ptr(&paths, i)) > 1;
    igraph_vector_int_list_destroy(&paths);
    return count;
}

int main(int argc, char **argv)
{
    static struct asked a;
    long count = 0;
    double spent = 0;
    if (argc != 3) {
        fputs("usage: igraph_paths FILE SECONDS\n", stderr);
        return 2;
    }
    igraph_set_error_handler(igraph_error_handler_ignore);
    read_asked(argv[1], &a);
    signal(SIGALRM, give_up);
    alarm((unsigned)atoi(argv[2]));
    igraph_vs_t ends = a.head[ENDS] ? igraph_vss_vector(&a.ends) : igraph_vss_all();
    for (long i = 0; i < a.head[STARTS]; i++)
        count += (a.head[SHORTEST] ? list_shortest : list_simple)(&a, VECTOR(a.starts)[i], ends, &spent);
    alarm(0);
    printf("%ld %.9f\n", count, spent);
    return 0;
}
