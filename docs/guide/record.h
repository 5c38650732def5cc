/* How a record is taken apart: by the number of parts, which is the query's first word, and the types that the checker tells. */

/* Where a path ends whose first word is at 'at': its count of edges, then nodes and edges alternating. */
static inline size_t path_end(const uint16_t *w, size_t at) { return at + 2 + 2 * (size_t)w[at]; }

/* Where a value ends, by its type: six numbers, outermost first. */
static inline size_t value_end(const uint16_t *type, const uint16_t *w, size_t at)
{
    if (type[0] == GPC_TYPE_PATH)
        return path_end(w, at);
    if (type[0] == GPC_TYPE_MAYBE)
        return w[at] == GPC_NOTHING ? at + 1 : value_end(type + 1, w, at);
    if (type[0] != GPC_TYPE_GROUP)
        return at + 1;
    size_t count = w[at++];
    for (size_t factor = 0; factor < count; factor++)
        at = value_end(type + 1, w, path_end(w, at));
    return at;
}

/* Where the value of x begins, a variable or a path name, in the record that begins at 'at': behind the paths of the parts and the
 * values of the lower numbers that have a type. */
static inline size_t value_begin(const uint16_t *types, int parts, const uint16_t *w, size_t at, int x)
{
    for (int i = 0; i < parts; i++)
        at = path_end(w, at);
    for (int y = 1; y < x; y++)
        if (types[6 * (y - 1)] != 0)
            at = value_end(types + 6 * (y - 1), w, at);
    return at;
}

/* Where the record ends that begins at 'at'. */
static inline size_t record_end(const uint16_t *types, int parts, const uint16_t *w, size_t at)
{
    return value_begin(types, parts, w, at, GPC_LAST_NAME + 1);
}

/* The outer number of a node, from the image. */
static inline int outer(unsigned node) { return image[16 + 2 * node] + 256 * image[17 + 2 * node]; }

/* The nodes of a path of directed edges. */
static inline void print_path(const uint16_t *path)
{
    printf("%d", outer(path[1]));
    for (unsigned i = 1; i <= path[0]; i++)
        printf(" -> %d", outer(path[1 + 2 * i]));
    puts("");
}
