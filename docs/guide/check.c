/* Checks queries and prints the types of their variables and path names. */
#include "host.h"

static void print_type(const uint16_t *type)
{
    static const char *const names[] = {"", "Node", "Edge", "Maybe of ", "Group of ", "Path"};
    for (int i = 0; i < 6 && type[i] != 0; i++)
        fputs(names[type[i]], stdout);
}

static void check_and_tell(const uint16_t *words, size_t count)
{
    uint16_t types[GPC_TYPE_WORDS];
    uint8_t report[GPC_REPORT_BYTES];
    gpc_check_query(words, count, types, GPC_TYPE_WORDS, report, sizeof report);
    if (number(report, GPC_REPORT_REFUSAL) != 0) {
        printf("refused %d row %d\n", (int)number(report, GPC_REPORT_REFUSAL), (int)number(report, GPC_REPORT_ROW));
        return;
    }
    for (int x = 1; x <= GPC_LAST_NAME; x++) {
        if (types[6 * (x - 1)] == 0)
            continue;
        printf("%s %d: ", x < GPC_FIRST_NAME ? "variable" : "path name", x);
        print_type(types + 6 * (x - 1));
        puts("");
    }
}

int main(void)
{
    /* An edge, variable 1, and the path with the name 9. */
    static const uint16_t named[] = {1, GPC_TRAIL, 9, 5, 2, 1, 0, 0, 0};
    /* Variable 1 is a node in row 0 and an edge in row 1: no type for row 2, which joins them. */
    static const uint16_t untyped[] = {1, GPC_TRAIL, 0, 15, 1, 1, 0, 0, 0, 2, 1, 0, 0, 0, 6, 0, 1, 0, 0};
    /* The same two rows as the patterns of two parts. */
    static const uint16_t clash[] = {2, GPC_TRAIL, 0, 5, GPC_TRAIL, 0, 5, 1, 1, 0, 0, 0, 2, 1, 0, 0, 0};
    check_and_tell(query, QUERY_WORDS);
    check_and_tell(named, sizeof named / sizeof named[0]);
    check_and_tell(untyped, sizeof untyped / sizeof untyped[0]);
    check_and_tell(clash, sizeof clash / sizeof clash[0]);
    check_and_tell(clash, 16); /* a word is missing */
    return 0;
}
