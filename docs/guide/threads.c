/* Two listings side by side, each on a thread with a stack and memory of its own, the sitting too. */
#include <pthread.h>

#include "host.h"

struct task {
    uint16_t query[QUERY_WORDS], page[256], work[GPC_WORK_WORDS];
    uint8_t report[GPC_REPORT_BYTES], sitting[GPC_SITTING_BYTES];
};

static void *run(void *of)
{
    struct task *t = of;
    gpc_fill_page(image, sizeof image, t->query, QUERY_WORDS, NULL, 0, t->sitting, sizeof t->sitting, t->page, 256, t->work,
                  GPC_WORK_WORDS, t->report, sizeof t->report);
    return NULL;
}

int main(void)
{
    static const uint16_t restrictors[] = {GPC_TRAIL, GPC_SHORTEST_TRAIL};
    static struct task tasks[2];
    pthread_t threads[2];
    pthread_attr_t attr;
    pthread_attr_init(&attr);
    pthread_attr_setstacksize(&attr, 2 * GPC_STACK_BYTES); /* the call's share, and as much for the thread itself */
    for (int i = 0; i < 2; i++) {
        memcpy(tasks[i].query, query, sizeof query);
        tasks[i].query[1] = restrictors[i];
        if (pthread_create(&threads[i], &attr, run, &tasks[i]) != 0)
            return 1;
    }
    for (int i = 0; i < 2; i++) {
        pthread_join(threads[i], NULL);
        printf("restrictor %d: %d records\n", restrictors[i], (int)number(tasks[i].report, GPC_REPORT_RECORDS));
    }
    return 0;
}
