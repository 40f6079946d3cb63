/* A counter for each thread, and their sum: an array as long as the threads that there are at once, however many there are. No
 * counter is written by two threads at a time, so none needs an atomic sum. */
#include "beglushan.h"

#include <pthread.h>
#include <stdio.h>

enum { AT_ONCE = 4, ROUNDS = 25, HITS = 1000 };

static uint64_t counters[AT_ONCE];

static void *count(void *handle)
{
    struct beglushan_pool *mine = handle;
    uint64_t number = beglushan_pool_acquire(mine);
    for (int i = 0; number != 0 && i < HITS; i++) {
        counters[number - 1]++;
    }
    /* With the number go its handle and its counter, as it stands, to the next. */
    beglushan_pool_free(mine);
    return NULL;
}

/* As many threads as there are numbers, each with a handle that is joined before it starts. */
static bool count_together(struct beglushan_pool *first)
{
    struct beglushan_pool handles[AT_ONCE] = {{0}};
    pthread_t threads[AT_ONCE];
    int started = 0;
    while (started < AT_ONCE && beglushan_pool_join(first, &handles[started])) {
        if (pthread_create(&threads[started], NULL, count, &handles[started]) != 0) {
            beglushan_pool_free(&handles[started]);
            break;
        }
        started++;
    }
    for (int i = 0; i < started; i++) {
        pthread_join(threads[i], NULL);
    }
    return started == AT_ONCE;
}

int main(void)
{
    struct beglushan_pool first = {0};
    if (!beglushan_pool_new(&first, AT_ONCE)) {
        return 1;
    }
    bool good = true;
    for (int round = 0; good && round < ROUNDS; round++) {
        good = count_together(&first);
    }
    beglushan_pool_free(&first);
    uint64_t sum = 0;
    for (int i = 0; i < AT_ONCE; i++) {
        sum += counters[i];
    }
    printf("%d threads, %d at once, on %d counters: %llu\n", ROUNDS * AT_ONCE, AT_ONCE, AT_ONCE, (unsigned long long)sum);
    return good && sum == (uint64_t)ROUNDS * AT_ONCE * HITS ? 0 : 1;
}
