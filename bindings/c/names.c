/* Threads with identities of 64 bits, each of which counts at a place of one small array. The place is the thread's name, so the array
 * is as long as the names, and nobody shares a place. */
#include "beglushan.h"

#include <pthread.h>
#include <stdio.h>

enum { THREADS = 4, PLACES = 2 * THREADS - 1, HITS = 1000 };

static uint64_t counters[PLACES];

static void *count(void *handle)
{
    struct beglushan_names *mine = handle;
    uint64_t name = beglushan_names_name(mine);
    for (int i = 0; i < HITS; i++) {
        counters[name - 1]++;
    }
    return NULL;
}

/* A seat for each identity. Who dealt them is not wanted then. */
static bool deal(struct beglushan_names *seats)
{
    const uint64_t identities[THREADS] = {UINT64_MAX, 3, UINT64_C(0x9e3779b97f4a7c15), UINT64_C(1) << 40};
    struct beglushan_names dealer = {0};
    bool good = beglushan_names_new(&dealer, THREADS);
    for (int i = 0; good && i < THREADS; i++) {
        good = beglushan_names_join(&dealer, &seats[i], identities[i]);
    }
    beglushan_names_free(&dealer);
    return good;
}

int main(void)
{
    struct beglushan_names seats[THREADS] = {{0}};
    pthread_t threads[THREADS];
    bool good = deal(seats);
    int started = 0;
    while (good && started < THREADS) {
        good = pthread_create(&threads[started], NULL, count, &seats[started]) == 0;
        started += good;
    }
    for (int i = 0; i < started; i++) {
        pthread_join(threads[i], NULL);
    }
    uint64_t sum = 0;
    int used = 0;
    for (int i = 0; i < PLACES; i++) {
        sum += counters[i];
        used += counters[i] != 0;
    }
    for (int i = 0; i < THREADS; i++) {
        beglushan_names_free(&seats[i]);
    }
    printf("%d threads counted at %d of %d places: %llu\n", THREADS, used, PLACES, (unsigned long long)sum);
    return used == THREADS && sum == THREADS * HITS ? 0 : 1;
}
