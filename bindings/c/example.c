/* Four threads take numbers of one pool and give them back: no two have one number at once. Then 64 threads enter a grid,
 * round after round: no two have one place. Then up to 16 threads are named: no two have one name, and `b` have none above 2b - 1. */
#include "beglushan.h"

#include <pthread.h>
#include <stdatomic.h>
#include <stdio.h>

enum { THREADS = 4, STAYS = 100000, SEATS = 64, PLACES = SEATS * (SEATS + 1) / 2, ROUNDS = 100 };

static atomic_bool taken[THREADS + 1];
static atomic_int clashes;

static void *stay_often(void *handle)
{
    struct beglushan_pool *pool = handle;
    uint64_t hint = 1;
    for (int i = 0; i < STAYS; i++) {
        uint64_t number = i % 2 == 0 ? beglushan_pool_acquire(pool) : beglushan_pool_acquire_near(pool, hint);
        if (number < 1 || THREADS < number || atomic_exchange(&taken[number], true)) {
            clashes++;
            continue;
        }
        atomic_store(&taken[number], false);
        hint = number;
        if (beglushan_pool_release(pool) != number) {
            clashes++;
        }
    }
    return NULL;
}

static uint64_t places[SEATS];

struct visitor {
    struct beglushan_grid grid;
    int seat;
};

static void *enter(void *given)
{
    struct visitor *visitor = given;
    places[visitor->seat] = beglushan_grid_enter(&visitor->grid);
    return NULL;
}

static bool enter_together(void)
{
    struct visitor visitors[SEATS] = {{{0}, 0}};
    pthread_t threads[SEATS];
    bool seen[PLACES + 1] = {false};
    struct beglushan_grid none = {0};
    bool good = beglushan_grid_new(&visitors[0].grid, SEATS);
    for (int i = 1; good && i < SEATS; i++) {
        visitors[i].seat = i;
        good = beglushan_grid_join(&visitors[0].grid, &visitors[i].grid);
    }
    if (!good || beglushan_grid_join(&visitors[0].grid, &none)) {
        return false;
    }
    for (int i = 0; i < SEATS; i++) {
        if (pthread_create(&threads[i], NULL, enter, &visitors[i]) != 0) {
            return false;
        }
    }
    for (int i = 0; i < SEATS; i++) {
        pthread_join(threads[i], NULL);
    }
    for (int i = 0; i < SEATS; i++) {
        uint64_t place = places[i];
        if (place < 1 || PLACES < place || seen[place] || beglushan_grid_enter(&visitors[i].grid) != 0) {
            good = false;
        } else {
            seen[place] = true;
        }
        beglushan_grid_free(&visitors[i].grid);
    }
    return good;
}

static bool enter_alone(void)
{
    struct beglushan_grid grid = {0};
    if (beglushan_grid_new(&grid, 0) || beglushan_grid_new(&grid, SEATS + 1) || !beglushan_grid_new(&grid, SEATS)) {
        return false;
    }
    bool good = beglushan_grid_enter(&grid) == 1;
    beglushan_grid_free(&grid);
    return good;
}

enum { NAMED = 64 };

static uint64_t names[NAMED];

struct namer {
    struct beglushan_names names;
    int seat;
};

/* An identity of 64 bits for each seat. */
static uint64_t identity(int seat)
{
    return ((uint64_t)seat + 1) * UINT64_C(0x9e3779b97f4a7c15);
}

static void *take_name(void *given)
{
    struct namer *namer = given;
    names[namer->seat] = beglushan_names_name(&namer->names);
    return NULL;
}

static bool name_together(int begun)
{
    struct namer namers[NAMED] = {{{0}, 0}};
    pthread_t threads[NAMED];
    bool seen[2 * NAMED] = {false};
    struct beglushan_names dealer = {0}, none = {0};
    bool good = beglushan_names_new(&dealer, (uint64_t)begun);
    for (int i = 0; good && i < begun; i++) {
        namers[i].seat = i;
        good = !beglushan_names_join(&dealer, &namers[i].names, i == 0 ? 0 : identity(i - 1))
            && beglushan_names_join(&dealer, &namers[i].names, identity(i))
            && !beglushan_names_join(&namers[i].names, &none, identity(i + 1));
    }
    if (!good || beglushan_names_join(&dealer, &none, identity(begun)) || beglushan_names_name(&dealer) != 0) {
        return false;
    }
    beglushan_names_free(&dealer);
    for (int i = 0; i < begun; i++) {
        if (pthread_create(&threads[i], NULL, take_name, &namers[i]) != 0) {
            return false;
        }
    }
    for (int i = 0; i < begun; i++) {
        pthread_join(threads[i], NULL);
    }
    for (int i = 0; i < begun; i++) {
        uint64_t name = names[i];
        if (name < 1 || 2 * (uint64_t)begun <= name || seen[name] || beglushan_names_name(&namers[i].names) != name) {
            good = false;
        } else {
            seen[name] = true;
        }
        beglushan_names_free(&namers[i].names);
    }
    return good;
}

/* Each that comes has the greatest identity so far, so it has the last name of those who have come. */
static bool name_in_turn(void)
{
    struct beglushan_names dealer = {0}, first = {0}, second = {0}, third = {0};
    bool refused = !beglushan_names_new(&dealer, 0) && !beglushan_names_new(&dealer, NAMED + 1) && !beglushan_names_new(NULL, 3)
        && beglushan_names_name(NULL) + beglushan_names_name(&dealer) == 0 && !beglushan_names_join(&dealer, &first, 7);
    bool made = beglushan_names_new(&dealer, 3) && !beglushan_names_new(&dealer, 3) && !beglushan_names_join(&dealer, &first, 0)
        && beglushan_names_join(&dealer, &first, 7) && beglushan_names_join(&dealer, &second, 8)
        && !beglushan_names_join(&dealer, &second, 9) && beglushan_names_join(&dealer, &third, 9) && beglushan_names_name(&dealer) == 0;
    bool named = beglushan_names_name(&first) == 1 && beglushan_names_name(&second) == 3 && beglushan_names_name(&third) == 5;
    beglushan_names_free(&dealer);
    beglushan_names_free(&first);
    beglushan_names_free(&second);
    beglushan_names_free(&third);
    beglushan_names_free(NULL);
    return refused && made && named && dealer.at == NULL && first.at == NULL && second.at == NULL && third.at == NULL;
}

/* Null pointers and handles that hold nothing are answered, and a handle that holds a pool is not made anew. */
static bool answers_what_is_missing(void)
{
    struct beglushan_pool pool = {0}, blank = {0};
    struct beglushan_grid grid = {0}, empty = {0};
    bool none = !beglushan_pool_new(NULL, 1) && !beglushan_pool_join(NULL, &blank) && !beglushan_pool_join(&blank, &pool)
        && beglushan_pool_acquire(NULL) + beglushan_pool_acquire(&blank) + beglushan_pool_acquire_near(NULL, 1) == 0
        && beglushan_pool_acquire_near(&blank, 1) + beglushan_pool_release(NULL) + beglushan_pool_release(&blank) == 0
        && !beglushan_grid_new(NULL, 1) && !beglushan_grid_join(NULL, &empty) && !beglushan_grid_join(&empty, &grid)
        && beglushan_grid_enter(NULL) + beglushan_grid_enter(&empty) == 0;
    beglushan_pool_free(NULL);
    beglushan_pool_free(&blank);
    beglushan_grid_free(NULL);
    beglushan_grid_free(&empty);
    bool some = beglushan_pool_new(&pool, 1) && !beglushan_pool_new(&pool, 1) && !beglushan_pool_join(&pool, &pool)
        && beglushan_pool_acquire(&pool) == 1 && beglushan_pool_release(&pool) == 1
        && beglushan_grid_new(&grid, 1) && !beglushan_grid_new(&grid, 1) && beglushan_grid_enter(&grid) == 1;
    beglushan_pool_free(&pool);
    beglushan_grid_free(&grid);
    return none && some && pool.at == NULL && grid.at == NULL;
}

/* Two handles of a line of two: each always gets a number, the least that is free, and keeps it as long as it likes. */
static bool lines_always_give(void)
{
    struct beglushan_line first = {0}, second = {0}, third = {0};
    bool refused = !beglushan_line_new(NULL, 1) && !beglushan_line_new(&first, 0) && !beglushan_line_new(&first, 4097)
        && beglushan_line_acquire(&first) + beglushan_line_release(NULL) == 0;
    bool made = beglushan_line_new(&first, 2) && beglushan_line_join(&first, &second) && !beglushan_line_join(&first, &third);
    bool both = beglushan_line_acquire(&second) == 1 && beglushan_line_acquire(&first) == 2 && beglushan_line_acquire(&first) == 0;
    bool least = beglushan_line_release(&second) == 1 && beglushan_line_release(&second) == 0 && beglushan_line_acquire(&second) == 1;
    beglushan_line_free(&first);
    beglushan_line_free(&second);
    beglushan_line_free(&third);
    return refused && made && both && least && first.at == NULL && second.at == NULL;
}

int main(void)
{
    if (!answers_what_is_missing() || !lines_always_give() || !name_in_turn()) {
        return 1;
    }
    struct beglushan_pool pools[THREADS] = {{0}};
    pthread_t threads[THREADS];
    struct beglushan_pool none = {0};
    if (beglushan_pool_new(&none, 0) || beglushan_pool_new(&none, 4097) || !beglushan_pool_new(&pools[0], THREADS)) {
        return 1;
    }
    for (int i = 1; i < THREADS; i++) {
        if (!beglushan_pool_join(&pools[0], &pools[i])) {
            return 1;
        }
    }
    for (int i = 0; i < THREADS; i++) {
        if (pthread_create(&threads[i], NULL, stay_often, &pools[i]) != 0) {
            return 1;
        }
    }
    for (int i = 0; i < THREADS; i++) {
        pthread_join(threads[i], NULL);
    }
    for (int i = 0; i < THREADS; i++) {
        if (beglushan_pool_acquire(&pools[i]) != (uint64_t)i + 1 || beglushan_pool_acquire(&pools[i]) != 0) {
            clashes++;
        }
    }
    for (int i = 0; i < THREADS; i++) {
        beglushan_pool_free(&pools[i]);
    }
    printf("%d threads, %d stays each, %d clashes\n", THREADS, STAYS, clashes);
    int bad = !enter_alone();
    for (int round = 0; round < ROUNDS; round++) {
        bad += !enter_together();
    }
    printf("%d threads through a grid, %d rounds, %d bad\n", SEATS, ROUNDS, bad);
    int unlike = 0;
    for (int round = 0; round < ROUNDS; round++) {
        for (int begun = 1; begun <= NAMED; begun++) {
            unlike += !name_together(begun);
        }
    }
    printf("1 to %d threads named, %d rounds each, %d bad\n", NAMED, ROUNDS, unlike);
    return clashes != 0 || bad != 0 || unlike != 0;
}
