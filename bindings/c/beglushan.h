/* Small numbers for threads, with no lock: the proved pools, lines, grids and names over atomic words as a C library, for C99 and later
 * and for C++.
 *
 * Link `libbeglushan.a` or `libbeglushan.so`, as `pkg-config --cflags --libs beglushan` says. `counters.c` and `names.c` are programs
 * with a counter for each thread. In short, with no result looked at:
 *
 *     struct beglushan_pool first = {0}, mine = {0};
 *     beglushan_pool_new(&first, 64);                      a pool, with a handle for the thread that makes it ...
 *     beglushan_pool_join(&first, &mine);                  ... and one for each other
 *     uint64_t number = beglushan_pool_acquire(&mine);     there: from here on counters[number - 1] is nobody else's ...
 *     beglushan_pool_release(&mine);                       ... until here
 *     beglushan_pool_free(&mine);                          and so for the first one, in any order
 *
 * Each thread has a handle of its own; those that were joined share one pool. A handle holds at most one number at a time,
 * and nobody else has that number until it is given back. What was written until then is seen by the next holder of the number:
 * each access of the library is sequentially consistent. (ThreadSanitizer doesn't see these accesses, and may take what they
 * order for a race.)
 *
 * A call that is given a null pointer, or a handle of zero bytes where one has to hold something, returns false or 0 and does nothing.
 * So does a call that is to make a handle which holds something already.
 *
 * What a caller owes:
 *
 * - One call at a time uses a handle, and a `join` is a call of both its handles. To join while threads run, keep a handle that no thread
 *   takes numbers by, and hold a lock round each `join` of it. The calls of all other handles need no lock meanwhile.
 * - A handle is made of zero bytes before its first call.
 * - It is not copied: the copy would be the same handle. To move it, zero the old one.
 * - It is freed. A thread that ends without that leaves its number held, and the pool's memory taken.
 *
 * The library was compiled by the prover's own compiler. It has no unwind tables: no exception may pass through a call, and none does,
 * since no call calls back. */
#ifndef BEGLUSHAN_H
#define BEGLUSHAN_H

#include <stdbool.h>
#include <stdint.h>

/* The version of this header. Major and minor are those of the library's file name. */
#define BEGLUSHAN_VERSION_MAJOR 0
#define BEGLUSHAN_VERSION_MINOR 4
#define BEGLUSHAN_VERSION_PATCH 0
#define BEGLUSHAN_VERSION "0.4.0"

#ifdef __cplusplus
extern "C" {
#endif

/* Zero: no pool. */
struct beglushan_pool {
    void *at;
};

/* Makes a pool of the numbers from 1 to `size`, which is from 1 to 4096, at a handle of zero bytes. False, with nothing made,
 * elsewhere and where memory was refused. */
bool beglushan_pool_new(struct beglushan_pool *pool, uint64_t size);

/* Makes `other`, which is of zero bytes, a handle of the same pool for one more thread; it holds no number. False, with none
 * made, where memory was refused. */
bool beglushan_pool_join(struct beglushan_pool *pool, struct beglushan_pool *other);

/* Takes the least number that a walk from 1 upward finds free, by at most two accesses more than the number says. 0 where it
 * met each number held, one after another, by at most two accesses more than there are numbers, and where this handle holds
 * one already. Where others take and give back meanwhile, a walk may meet each held though never all were at one moment. */
uint64_t beglushan_pool_acquire(struct beglushan_pool *pool);

/* The same, but it tries the number of a hint first, as that which this handle had last. A hint that is no number is as good
 * as 1. */
uint64_t beglushan_pool_acquire_near(struct beglushan_pool *pool, uint64_t hint);

/* Gives back the number that this handle holds, and tells it. 0 where it holds none. */
uint64_t beglushan_pool_release(struct beglushan_pool *pool);

/* Ends this handle, which is of zero bytes then: its number is given back, and with the last handle the pool's memory. */
void beglushan_pool_free(struct beglushan_pool *pool);

/* A grid of splitters: each thread that enters gets a place of its own, by reads and writes alone, with no lock and no wait.
 *
 * Each thread has a handle of its own, with one seat; those that were joined share one grid, so `beglushan_grid_enter` may run in
 * all of them at once. What a caller owes is as above: a handle is used by one call at a time; it is made of zero bytes
 * before `beglushan_grid_new`, or before it is the second handle of `beglushan_grid_join`; and it holds a grid where any other call is
 * given it. */

/* Zero: no grid. */
struct beglushan_grid {
    void *at;
};

/* Makes a grid of `most` seats, from 1 to 64, and deals this handle the first. False, with nothing made, elsewhere and where
 * memory was refused. */
bool beglushan_grid_new(struct beglushan_grid *grid, uint64_t most);

/* A handle for one more thread, with the next seat. `grid` is the handle that `beglushan_grid_new` made. False, with none made,
 * where all seats are dealt, where `grid` is another handle, and where memory was refused; a seat dealt then may be lost. */
bool beglushan_grid_join(struct beglushan_grid *grid, struct beglushan_grid *other);

/* Walks from the corner with this handle's seat until it stops, and tells the place, from 1: where `b` had entered until then,
 * itself among them, it is at most b(b + 1)/2, by at most 4b accesses. No two handles of a grid have one place. 0 where this
 * handle has entered already. */
uint64_t beglushan_grid_enter(struct beglushan_grid *grid);

/* Ends this handle, which is of zero bytes then, and with the last one the grid's memory. Its place stays taken. */
void beglushan_grid_free(struct beglushan_grid *grid);

/* Names: each thread gets a name of its own, at most 2b - 1 where `b` have begun, by reads and writes alone, with no lock and no wait.
 *
 * One handle deals the seats and has none. Each thread has a handle of its own, with one seat, for an identity of 64 bits that no
 * other seat is for. All share the names, so `beglushan_names_name` may run in all at once, and while further seats are dealt. What a caller
 * owes is as above: a handle is used by one call at a time; it is made of zero bytes before `beglushan_names_new`, or before it is the
 * second handle of `beglushan_names_join`; and it holds names where any other call is given it. */

/* Zero: no names. */
struct beglushan_names {
    void *at;
};

/* Makes names for `most` threads, from 1 to 64. This handle deals the seats, and has none. It takes most^3 words of 8 bytes. False,
 * with nothing made, elsewhere and where memory was refused. */
bool beglushan_names_new(struct beglushan_names *names, uint64_t most);

/* A handle for one more thread, with the next seat, for the thread of this identity. `names` is the handle that `beglushan_names_new`
 * made. False, with none made, where the identity is 0 or a seat was dealt to it already, where all seats are dealt, where `names` is
 * another handle, and where memory was refused; a seat dealt then is lost. */
bool beglushan_names_join(struct beglushan_names *names, struct beglushan_names *other, uint64_t identity);

/* Makes the accesses of this handle's seat, at most most(most + 1), and tells its name, from 1: where `b` had begun until then, itself
 * among them, it is at most 2b - 1. No two handles of the same names have one name. A second call tells the same. 0 where the handle
 * has no seat: it is the one that deals them. */
uint64_t beglushan_names_name(struct beglushan_names *names);

/* Ends this handle, which is of zero bytes then, and with the last one the memory of the names. Its name stays taken. */
void beglushan_names_free(struct beglushan_names *names);

/* A line: as many tickets as numbers, so a thread with a ticket always gets a number, and a small one where few have or seek one.
 *
 * Each thread has a handle of its own, with one ticket; those that were joined share one line. What a caller owes is as above: a
 * handle is used by one call at a time; it is made of zero bytes before `beglushan_line_new`, or before it is the second handle of
 * `beglushan_line_join`; and it holds a line where any other call is given it. A handle may keep its number for as long as it likes. */

/* Zero: no line. */
struct beglushan_line {
    void *at;
};

/* Makes a line of the numbers from 1 to `numbers`, which is from 1 to 4096, with as many tickets, and deals this handle the first.
 * False, with nothing made, elsewhere and where memory was refused. */
bool beglushan_line_new(struct beglushan_line *line, uint64_t numbers);

/* A handle for one more thread, with the next ticket. `line` is the handle that `beglushan_line_new` made. False, with none made,
 * where all tickets are dealt, where `line` is another handle, and where memory was refused; a ticket dealt then is lost. */
bool beglushan_line_join(struct beglushan_line *line, struct beglushan_line *other);

/* Takes the least number that a walk from 1 upward finds free, by at most one access more than the number says. The number is at
 * most the most handles that held or sought one at one moment of the call. 0 only where this handle holds a number already. */
uint64_t beglushan_line_acquire(struct beglushan_line *line);

/* Gives back the number that this handle holds, and tells it. 0 where it holds none. */
uint64_t beglushan_line_release(struct beglushan_line *line);

/* Ends this handle, which is of zero bytes then, and with the last one the line's memory. Its number is given back, and its ticket
 * is not dealt again. */
void beglushan_line_free(struct beglushan_line *line);

#ifdef __cplusplus
}
#endif

#endif
