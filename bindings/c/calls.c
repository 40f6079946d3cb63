/* The functions of beglushan.h over those that the prover's compiler made. They answer null pointers and handles of zero bytes. */
#include "beglushan.h"

bool word_pool_new(struct beglushan_pool *pool, uint64_t size);
bool word_pool_join(struct beglushan_pool *pool, struct beglushan_pool *other);
uint64_t word_pool_acquire(struct beglushan_pool *pool);
uint64_t word_pool_acquire_near(struct beglushan_pool *pool, uint64_t hint);
uint64_t word_pool_release(struct beglushan_pool *pool);
void word_pool_free(struct beglushan_pool *pool);
bool word_grid_new(struct beglushan_grid *grid, uint64_t most);
bool word_grid_join(struct beglushan_grid *grid, struct beglushan_grid *other);
uint64_t word_grid_enter(struct beglushan_grid *grid);
void word_grid_free(struct beglushan_grid *grid);
bool word_names_new(struct beglushan_names *names, uint64_t most);
bool word_names_join(struct beglushan_names *names, struct beglushan_names *other, uint64_t identity);
uint64_t word_names_name(struct beglushan_names *names);
void word_names_free(struct beglushan_names *names);
bool line_pool_new(struct beglushan_line *line, uint64_t numbers);
bool line_pool_join(struct beglushan_line *line, struct beglushan_line *other);
uint64_t line_pool_acquire(struct beglushan_line *line);
uint64_t line_pool_release(struct beglushan_line *line);
void line_pool_free(struct beglushan_line *line);

bool beglushan_pool_new(struct beglushan_pool *pool, uint64_t size)
{
    return pool && !pool->at && word_pool_new(pool, size);
}

bool beglushan_pool_join(struct beglushan_pool *pool, struct beglushan_pool *other)
{
    return pool && pool->at && other && !other->at && word_pool_join(pool, other);
}

uint64_t beglushan_pool_acquire(struct beglushan_pool *pool)
{
    return pool && pool->at ? word_pool_acquire(pool) : 0;
}

uint64_t beglushan_pool_acquire_near(struct beglushan_pool *pool, uint64_t hint)
{
    return pool && pool->at ? word_pool_acquire_near(pool, hint) : 0;
}

uint64_t beglushan_pool_release(struct beglushan_pool *pool)
{
    return pool && pool->at ? word_pool_release(pool) : 0;
}

void beglushan_pool_free(struct beglushan_pool *pool)
{
    if (pool && pool->at) {
        word_pool_free(pool);
    }
}

bool beglushan_grid_new(struct beglushan_grid *grid, uint64_t most)
{
    return grid && !grid->at && word_grid_new(grid, most);
}

bool beglushan_grid_join(struct beglushan_grid *grid, struct beglushan_grid *other)
{
    return grid && grid->at && other && !other->at && word_grid_join(grid, other);
}

uint64_t beglushan_grid_enter(struct beglushan_grid *grid)
{
    return grid && grid->at ? word_grid_enter(grid) : 0;
}

void beglushan_grid_free(struct beglushan_grid *grid)
{
    if (grid && grid->at) {
        word_grid_free(grid);
    }
}

bool beglushan_names_new(struct beglushan_names *names, uint64_t most)
{
    return names && !names->at && word_names_new(names, most);
}

bool beglushan_names_join(struct beglushan_names *names, struct beglushan_names *other, uint64_t identity)
{
    return names && names->at && other && !other->at && word_names_join(names, other, identity);
}

uint64_t beglushan_names_name(struct beglushan_names *names)
{
    return names && names->at ? word_names_name(names) : 0;
}

void beglushan_names_free(struct beglushan_names *names)
{
    if (names && names->at) {
        word_names_free(names);
    }
}

bool beglushan_line_new(struct beglushan_line *line, uint64_t numbers)
{
    return line && !line->at && line_pool_new(line, numbers);
}

bool beglushan_line_join(struct beglushan_line *line, struct beglushan_line *other)
{
    return line && line->at && other && !other->at && line_pool_join(line, other);
}

uint64_t beglushan_line_acquire(struct beglushan_line *line)
{
    return line && line->at ? line_pool_acquire(line) : 0;
}

uint64_t beglushan_line_release(struct beglushan_line *line)
{
    return line && line->at ? line_pool_release(line) : 0;
}

void beglushan_line_free(struct beglushan_line *line)
{
    if (line && line->at) {
        line_pool_free(line);
    }
}
