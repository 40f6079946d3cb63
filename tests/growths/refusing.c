/* Preloaded before a program: refuses the call of malloc whose number the variable GROWTH gives, counted from 1, and tells so by a
   byte to the descriptor whose number GROWTH_TO gives. With GROWTH_ALL the calls of realloc count too. */
#include <stdatomic.h>
#include <stdlib.h>
#include <unistd.h>

extern void *__libc_malloc(size_t);
extern void *__libc_realloc(void *, size_t);

static atomic_long calls;

static int is_refused(void)
{
    const char *growth = getenv("GROWTH");
    const char *to = getenv("GROWTH_TO");
    if (!growth || !to || atomic_fetch_add(&calls, 1) + 1 != atol(growth))
        return 0;
    if (write(atoi(to), "r", 1) != 1)
        _exit(100);
    return 1;
}

void *malloc(size_t size)
{
    return is_refused() ? NULL : __libc_malloc(size);
}

void *realloc(void *block, size_t size)
{
    return getenv("GROWTH_ALL") && is_refused() ? NULL : __libc_realloc(block, size);
}
