/* The heap of the proved library over malloc, in place of the kit's liblibc_c.a. C11. */
#include <stdbool.h>
#include <stddef.h>
#include <stdlib.h>

/* What the library expects of an allocation: the block, or that there is none. */
struct tried {
    bool ok;
    void *at;
};

struct tried rattle_alloc(size_t bytes, size_t align);
void rattle_dealloc(void *at);

struct tried rattle_alloc(size_t bytes, size_t align)
{
    size_t room = bytes == 0 ? 1 : bytes;
    void *at;
    if (align <= _Alignof(max_align_t)) {
        at = malloc(room);
    } else {
        /* aligned_alloc takes a multiple of the alignment. */
        size_t over = room % align;
        at = aligned_alloc(align, over == 0 ? room : room + (align - over));
    }
    return (struct tried){at != NULL, at};
}

void rattle_dealloc(void *at)
{
    free(at);
}
