/*
 * The three calls for memory that the proved code makes, for arm64: the kit of Rattle has machine code of them for x86-64 alone. Each
 * keeps the contract that the kit's library libc states for it (src/heap.rt there). Nothing proves that.
 */
#include <stdbool.h>
#include <stddef.h>
#include <stdlib.h>

/* What an allocation comes to: whether there is memory, and where; without memory, an address at which nobody reads or writes. */
struct tried {
    bool ok;
    void *at;
};

struct tried rattle_alloc(size_t size, size_t align);
struct tried rattle_realloc(void *at, size_t kept, size_t size, size_t align);
void rattle_dealloc(void *at);

static char nothing[16];

/* For no bytes it takes `align` bytes, so that what it gives is memory that can be freed. The caller wants an alignment of at most
   16, which malloc keeps. */
static size_t bytes_of(size_t size, size_t align) {
    return size ? size : align;
}

static struct tried tried(void *at) {
    return (struct tried){at != NULL, at ? at : nothing};
}

struct tried rattle_alloc(size_t size, size_t align) {
    return tried(malloc(bytes_of(size, align)));
}

/* The first `kept` bytes stay as they are, wherever the memory is then; without memory all of it stays where it is. */
struct tried rattle_realloc(void *at, size_t kept, size_t size, size_t align) {
    (void)kept;
    return tried(realloc(at, bytes_of(size, align)));
}

void rattle_dealloc(void *at) {
    free(at);
}
