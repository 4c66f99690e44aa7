/*
 * The calls for arguments and for errno that the proved programs make, for arm64: the kit of Rattle has machine code of them for x86-64
 * alone. Each keeps the contract that the kit's library os states for it (src/c.rt there). Nothing proves that. To open, read and
 * write files the programs call the C library itself.
 */
#include <errno.h>
#include <stddef.h>
#include <stdint.h>

size_t rattle_arg_count(void);
intptr_t rattle_arg(size_t number, unsigned char *out, size_t out_len);
int rattle_errno(void);
void rattle_set_errno(int error);

static int count;
static char **arguments;

/* The C library calls this before main, with the arguments that main gets. */
__attribute__((constructor)) static void keep(int argc, char **argv) {
    count = argc;
    arguments = argv;
}

size_t rattle_arg_count(void) {
    return (size_t)count;
}

/* Copies argument `number` to the front of `out` and returns its length; -1 where there is no such argument, and -2 where it does not
   fit, and then `out` is full of its front. */
intptr_t rattle_arg(size_t number, unsigned char *out, size_t out_len) {
    const char *argument = number < (size_t)count ? arguments[number] : NULL;
    size_t at;
    if (!argument)
        return -1;
    for (at = 0; argument[at]; at++) {
        if (at == out_len)
            return -2;
        out[at] = (unsigned char)argument[at];
    }
    return (intptr_t)at;
}

int rattle_errno(void) {
    return errno;
}

void rattle_set_errno(int error) {
    errno = error;
}
