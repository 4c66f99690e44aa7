/* What the programs share that try sessions: what they say of a fault, memory that is refused (linked with --wrap of malloc, realloc and
   free), and the files that a session opens on. */
#include <cxlplan.h>
#include <stdio.h>
#include <stdlib.h>
#include <string.h>

enum { ROOM = 1 << 22, TURNS = 300 };

static int faults;

static void expect(int holds, const char *what, long at)
{
    if (!holds && ++faults < 20)
        printf("%s, at %ld\n", what, at);
}

/* ---- memory that is refused */

static int is_counted;
static long calls, refused, live;

void *__real_malloc(size_t size);
void *__real_realloc(void *old, size_t size);
void __real_free(void *old);
void *__wrap_malloc(size_t size);
void *__wrap_realloc(void *old, size_t size);
void __wrap_free(void *old);

static int is_refused(void)
{
    return is_counted && calls++ == refused;
}

void *__wrap_malloc(size_t size)
{
    void *made = is_refused() ? NULL : __real_malloc(size);

    if (is_counted && made)
        live++;
    return made;
}

void *__wrap_realloc(void *old, size_t size)
{
    void *made = is_refused() ? NULL : __real_realloc(old, size);

    if (is_counted && made && !old)
        live++;
    return made;
}

void __wrap_free(void *old)
{
    if (is_counted && old)
        live--;
    __real_free(old);
}

/* ---- files */

struct file {
    void *bytes;
    size_t len;
};

static struct file cedt, topo, script, image;

static struct file read_file(const char *name)
{
    struct file file = {malloc(1 << 20), 0};
    FILE *from = fopen(name, "rb");

    if (!from || !file.bytes) {
        perror(name);
        exit(70);
    }
    file.len = fread(file.bytes, 1, 1 << 20, from);
    fclose(from);
    /* no byte more than there is, so that a read behind them is seen */
    file.bytes = realloc(file.bytes, file.len ? file.len : 1);
    return file;
}

static int open_on(struct cxlplan_session *session, void *out, size_t out_len, size_t *written)
{
    return cxlplan_session_open(session, cedt.bytes, cedt.len, topo.bytes, topo.len, image.bytes, image.len, out, out_len, written);
}
