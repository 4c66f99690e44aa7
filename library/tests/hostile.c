/* What a careless caller passes: rooms of every size, null, lengths that nothing has, rooms that overlap. Says what is wrong, and
   ends with 0 where nothing is. */
#include <cxlplan.h>
#include <pthread.h>
#include <stdio.h>
#include <stdlib.h>
#include <string.h>

enum { FENCE = 64, MARK = 0xa5 };

static int faults;

static void expect(int holds, const char *what, size_t at)
{
    if (!holds && ++faults < 20)
        printf("%s, at %zu\n", what, at);
}

static void *read_file(const char *name, size_t *len)
{
    FILE *from = fopen(name, "rb");
    void *bytes = malloc(1 << 20);

    if (!from || !bytes)
        exit(70);
    *len = fread(bytes, 1, 1 << 20, from);
    fclose(from);
    return realloc(bytes, *len ? *len : 1);
}

static void *cedt, *topo, *image, *broken;
static size_t cedt_len, topo_len, image_len, broken_len;

/* A call with files of its own, into a room. */
typedef int into(void *out, size_t out_len, size_t *written);

static int check_into(void *out, size_t out_len, size_t *written)
{
    return cxlplan_check(cedt, cedt_len, topo, topo_len, image, image_len, out, out_len, written);
}

/* A region that the host after reset takes, and the line that takes it down. */
static const char script[] = "create r0 pmem 0x20000000 d1 d2\ndestroy r0\n";
enum { CREATE = 32 };

static int words_into(void *out, size_t out_len, size_t *written)
{
    return cxlplan_words(cedt, cedt_len, topo, topo_len, NULL, 0, script, CREATE, out, out_len, written);
}

static int image_into(void *out, size_t out_len, size_t *written)
{
    return cxlplan_image(cedt, cedt_len, topo, topo_len, image, image_len, script, sizeof script - 1, out, out_len, written);
}

static int tree_into(void *out, size_t out_len, size_t *written)
{
    return cxlplan_tree(topo, topo_len, out, out_len, written);
}

static int decoders_into(void *out, size_t out_len, size_t *written)
{
    return cxlplan_decoders(topo, topo_len, image, image_len, out, out_len, written);
}

static int breaches_into(void *out, size_t out_len, size_t *written)
{
    return cxlplan_breaches(cedt, cedt_len, topo, topo_len, broken, broken_len, out, out_len, written);
}

static int windows_into(void *out, size_t out_len, size_t *written)
{
    return cxlplan_windows(cedt, cedt_len, topo, topo_len, out, out_len, written);
}

/* A room of each size up to what the text needs: its front stands there, and the bytes behind the room are as they were. */
static void rooms(into *call)
{
    static unsigned char whole[65536], part[65536];
    size_t need = 0, written = 0;
    int status = call(whole, sizeof whole, &need), end = status;

    expect((end == CXLPLAN_DONE || end == CXLPLAN_REFUSED) && need > 0, "the whole text", need);
    for (size_t room = 0; room <= need + 2; room++) {
        memset(part, MARK, room + 2 * FENCE);
        written = 77;
        status = call(part + FENCE, room, &written);
        expect(status == (room < need ? CXLPLAN_WRITE_FAULT : end), "the status of a room", room);
        expect(written == (room < need ? room : need), "the count of a room", room);
        expect(!memcmp(part + FENCE, whole, written), "the text of a room", room);
        for (size_t i = 0; i < FENCE; i++)
            expect(part[i] == MARK && part[FENCE + room + i] == MARK, "a byte beside the room", room);
    }
    expect(call(NULL, 0, NULL) == CXLPLAN_WRITE_FAULT, "no room at all", 0);
}

static void nulls(void)
{
    static unsigned char out[4096];
    size_t written = 77;

    expect(cxlplan_list(NULL, 1, out, sizeof out, &written) == CXLPLAN_USAGE && written == 0, "null with a length", 1);
    expect(cxlplan_list(cedt, cedt_len, NULL, 1, &written) == CXLPLAN_USAGE && written == 0, "a null room with a length", 1);
    expect(cxlplan_list(NULL, 0, out, sizeof out, &written) == CXLPLAN_BAD_TABLE && written > 0, "no table", 0);
    expect(cxlplan_check(NULL, 0, NULL, 0, NULL, 0, out, sizeof out, NULL) == CXLPLAN_BAD_TABLE, "no files", 0);
    expect(cxlplan_tree(NULL, 1, out, sizeof out, &written) == CXLPLAN_USAGE && written == 0, "null for a topology", 1);
    expect(cxlplan_tree(NULL, 0, out, sizeof out, &written) == CXLPLAN_DONE && written > 0, "no topology", 0);
    expect(cxlplan_decoders(topo, topo_len, NULL, 1, out, sizeof out, &written) == CXLPLAN_USAGE && written == 0, "null for an image", 1);
    expect(cxlplan_decoders(topo, topo_len, NULL, 0, out, sizeof out, &written) == CXLPLAN_BAD_IMAGE && written > 0, "no image", 0);
    expect(cxlplan_breaches(cedt, cedt_len, NULL, 1, image, image_len, out, sizeof out, &written) == CXLPLAN_USAGE && written == 0,
           "null beside an image", 1);
    expect(cxlplan_breaches(cedt, cedt_len, topo, topo_len, image, image_len, NULL, 0, &written) == CXLPLAN_DONE && written == 0,
           "no place, and no room", 0);
    expect(cxlplan_windows(NULL, 1, topo, topo_len, out, sizeof out, &written) == CXLPLAN_USAGE && written == 0, "null beside a topology",
           1);
    expect(cxlplan_windows(cedt, cedt_len, NULL, 0, out, sizeof out, &written) == CXLPLAN_DONE && written > 0, "windows of no topology", 0);
    expect(cxlplan_run(cedt, cedt_len, topo, topo_len, NULL, 0, NULL, 0, out, sizeof out, &written) == CXLPLAN_DONE && written == 0,
           "an empty script", 0);
    expect(cxlplan_run(cedt, cedt_len, topo, topo_len, "", 0, "down 0", 6, out, sizeof out, &written) == CXLPLAN_BAD_IMAGE,
           "an empty image", 0);
    expect(cxlplan_words(cedt, cedt_len, topo, topo_len, NULL, 1, script, CREATE, out, sizeof out, &written) == CXLPLAN_USAGE
               && written == 0,
           "null for the image of words", 1);
    expect(cxlplan_image(cedt, cedt_len, topo, topo_len, "", 0, NULL, 0, out, sizeof out, &written) == CXLPLAN_BAD_IMAGE,
           "an empty image behind nothing", 0);
    expect(cxlplan_plan(cedt, cedt_len, topo, topo_len, "\xff", 1, out, sizeof out, &written) == CXLPLAN_USAGE, "no UTF-8", 0);
    expect(cxlplan_plan(cedt, cedt_len, topo, topo_len, NULL, 0, out, sizeof out, &written) == CXLPLAN_USAGE, "no line", 0);
    expect(cxlplan_gen(0, out, sizeof out, &written) == CXLPLAN_USAGE, "system 0", 0);
    expect(cxlplan_gen(33, out, sizeof out, &written) == CXLPLAN_USAGE, "system 33", 33);
    expect(cxlplan_gen(UINT32_MAX, out, sizeof out, &written) == CXLPLAN_USAGE, "the last system", UINT32_MAX);
}

static void lengths(void)
{
    static unsigned char out[4096];
    size_t written = 77, one_more = 1048577;
    unsigned char *large = calloc(one_more, 1);

    for (size_t len = SIZE_MAX; len > PTRDIFF_MAX; len -= SIZE_MAX / 16) {
        expect(cxlplan_list(cedt, len, out, sizeof out, &written) == CXLPLAN_USAGE && written == 0, "a length", len);
        expect(cxlplan_list(cedt, cedt_len, out, len, &written) == CXLPLAN_USAGE && written == 0, "the length of a room", len);
    }
    expect(large && cxlplan_list(large, one_more, out, sizeof out, &written) == CXLPLAN_TOO_LARGE, "a file that is too large", one_more);
    expect(large && cxlplan_list(large, one_more - 1, out, sizeof out, &written) == CXLPLAN_BAD_TABLE, "a table of zeros", one_more - 1);
    free(large);
    /* each front of each file: an answer, whatever it is */
    for (size_t len = 0; len <= cedt_len; len++) {
        expect(cxlplan_check(cedt, len, topo, topo_len, image, image_len, out, sizeof out, &written) <= CXLPLAN_TOO_LARGE, "a table", len);
        expect(cxlplan_windows(cedt, len, topo, topo_len, out, sizeof out, &written) <= CXLPLAN_TOO_LARGE, "windows", len);
    }
    for (size_t len = 0; len <= topo_len; len += 3) {
        expect(cxlplan_check(cedt, cedt_len, topo, len, image, image_len, out, sizeof out, &written) <= CXLPLAN_TOO_LARGE, "a topology", len);
        expect(cxlplan_tree(topo, len, out, sizeof out, &written) <= CXLPLAN_TOO_LARGE, "a tree", len);
    }
    for (size_t len = 0; len <= image_len; len += 5) {
        expect(cxlplan_check(cedt, cedt_len, topo, topo_len, image, len, out, sizeof out, &written) <= CXLPLAN_TOO_LARGE, "an image", len);
        expect(cxlplan_decoders(topo, topo_len, image, len, out, sizeof out, &written) <= CXLPLAN_TOO_LARGE, "decoders", len);
    }
}

static void overlaps(void)
{
    static union {
        size_t count;
        unsigned char bytes[4096];
    } all;
    size_t written = 77;

    memcpy(all.bytes, cedt, cedt_len);
    expect(cxlplan_list(all.bytes, cedt_len, all.bytes, sizeof all, &written) == CXLPLAN_USAGE && written == 0, "the same bytes", 0);
    expect(cxlplan_list(all.bytes, cedt_len, all.bytes + cedt_len - 1, 64, &written) == CXLPLAN_USAGE, "one byte of them", 0);
    expect(!memcmp(all.bytes, cedt, cedt_len), "bytes that were to be read", 0);
    expect(cxlplan_list(cedt, cedt_len, all.bytes, sizeof all, &all.count) == CXLPLAN_USAGE, "the count in the room", 0);
    expect(cxlplan_decoders(topo, topo_len, all.bytes, cedt_len, all.bytes, sizeof all, &written) == CXLPLAN_USAGE && written == 0,
           "an image in the room", 0);
}

/* A topology whose tables lie within each other as deep as the reader lets them: a dotted key of 80 parts, and 80 braces of such. */
static void *deep_topology(void *status)
{
    static char text[32768], out[4096];
    size_t len = 0;

    for (int table = 0; table <= 80; table++) {
        for (int part = 0; part < 80; part++)
            len += sprintf(text + len, part ? ".a" : "a");
        len += sprintf(text + len, table < 80 ? " = {" : " = 1");
    }
    for (int table = 0; table < 80; table++)
        text[len++] = '}';
    text[len++] = '\n';
    *(int *)status = cxlplan_check(cedt, cedt_len, text, len, image, image_len, out, sizeof out, NULL);
    return NULL;
}

/* The stack that the header names is enough. */
static void stack(void)
{
    pthread_attr_t attributes;
    pthread_t thread;
    int status = -1;

    if (pthread_attr_init(&attributes) || pthread_attr_setstacksize(&attributes, CXLPLAN_STACK)
        || pthread_create(&thread, &attributes, deep_topology, &status) || pthread_join(thread, NULL))
        exit(70);
    pthread_attr_destroy(&attributes);
    expect(status == CXLPLAN_BAD_TOPO, "a deep topology", status);
}

int main(int count, char **words)
{
    if (count != 5)
        return 70;
    cedt = read_file(words[1], &cedt_len);
    topo = read_file(words[2], &topo_len);
    image = read_file(words[3], &image_len);
    broken = read_file(words[4], &broken_len);
    rooms(check_into);
    rooms(words_into);
    rooms(image_into);
    rooms(tree_into);
    rooms(decoders_into);
    rooms(breaches_into);
    rooms(windows_into);
    nulls();
    lengths();
    overlaps();
    stack();
    free(cedt);
    free(topo);
    free(image);
    free(broken);
    return faults ? 1 : 0;
}
