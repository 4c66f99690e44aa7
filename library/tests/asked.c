/* Commands on a session by numbers and bytes. `asked lines CEDT TOPO SCRIPT [IMAGE]` writes what the lines of a script are answered, where
   `down`, `up`, `load` and `store` go by their calls and all others as lines; the text of the former is made here of their records. The
   exit status is that of the last call. `asked careless CEDT TOPO`, `asked memory CEDT TOPO` and `asked threads CEDT TOPO` say what is
   wrong, and end with 0 where nothing is; `asked times CEDT TOPO SCRIPT NAME` tells nanoseconds of a processor a call behind a script. */
#define _POSIX_C_SOURCE 199309L
#include "tried.h"
#include <inttypes.h>
#include <pthread.h>
#include <time.h>

enum { NODES = 4096, MARK = 0xa5 };

static char room[ROOM];

/* The names of the nodes, by number. */
static char names[NODES][16];

static void read_names(void)
{
    static char text[ROOM];
    size_t written = 0;
    unsigned number;

    if (cxlplan_tree(topo.bytes, topo.len, text, ROOM - 1, &written))
        return;
    text[written] = 0;
    for (char *line = strtok(text, "\n"); line; line = strtok(NULL, "\n"))
        if (sscanf(line, "node %u", &number) == 1 && number < NODES)
            sscanf(line, "node %*u %15s", names[number]);
}

/* ---- the text of records */

static int print_name(const struct cxlplan_name *name)
{
    int is_padded = name->len > 0 && name->len <= 15;

    for (int i = name->len; i < 15; i++)
        is_padded = is_padded && !name->bytes[i];
    expect(is_padded, "a name", name->len);
    return printf("%.*s", name->len, (const char *)name->bytes);
}

static void print_place(uint64_t hpa, const struct cxlplan_place *place)
{
    static const struct cxlplan_via none;

    printf("down 0x%" PRIx64 " region ", hpa);
    print_name(&place->region);
    printf(" slot %" PRIu32 " position %" PRIu32 " via %s", place->slot, place->position, place->via_count ? "" : "-");
    expect(place->via_count <= 5 && place->endpoint < NODES, "the ports of a way", place->via_count);
    for (uint32_t i = 0; i < place->via_count; i++)
        printf("%s%s:%u:%u", i ? " " : "", names[place->via[i].node], place->via[i].decoder, place->via[i].entry);
    for (uint32_t i = place->via_count; i < 5; i++)
        expect(!memcmp(&place->via[i], &none, sizeof none), "a port behind the way", i);
    printf(" endpoint %s dpa 0x%" PRIx64 "\n", names[place->endpoint], place->dpa);
}

/* What the last command was refused with. */
static struct cxlplan_refusal refusal;

static void print_refusal(int status, const char *endpoint)
{
    expect(status == CXLPLAN_REFUSED, "the status of a refusal", status);
    expect(refusal.count == (refusal.kind == CXLPLAN_FULL ? 2 : 0), "the numbers of a refusal", refusal.count);
    expect(refusal.count || (!refusal.first && !refusal.second), "no number", refusal.kind);
    if (refusal.kind == CXLPLAN_UNMAPPED)
        printf("unmapped\n");
    else if (refusal.kind == CXLPLAN_CROSSES_END)
        printf("crosses end\n");
    else if (refusal.kind == CXLPLAN_NO_ENDPOINT)
        printf("no such endpoint %s\n", endpoint);
    else if (refusal.kind == CXLPLAN_FULL)
        printf("full need %" PRIu64 " free %" PRIu64 "\n", refusal.first, refusal.second);
    else
        printf("refusal %" PRIu32 "\n", refusal.kind);
}

/* ---- lines that go by calls */

/* The number that a word is, and nothing else. */
static int is_number(const char *word, uint64_t *number)
{
    char *end;

    if (word[0] < '0' || word[0] > '9' || strlen(word) > 18 || (word[0] == '0' && word[1] && word[1] != 'x'))
        return 0;
    *number = strtoull(word, &end, 0);
    return !*end && word[strlen(word) - 1] != 'x';
}

/* How many bytes two digits each of a word are. */
static size_t bytes_of(const char *word, uint8_t *bytes)
{
    size_t len = strlen(word) / 2;

    if (!len || len > 256 || strlen(word) % 2 || strspn(word, "0123456789abcdef") != strlen(word))
        return 0;
    for (size_t i = 0; i < len; i++) {
        unsigned byte;
        sscanf(word + 2 * i, "%2x", &byte);
        bytes[i] = byte;
    }
    return len;
}

static int call_down(struct cxlplan_session *session, uint64_t at)
{
    struct cxlplan_place place;
    int status = cxlplan_session_down(session, at, &place, &refusal);

    if (status == CXLPLAN_DONE)
        print_place(at, &place);
    return status;
}

static int call_up(struct cxlplan_session *session, const char *endpoint, uint64_t at)
{
    struct cxlplan_host_byte byte;
    int status = cxlplan_session_up(session, endpoint, strlen(endpoint), at, &byte, &refusal);

    if (status == CXLPLAN_DONE) {
        printf("host 0x%" PRIx64 " region ", byte.hpa);
        print_name(&byte.region);
        printf("\n");
    }
    return status;
}

static int call_load(struct cxlplan_session *session, uint64_t at, size_t len)
{
    uint8_t bytes[256];
    int status = cxlplan_session_load(session, at, bytes, len, &refusal);

    for (size_t i = 0; status == CXLPLAN_DONE && i < len; i++)
        printf("%s%02x%s", i ? "" : "bytes ", bytes[i], i + 1 < len ? "" : "\n");
    return status;
}

static int call_store(struct cxlplan_session *session, uint64_t at, const uint8_t *bytes, size_t len)
{
    int status = cxlplan_session_store(session, at, bytes, len, &refusal);

    if (status == CXLPLAN_DONE)
        printf("stored %zu\n", len);
    return status;
}

static int is_name(const char *word)
{
    return strlen(word) < 16 && strspn(word, "abcdefghijklmnopqrstuvwxyzABCDEFGHIJKLMNOPQRSTUVWXYZ0123456789_") == strlen(word);
}

/* Carries out a line by its call and prints the answer, if it is one that a call has; the answer's status, or -1. */
static int by_call(struct cxlplan_session *session, const char *line)
{
    char verb[8], first[600], second[600], more;
    uint8_t bytes[256];
    uint64_t at, number;
    int count = sscanf(line, "%7s %599s %599s %c", verb, first, second, &more), status = -1;
    size_t len;

    memset(&refusal, MARK, sizeof refusal);
    if (count == 2 && !strcmp(verb, "down") && is_number(first, &at))
        status = call_down(session, at);
    else if (count == 3 && !strcmp(verb, "up") && is_number(second, &at) && is_name(first))
        status = call_up(session, first, at);
    else if (count == 3 && !strcmp(verb, "load") && is_number(first, &at) && is_number(second, &number) && number && number <= 256)
        status = call_load(session, at, number);
    else if (count == 3 && !strcmp(verb, "store") && is_number(first, &at) && (len = bytes_of(second, bytes)))
        status = call_store(session, at, bytes, len);
    if (status == CXLPLAN_DONE)
        expect(!refusal.kind && !refusal.count && !refusal.first && !refusal.second, "no refusal", (long)refusal.kind);
    else if (status >= 0)
        print_refusal(status, first);
    return status;
}

static int lines(void)
{
    struct cxlplan_session session = CXLPLAN_NO_SESSION;
    const char *at = script.bytes, *end = at + script.len, *next;
    size_t written = 0, count = 1;
    int status = open_on(&session, room, ROOM, &written);
    char line[1300];

    fwrite(room, 1, written, stdout);
    for (; status == CXLPLAN_DONE && at < end; at = next) {
        next = memchr(at, '\n', end - at);
        next = next ? next + 1 : end;
        line[0] = 0;
        if (next - at < 1200 && next[-1] == '\n' && !memchr(at, 0, next - at) && !memchr(at, '\t', next - at)
            && !memchr(at, '\r', next - at)) {
            memcpy(line, at, next - at);
            line[next - at] = 0;
        }
        if (by_call(&session, line) >= 0) {
            expect(cxlplan_session_words(&session, NULL, 0, &count) == CXLPLAN_DONE && !count, "no word of an access", (long)count);
            continue;
        }
        status = cxlplan_session_act(&session, at, next - at, room, ROOM, &written);
        fwrite(room, 1, written, stdout);
    }
    cxlplan_session_close(&session);
    return status;
}

/* ---- a careless caller */

static const char create[] = "create r0 pmem 0x20000000 d1 d2\n";
enum { CREATE = sizeof create - 1 };
static const uint64_t base = 0x110000000;

/* The records of one command, all of the same bytes, and whether they still are. */
static union {
    struct {
        struct cxlplan_place place;
        struct cxlplan_host_byte byte;
        struct cxlplan_refusal refusal;
        uint8_t bytes[512];
    } is;
    unsigned char all[1024];
} told;

static void mark(void)
{
    memset(&told, MARK, sizeof told);
}

static int is_marked(void)
{
    for (size_t i = 0; i < sizeof told; i++)
        if (told.all[i] != MARK)
            return 0;
    return 1;
}

/* What asks for nothing is refused, and nothing is written; the session, if there is one, stays. */
static void unasked(struct cxlplan_session *session)
{
    void *held = session->held;

    mark();
    if (!held) {
        expect(cxlplan_session_down(session, base, &told.is.place, &told.is.refusal) == CXLPLAN_USAGE, "down of none", 0);
        expect(cxlplan_session_up(session, "d1", 2, 0, &told.is.byte, &told.is.refusal) == CXLPLAN_USAGE, "up of none", 0);
        expect(cxlplan_session_load(session, base, told.is.bytes, 4, &told.is.refusal) == CXLPLAN_USAGE, "a load of none", 0);
        expect(cxlplan_session_store(session, base, "1234", 4, &told.is.refusal) == CXLPLAN_USAGE, "a store of none", 0);
    }
    expect(cxlplan_session_up(session, "", 0, 0, &told.is.byte, &told.is.refusal) == CXLPLAN_USAGE, "no name", 0);
    expect(cxlplan_session_up(session, NULL, 0, 0, &told.is.byte, &told.is.refusal) == CXLPLAN_USAGE, "null for a name", 0);
    expect(cxlplan_session_up(session, "d 1", 3, 0, &told.is.byte, &told.is.refusal) == CXLPLAN_USAGE, "an odd name", 3);
    expect(cxlplan_session_up(session, "abcdefghijklmnop", 16, 0, &told.is.byte, &told.is.refusal) == CXLPLAN_USAGE, "a long name", 16);
    expect(cxlplan_session_load(session, base, told.is.bytes, 0, &told.is.refusal) == CXLPLAN_USAGE, "a load of no byte", 0);
    expect(cxlplan_session_load(session, base, NULL, 0, NULL) == CXLPLAN_USAGE, "a load into null", 0);
    expect(cxlplan_session_load(session, base, told.is.bytes, 257, &told.is.refusal) == CXLPLAN_USAGE, "a long load", 257);
    expect(cxlplan_session_store(session, base, "", 0, &told.is.refusal) == CXLPLAN_USAGE, "a store of no byte", 0);
    expect(cxlplan_session_store(session, base, create, 257, &told.is.refusal) == CXLPLAN_USAGE, "a long store", 257);
    expect(is_marked(), "what is not asked is not told", held != NULL);
    expect(session->held == held, "the session stays", held != NULL);
}

/* What is not fit is refused before anything is written. */
static void unfit(struct cxlplan_session *session)
{
    struct cxlplan_session *odd = (struct cxlplan_session *)(void *)(told.all + 1);
    struct cxlplan_refusal *refusal = &told.is.refusal, *in_place = (struct cxlplan_refusal *)(void *)&told.is.place;
    void *odd_bytes = told.all + 1, *held = session->held;
    struct cxlplan_host_byte own = {0};

    mark();
    expect(cxlplan_session_down(NULL, base, &told.is.place, refusal) == CXLPLAN_USAGE, "no handle", 0);
    expect(cxlplan_session_down(odd, base, &told.is.place, refusal) == CXLPLAN_USAGE, "an odd handle", 0);
    expect(cxlplan_session_down(session, base, NULL, refusal) == CXLPLAN_USAGE, "no place", 0);
    expect(cxlplan_session_down(session, base, odd_bytes, refusal) == CXLPLAN_USAGE, "an odd place", 0);
    expect(cxlplan_session_down(session, base, &told.is.place, (void *)(told.is.bytes + 1)) == CXLPLAN_USAGE, "an odd refusal", 0);
    expect(cxlplan_session_down(session, base, &told.is.place, in_place) == CXLPLAN_USAGE, "a refusal in the place", 0);
    expect(cxlplan_session_down(session, base, (struct cxlplan_place *)session, refusal) == CXLPLAN_USAGE, "a handle for a place", 0);
    expect(cxlplan_session_down(session, base, &told.is.place, (struct cxlplan_refusal *)session) == CXLPLAN_USAGE, "a handle", 0);
    expect(cxlplan_session_up(NULL, "d1", 2, 0, &told.is.byte, refusal) == CXLPLAN_USAGE, "no handle of up", 0);
    expect(cxlplan_session_up(session, NULL, 2, 0, &told.is.byte, refusal) == CXLPLAN_USAGE, "null with a length", 0);
    expect(cxlplan_session_up(session, "d1", SIZE_MAX, 0, &told.is.byte, refusal) == CXLPLAN_USAGE, "the length of a name", 0);
    expect(cxlplan_session_up(session, "d1", 2, 0, NULL, refusal) == CXLPLAN_USAGE, "no host byte", 0);
    expect(cxlplan_session_up(session, "d1", 2, 0, odd_bytes, refusal) == CXLPLAN_USAGE, "an odd host byte", 0);
    expect(cxlplan_session_up(session, refusal, 2, 0, &told.is.byte, refusal) == CXLPLAN_USAGE, "a name in the refusal", 0);
    expect(cxlplan_session_load(NULL, base, told.is.bytes, 4, refusal) == CXLPLAN_USAGE, "no handle of a load", 0);
    expect(cxlplan_session_load(session, base, NULL, 4, refusal) == CXLPLAN_USAGE, "a load into null", 4);
    expect(cxlplan_session_load(session, base, refusal, 4, refusal) == CXLPLAN_USAGE, "a load into the refusal", 4);
    expect(cxlplan_session_load(session, base, session, 4, refusal) == CXLPLAN_USAGE, "a load into the handle", 4);
    expect(cxlplan_session_load(session, base, told.is.bytes, SIZE_MAX, refusal) == CXLPLAN_USAGE, "the length of a load", -1);
    expect(cxlplan_session_store(NULL, base, "1", 1, refusal) == CXLPLAN_USAGE, "no handle of a store", 0);
    expect(cxlplan_session_store(session, base, NULL, 1, refusal) == CXLPLAN_USAGE, "a store of null", 1);
    expect(cxlplan_session_store(session, base, refusal, 1, refusal) == CXLPLAN_USAGE, "a store of the refusal", 1);
    expect(cxlplan_session_store(session, base, "1", SIZE_MAX / 2 + 1, refusal) == CXLPLAN_USAGE, "the length of a store", -1);
    expect(is_marked(), "what is not fit is not written", 0);
    memcpy(&own, "d1", 2);
    expect(cxlplan_session_up(session, &own, 2, 0, &own, NULL) == CXLPLAN_USAGE, "a name in the host byte", 2);
    expect(session->held == held, "the session stays", 1);
}

/* Each record by itself: what is told is written, and no byte beside it; a refusal leaves the record, and may stay untold. */
static void records(struct cxlplan_session *session)
{
    mark();
    expect(cxlplan_session_store(session, base + 254, "\xaa\xbb\xcc\xdd", 4, NULL) == CXLPLAN_DONE && is_marked(), "a store", 0);
    expect(cxlplan_session_load(session, base + 254, told.is.bytes + 1, 4, NULL) == CXLPLAN_DONE, "a load", 0);
    expect(!memcmp(told.is.bytes, "\xa5\xaa\xbb\xcc\xdd\xa5", 6), "the bytes of a load", 0);
    memset(told.is.bytes, MARK, 8);
    expect(is_marked(), "a byte beside a load", 0);
    expect(cxlplan_session_down(session, base + 256, &told.is.place, NULL) == CXLPLAN_DONE, "down", 0);
    expect(told.is.place.slot == 1 && told.is.place.position == 1 && !told.is.place.dpa, "a place", told.is.place.slot);
    memset(&told.is.place, MARK, sizeof told.is.place);
    expect(is_marked(), "a byte beside a place", 0);
    expect(cxlplan_session_up(session, "d2", 2, 0, &told.is.byte, NULL) == CXLPLAN_DONE && told.is.byte.hpa == base + 256, "up", 0);
    expect(told.is.byte.region.len == 2 && !memcmp(told.is.byte.region.bytes, "r0\0\0\0\0\0\0\0\0\0\0\0\0", 15), "its region", 0);
    mark();
    expect(cxlplan_session_down(session, 0, &told.is.place, NULL) == CXLPLAN_REFUSED && is_marked(), "a refusal untold", 0);
    expect(cxlplan_session_load(session, base + 0x20000000 - 2, told.is.bytes, 4, &told.is.refusal) == CXLPLAN_REFUSED, "a load", 1);
    expect(told.is.refusal.kind == CXLPLAN_CROSSES_END && !told.is.refusal.count, "a load past the end", (long)told.is.refusal.kind);
    memset(&told.is.refusal, MARK, sizeof told.is.refusal);
    expect(is_marked(), "a refused load", 0);
    expect(cxlplan_session_up(session, "d9", 2, 0, &told.is.byte, &told.is.refusal) == CXLPLAN_REFUSED, "up of an endpoint", 9);
    expect(told.is.refusal.kind == CXLPLAN_NO_ENDPOINT, "which is none", (long)told.is.refusal.kind);
    memset(&told.is.refusal, MARK, sizeof told.is.refusal);
    expect(is_marked(), "a refused up", 0);
}

static void careless(void)
{
    struct cxlplan_session session = CXLPLAN_NO_SESSION;
    size_t written = 0;

    unasked(&session);
    expect(open_on(&session, room, ROOM, &written) == CXLPLAN_DONE, "opened", 0);
    unasked(&session);
    unfit(&session);
    expect(cxlplan_session_act(&session, create, CREATE, room, ROOM, &written) == CXLPLAN_DONE, "a region", 0);
    unasked(&session);
    unfit(&session);
    records(&session);
    cxlplan_session_close(&session);
    unasked(&session);
}

/* ---- want of memory */

/* Each allocation of a command refused once: nothing is lost, the command is not carried out and nothing is told. */
static void memory(void)
{
    struct cxlplan_session session = CXLPLAN_NO_SESSION;
    size_t written = 0;
    long unanswered = 0;
    uint8_t now[4];
    int status;

    open_on(&session, room, ROOM, &written);
    cxlplan_session_act(&session, create, CREATE, room, ROOM, &written);
    for (uint8_t turn = 0; turn < 4; turn++) {
        uint8_t bytes[4] = {turn, 1, 2, 3};
        for (refused = 0;; refused++) {
            long before = live;
            mark();
            calls = 0;
            is_counted = 1;
            status = turn == 0   ? cxlplan_session_down(&session, base, &told.is.place, &told.is.refusal)
                     : turn == 1 ? cxlplan_session_up(&session, "d1", 2, 0, &told.is.byte, &told.is.refusal)
                     : turn == 2 ? cxlplan_session_load(&session, base, told.is.bytes, 4, &told.is.refusal)
                                 : cxlplan_session_store(&session, base, bytes, 4, &told.is.refusal);
            is_counted = 0;
            expect(live == before, "memory that is lost", refused);
            expect(status == (calls > refused ? CXLPLAN_NO_MEMORY : CXLPLAN_DONE), "the status", status);
            if (status == CXLPLAN_DONE)
                break;
            unanswered++;
            expect(is_marked(), "what is told without memory", refused);
            expect(turn >= 2, "a command that takes no memory", turn);
            expect(cxlplan_session_load(&session, base, now, 4, NULL) == CXLPLAN_DONE && !now[1], "a store without memory", refused);
        }
    }
    expect(cxlplan_session_load(&session, base, now, 4, NULL) == CXLPLAN_DONE && now[0] == 3 && now[3] == 3, "a store", 0);
    expect(unanswered > 1, "allocations", unanswered);
    cxlplan_session_close(&session);
}

/* ---- two threads */

struct turns {
    uint64_t sum;
    uint8_t start;
};

static void *many_turns(void *of)
{
    struct turns *turns = of;
    struct cxlplan_session session = CXLPLAN_NO_SESSION;
    static const uint64_t step = 0x1003;
    char text[4096];
    size_t written;

    if (cxlplan_session_open(&session, cedt.bytes, cedt.len, topo.bytes, topo.len, NULL, 0, text, sizeof text, &written)
        || cxlplan_session_act(&session, create, CREATE, text, sizeof text, &written))
        return NULL;
    for (int turn = 0; turn < TURNS; turn++) {
        struct cxlplan_place place = {0};
        uint8_t bytes[8] = {0}, given[8];
        memset(given, turns->start + turn, sizeof given);
        if (cxlplan_session_store(&session, base + turn * step, given, 8, NULL)
            || cxlplan_session_load(&session, base + turn * step, bytes, 8, NULL) || memcmp(given, bytes, 8)
            || cxlplan_session_down(&session, base + turn * step, &place, NULL))
            return NULL;
        turns->sum = 31 * turns->sum + place.dpa + place.slot + place.endpoint;
    }
    cxlplan_session_close(&session);
    return of;
}

static void threads(void)
{
    struct turns alone = {0, 0}, first = {0, 1}, second = {0, 2};
    pthread_t one, two;
    void *ended = NULL, *too = NULL;

    expect(many_turns(&alone) == &alone, "alone", 0);
    if (pthread_create(&one, NULL, many_turns, &first) || pthread_create(&two, NULL, many_turns, &second) || pthread_join(one, &ended)
        || pthread_join(two, &too))
        exit(70);
    expect(ended == &first && too == &second, "threads", 0);
    expect(alone.sum && alone.sum == first.sum && alone.sum == second.sum, "what two threads are answered", 0);
}

/* ---- times */

static double nanoseconds(void)
{
    struct timespec now;

    clock_gettime(CLOCK_PROCESS_CPUTIME_ID, &now);
    return 1e9 * now.tv_sec + now.tv_nsec;
}

static void times(const char *endpoint)
{
    struct cxlplan_session session = CXLPLAN_NO_SESSION;
    enum { COUNT = 1000000 };
    struct cxlplan_place place;
    struct cxlplan_host_byte byte;
    uint8_t bytes[8] = {1};
    size_t written, len = strlen(endpoint);
    double start;
    int any;

    if (open_on(&session, room, ROOM, &written) || cxlplan_session_act(&session, script.bytes, script.len, room, ROOM, &written))
        exit(70);
#define TIME(what, call)                                                                      \
    for (start = nanoseconds(), any = 0, written = 0; written < COUNT; written++)             \
        any |= call;                                                                          \
    printf("%s %.0f ns, status %d\n", what, (nanoseconds() - start) / COUNT, any)
    TIME("down", cxlplan_session_down(&session, base + 8 * (written % 4096), &place, &refusal));
    TIME("up", cxlplan_session_up(&session, endpoint, len, 8 * (written % 4096), &byte, &refusal));
    TIME("store of 8", cxlplan_session_store(&session, base + 8 * (written % 4096), bytes, 8, &refusal));
    TIME("load of 8", cxlplan_session_load(&session, base + 8 * (written % 4096), bytes, 8, &refusal));
    cxlplan_session_close(&session);
}

int main(int count, char **words)
{
    int status = 0;

    if (count < 4)
        return 70;
    cedt = read_file(words[2]);
    topo = read_file(words[3]);
    if (count > 4)
        script = read_file(words[4]);
    if (!strcmp(words[1], "lines") && count > 4) {
        if (count > 5)
            image = read_file(words[5]);
        read_names();
        status = lines();
    } else if (!strcmp(words[1], "careless")) {
        careless();
    } else if (!strcmp(words[1], "memory")) {
        memory();
    } else if (!strcmp(words[1], "times") && count > 5) {
        times(words[5]);
    } else {
        threads();
    }
    free(cedt.bytes);
    free(topo.bytes);
    free(script.bytes);
    free(image.bytes);
    return faults ? 71 : status;
}
