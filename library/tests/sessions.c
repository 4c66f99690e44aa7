/* Sessions by handle. `sessions lines CEDT TOPO SCRIPT [IMAGE]` writes what the lines of a script are answered, given one by one to a
   session, and holds its words and its image against those of cxlplan_words and cxlplan_image; the exit status is that of the last call.
   `sessions careless CEDT TOPO`, `sessions memory CEDT TOPO` and `sessions threads CEDT TOPO` say what is wrong, and end with 0 where
   nothing is: what a careless caller passes; each allocation refused once (linked with --wrap of malloc, realloc and free); and two
   threads, each with sessions of its own. */
#include "tried.h"
#include <pthread.h>

enum { WORDS = 65536 };

/* ---- line by line */

static char room[ROOM], other[ROOM];
static struct cxlplan_word rows[WORDS];

/* The words of a session as the lines of cxlplan_words. */
static size_t words_text(struct cxlplan_session *session, char *text)
{
    size_t count = 0, len = 0;

    expect(cxlplan_session_words(session, rows, WORDS, &count) == CXLPLAN_DONE && count <= WORDS, "words", (long)count);
    for (size_t i = 0; i < count; i++)
        len += sprintf(text + len, "w %u 0x%x 0x%x\n", (unsigned)rows[i].node, (unsigned)rows[i].offset, (unsigned)rows[i].value);
    return len;
}

static int lines(void)
{
    struct cxlplan_session session = CXLPLAN_NO_SESSION;
    const char *at = script.bytes, *end = at + script.len, *next;
    size_t written = 0, need = 0;
    int status = open_on(&session, room, ROOM, &written);

    fwrite(room, 1, written, stdout);
    expect(!session.held == (status != CXLPLAN_DONE), "a handle behind the opening", status);
    for (; status == CXLPLAN_DONE && at < end; at = next) {
        next = memchr(at, '\n', end - at);
        next = next ? next + 1 : end;
        status = cxlplan_session_act(&session, at, next - at, room, ROOM, &written);
        fwrite(room, 1, written, stdout);
    }
    if (session.held) {
        int told = cxlplan_words(cedt.bytes, cedt.len, topo.bytes, topo.len, image.bytes, image.len, script.bytes, script.len, room, ROOM,
                                 &need);
        written = words_text(&session, other);
        expect(told == CXLPLAN_DONE && written == need && !memcmp(room, other, need), "the words of the last line", (long)need);
        told = cxlplan_image(cedt.bytes, cedt.len, topo.bytes, topo.len, image.bytes, image.len, script.bytes, script.len, room, ROOM,
                             &need);
        expect(cxlplan_session_image(&session, other, ROOM, &written) == CXLPLAN_DONE, "the image", (long)written);
        expect(told == CXLPLAN_DONE && written == need && !memcmp(room, other, need), "the image behind the lines", (long)need);
    }
    expect(cxlplan_session_close(&session) == CXLPLAN_DONE && !session.held, "closed", 0);
    return status;
}

/* ---- a careless caller */

static const char create[] = "create r0 pmem 0x20000000 d1 d2\n";
enum { CREATE = sizeof create - 1, FENCE = 64, MARK = 0xa5 };

/* No session: each call says so, and does nothing. */
static void none(void)
{
    struct cxlplan_session session = CXLPLAN_NO_SESSION;
    struct cxlplan_word word = {7, 7, 7};
    size_t written = 77;

    expect(cxlplan_session_act(&session, create, CREATE, room, ROOM, &written) == CXLPLAN_USAGE && !written, "a line of none", 0);
    expect(cxlplan_session_words(&session, &word, 1, &written) == CXLPLAN_USAGE && !written && word.node == 7, "words of none", 0);
    expect(cxlplan_session_image(&session, room, ROOM, &written) == CXLPLAN_USAGE && !written, "an image of none", 0);
    expect(cxlplan_session_close(&session) == CXLPLAN_DONE && !session.held, "none closed", 0);
}

/* What is not fit is refused before anything is written. */
static void unfit(void)
{
    static union {
        struct cxlplan_session session;
        size_t count;
        struct cxlplan_word words[64];
        unsigned char bytes[4096];
    } all;
    struct cxlplan_session session = CXLPLAN_NO_SESSION, *odd = (struct cxlplan_session *)(void *)(all.bytes + 1);
    size_t written = 77;
    void *held;

    expect(open_on(NULL, room, ROOM, &written) == CXLPLAN_USAGE && written == 77, "no handle", 0);
    expect(cxlplan_session_close(NULL) == CXLPLAN_USAGE, "no handle to close", 0);
    expect(cxlplan_session_close(odd) == CXLPLAN_USAGE, "an odd handle to close", 1);
    expect(open_on(odd, room, ROOM, &written) == CXLPLAN_USAGE && written == 77, "an odd handle", 1);
    expect(open_on(&session, room, ROOM, (size_t *)(void *)(all.bytes + 1)) == CXLPLAN_USAGE && !session.held, "an odd count", 1);
    expect(open_on(&all.session, all.bytes, sizeof all, &written) == CXLPLAN_USAGE && !all.session.held, "a handle in the room", 0);
    expect(open_on(&all.session, room, ROOM, &all.count) == CXLPLAN_USAGE && !all.session.held, "a handle in the count", 0);
    expect(cxlplan_session_open(&session, NULL, 1, NULL, 0, NULL, 0, room, ROOM, &written) == CXLPLAN_USAGE && written == 77,
           "null with a length", 1);
    expect(open_on(&session, room, SIZE_MAX, &written) == CXLPLAN_USAGE && written == 77, "the length of a room", -1);
    expect(open_on(&session, room, ROOM, &written) == CXLPLAN_DONE && session.held && !written, "opened", 0);
    held = session.held;
    written = 77;
    expect(open_on(&session, room, ROOM, &written) == CXLPLAN_USAGE && session.held == held && !written, "opened twice", 0);
    written = 77;
    expect(cxlplan_session_act(&session, room, 64, room, ROOM, &written) == CXLPLAN_USAGE && written == 77, "lines in the room", 0);
    expect(cxlplan_session_act(&session, &session, sizeof session, room, ROOM, &written) == CXLPLAN_USAGE && written == 77,
           "the handle as lines", 0);
    expect(cxlplan_session_words(&session, (struct cxlplan_word *)(void *)(all.bytes + 1), 1, &written) == CXLPLAN_USAGE && written == 77,
           "odd rows", 1);
    expect(cxlplan_session_words(&session, all.words, SIZE_MAX / 4, &written) == CXLPLAN_USAGE && written == 77, "too many rows", -1);
    expect(cxlplan_session_words(&session, all.words, 64, &all.count) == CXLPLAN_USAGE, "the count in the rows", 0);
    expect(cxlplan_session_words(&session, NULL, 0, NULL) == CXLPLAN_DONE, "no rows and no count", 0);
    expect(cxlplan_session_words(&session, NULL, 1, &written) == CXLPLAN_USAGE && written == 77, "null for a row", 1);
    expect(cxlplan_session_act(&session, NULL, 0, NULL, 0, NULL) == CXLPLAN_DONE, "no line", 0);
    expect(session.held == held, "the same session", 0);
    cxlplan_session_close(&session);
}

/* A room of each size up to what an image needs, and rows of each number up to what the words need: the front stands there, and what
   is behind stays. */
static void fronts(void)
{
    struct cxlplan_session session = CXLPLAN_NO_SESSION;
    static struct cxlplan_word part[WORDS];
    size_t need = 0, count = 0, written = 77;

    open_on(&session, room, ROOM, &written);
    expect(cxlplan_session_act(&session, create, CREATE, room, ROOM, &written) == CXLPLAN_DONE && written, "a region", (long)written);
    expect(cxlplan_session_image(&session, other, ROOM, &need) == CXLPLAN_DONE && need, "an image", (long)need);
    for (size_t len = 0; len <= need + 1; len++) {
        memset(room, MARK, need + 2 * FENCE);
        expect(cxlplan_session_image(&session, room, len, &written) == (len < need ? CXLPLAN_WRITE_FAULT : CXLPLAN_DONE),
               "the status of an image's room", (long)len);
        expect(written == (len < need ? len : need) && !memcmp(room, other, written), "the front of an image", (long)len);
        for (size_t i = written; i < need + FENCE; i++)
            expect((unsigned char)room[i] == MARK, "a byte behind an image", (long)len);
    }
    expect(cxlplan_session_words(&session, rows, WORDS, &need) == CXLPLAN_DONE && need, "words of a create", (long)need);
    for (size_t len = 0; len <= need + 2; len++) {
        memset(part, MARK, (need + 4) * sizeof *part);
        expect(cxlplan_session_words(&session, part, len, &count) == CXLPLAN_DONE && count == need, "the count of words", (long)len);
        written = (len < need ? len : need) * sizeof *part;
        expect(!memcmp(part, rows, written), "the front of words", (long)len);
        for (size_t i = written; i < (need + 4) * sizeof *part; i++)
            expect(((unsigned char *)part)[i] == MARK, "a byte behind words", (long)len);
    }
    /* a reply that is cut: the line is carried out, and none behind it */
    expect(cxlplan_session_act(&session, "destroy r0\ndestroy r0\n", 22, room, 3, &written) == CXLPLAN_WRITE_FAULT && written == 3,
           "a reply that is cut", (long)written);
    expect(cxlplan_session_act(&session, create, CREATE, room, ROOM, &written) == CXLPLAN_DONE && !memcmp(room, "created r0", 10),
           "a region again", (long)written);
    cxlplan_session_close(&session);
}

/* ---- want of memory */

/* Opens a session, asks it lines and its image, and closes it; answers the statuses, one over the other, and the text of all. */
static int one_life(char *text, size_t *len)
{
    static const char *const asked[] = {create, "store 0x1100000fe aabbccdd\n", "show r0\n", "load 0x1100000fe 4\n", "destroy r0\n"};
    struct cxlplan_session session = CXLPLAN_NO_SESSION;
    size_t written = 0;
    int status = open_on(&session, text, ROOM, &written), any = status;

    expect(status == CXLPLAN_DONE || (status == CXLPLAN_NO_MEMORY && !session.held), "an opening", refused);
    *len = written;
    for (size_t i = 0; session.held && i < sizeof asked / sizeof *asked; i++) {
        status = cxlplan_session_act(&session, asked[i], strlen(asked[i]), text + *len, ROOM - *len, &written);
        expect(status == CXLPLAN_DONE || status == CXLPLAN_NO_MEMORY, "a line", refused);
        any |= status;
        *len += written;
    }
    if (session.held) {
        any |= cxlplan_session_image(&session, text + *len, ROOM - *len, &written);
        *len += written;
    }
    cxlplan_session_close(&session);
    return any;
}

/* Each allocation refused once: nothing is lost, and what is answered all the same is answered as with memory. */
static void memory(void)
{
    size_t need, len;
    long before, unanswered = 0;
    int any = one_life(other, &need);

    expect(!any && need, "a life with memory", (long)need);
    do {
        before = live;
        calls = 0;
        is_counted = 1;
        any = one_life(room, &len);
        is_counted = 0;
        expect(live == before, "memory that is lost", refused);
        expect(any || (len == need && !memcmp(room, other, need)), "what is answered", refused);
        unanswered += any != 0;
    } while (calls > refused++);
    expect(!any && refused > 50 && unanswered > 50, "allocations", unanswered);
}

/* ---- two threads */

static void *many_turns(void *text)
{
    char *at = text;

    for (int turn = 0; turn < TURNS; turn++) {
        struct cxlplan_session session = CXLPLAN_NO_SESSION;
        size_t len = 0, written = 0;

        if (open_on(&session, at, 4096, &written))
            return NULL;
        cxlplan_session_act(&session, create, CREATE, at, 4096, &written);
        len = written;
        cxlplan_session_act(&session, "store 0x110000000 0102\nload 0x110000000 2\n", 42, at + len, 4096 - len, &written);
        len += written;
        cxlplan_session_image(&session, at + len, 4096 - len, &written);
        cxlplan_session_close(&session);
    }
    return text;
}

static void threads(void)
{
    static char alone[4096], first[4096], second[4096];
    pthread_t one, two;
    void *ended = NULL, *too = NULL;

    expect(many_turns(alone) == alone, "alone", 0);
    if (pthread_create(&one, NULL, many_turns, first) || pthread_create(&two, NULL, many_turns, second) || pthread_join(one, &ended)
        || pthread_join(two, &too))
        exit(70);
    expect(ended == first && too == second, "threads", 0);
    expect(!memcmp(alone, first, sizeof alone) && !memcmp(alone, second, sizeof alone), "what two threads are answered", 0);
}

int main(int count, char **words)
{
    int status = 0;

    if (count < 4)
        return 70;
    cedt = read_file(words[2]);
    topo = read_file(words[3]);
    if (!strcmp(words[1], "lines") && count > 4) {
        script = read_file(words[4]);
        if (count > 5)
            image = read_file(words[5]);
        status = lines();
    } else if (!strcmp(words[1], "careless")) {
        none();
        unfit();
        fronts();
    } else if (!strcmp(words[1], "memory")) {
        memory();
    } else {
        threads();
    }
    free(cedt.bytes);
    free(topo.bytes);
    free(script.bytes);
    free(image.bytes);
    return faults ? 71 : status;
}
